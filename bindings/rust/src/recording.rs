// SPDX-License-Identifier: Apache-2.0 OR MIT
//! What was recorded of a domain.

use crate::sys;
use crate::threads::{Brings, Place};

// What a recording has room for.
#[derive(Clone, Copy, Debug)]
pub(crate) struct Room {
    pub(crate) commands: usize,
    pub(crate) bytes: usize,
}

/// What was recorded of a domain: its first calls.
///
/// Fields may come, so that a pattern says `..`:
///
/// ```compile_fail
/// fn is_whole(recording: iox2_pubsub::Recording) -> bool {
///     let iox2_pubsub::Recording { text: _, missed } = recording;
///     missed == 0
/// }
/// ```
#[non_exhaustive]
#[derive(Clone, Debug, PartialEq, Eq, Hash)]
pub struct Recording {
    /// The recording, which `tools/replay` runs again and `tools/draw` draws. It is empty where nothing is
    /// recorded.
    pub text: String,
    /// How many commands had no room: the recording ends before the first of these.
    pub missed: u64,
}

impl Recording {
    pub(crate) fn read(place: &impl Place) -> Result<Recording, u32> {
        let (mut bytes, mut missed) = (Vec::new(), 0);
        let code = place.call(Brings::NOTHING, |shared| loop {
            let (room, mut len) = (bytes.len(), 0);
            // SAFETY: see `Shared::at`.
            let code = unsafe {
                let at = bytes.as_mut_ptr();
                sys::iox2ps_domain_recording(shared.at(), at, room, &mut len, &mut missed)
            };
            if code != sys::TOO_SMALL {
                return code;
            }
            bytes.resize(len, 0);
        });
        match (code, String::from_utf8(bytes)) {
            (sys::OK, Ok(text)) => Ok(Recording { text, missed }),
            (code, _) => Err(code),
        }
    }
}
