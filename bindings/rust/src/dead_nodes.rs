// SPDX-License-Identifier: Apache-2.0 OR MIT
//! What is called when a process died, by the thread that sleeps for the domain.

use crate::listeners::{Listener, Listeners};
use crate::nodes::{dead_count, dead_since, NodeView};
use crate::shared::Shared;
use crate::sys;
use crate::sys::processes::BRINGS_DEAD_NODE;
use std::mem::replace;
use std::sync::{Arc, Mutex, PoisonError};

pub type DeadNodeListener = Arc<Mutex<dyn FnMut(&NodeView) + Send>>;

/// Used under the lock.
#[derive(Default)]
pub(crate) struct DeadNodes {
    listener: Option<DeadNodeListener>,
    // How many deaths were told.
    told: u64,
}

impl DeadNodes {
    /// From now on this is called. Returns what was called before, which is to be dropped without the lock.
    pub(crate) fn listen(
        &mut self,
        shared: &mut Shared,
        listener: Option<DeadNodeListener>,
    ) -> Result<Option<DeadNodeListener>, u32> {
        match dead_count(shared, &mut self.told) {
            sys::OK => Ok(replace(&mut self.listener, listener)),
            code => Err(code),
        }
    }

    /// Of which calls those are told that the domain sleeps for, beside what they bring.
    pub(crate) fn wants(&self) -> u32 {
        match self.listener {
            Some(_) => BRINGS_DEAD_NODE,
            None => 0,
        }
    }

    /// What is to be called without the lock, since processes died that nobody was told of.
    pub(crate) fn calls(&mut self, shared: &mut Shared) -> Option<Arc<Listeners>> {
        let (listener, mut found) = (self.listener.as_ref()?, Vec::new());
        let first = self.told;
        if dead_count(shared, &mut self.told) != sys::OK || self.told == first {
            return None;
        }
        dead_since(shared, first, &mut found);
        // One for each death, so that a panic isn't that of the next.
        Some(Listeners::of(found.into_iter().map(|node| {
            let listener = listener.clone();
            Arc::new(move || {
                let mut call = listener.lock().unwrap_or_else(PoisonError::into_inner);
                call(&node);
            }) as Listener
        })))
    }
}
