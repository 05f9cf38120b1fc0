// SPDX-License-Identifier: Apache-2.0 OR MIT
//! A message that was received.

use crate::domain::{expect, expect_here};
use crate::header::Header;
use crate::ids::{number, UniquePublisherId, UniqueSubscriberId};
use crate::payload::Payload;
use crate::shared::Shared;
use crate::subscriber::Got;
use crate::sys;
use crate::threads::{Brings, MayWait, OneThread, Place, Threads};
use std::fmt;
use std::ops::Deref;

/// A message that was received, which reads as its payload where that lies. It is given back when it
/// is dropped, and until then it counts against what its subscriber may borrow. A payload's own method of a name that
/// this has, as `number`, is called by `sample.payload().number()`.
#[must_use = "a sample that isn't read is given back"]
#[repr(C)]
pub struct Sample<P: Payload + ?Sized, M: Threads = OneThread> {
    payload: *const P,
    hold: M::Hold,
    sample: sys::Sample,
}

// SAFETY: what it has is a part in the domain, which may be given to other threads, and the place of a
// message that nobody writes until it is released, by a call under the lock.
unsafe impl<P: Payload + ?Sized + Send + Sync, M: MayWait> Send for Sample<P, M> {}
// SAFETY: many threads may read it at a time, by this or by the samples of other subscribers, and `P` is `Sync`.
unsafe impl<P: Payload + ?Sized + Send + Sync, M: MayWait> Sync for Sample<P, M> {}

impl<P: Payload + ?Sized, M: Threads> Sample<P, M> {
    #[inline(always)]
    pub(crate) fn new(hold: M::Hold, got: &Got, payload: *const P) -> Self {
        Sample {
            hold,
            sample: got.sample,
            payload,
        }
    }

    /// The id of the publisher that sent it.
    #[must_use]
    pub fn origin(&self) -> UniquePublisherId {
        UniquePublisherId::of(self.sample.origin)
    }

    /// The id of the subscriber that received it.
    #[must_use]
    pub fn subscriber(&self) -> UniqueSubscriberId {
        UniqueSubscriberId::of(self.sample.subscriber)
    }

    /// The number of the message: no other message of the domain has it.
    #[must_use]
    pub fn number(&self) -> u128 {
        number(self.sample.number)
    }

    /// Where it comes from.
    #[must_use]
    pub fn header(&self) -> Header {
        let mut header = sys::Header::default();
        // SAFETY: see `Shared::at`.
        expect(self.hold.call(Brings::NOTHING, |shared| unsafe {
            sys::iox2ps_sample_header(shared.at(), &self.sample, &mut header)
        }));
        Header::of(&header, P::SIZE)
    }

    /// The message itself.
    #[must_use]
    pub fn payload(&self) -> &P {
        self
    }
}

impl<P: Payload + ?Sized, M: Threads> Deref for Sample<P, M> {
    type Target = P;

    #[inline]
    fn deref(&self) -> &P {
        // SAFETY: the bytes stay where they are and aren't written until the sample is released, and
        // its domain is there, since this has a part in it. They were sent as a `P`.
        unsafe { &*self.payload }
    }
}

impl<P: Payload + ?Sized, M: Threads> Drop for Sample<P, M> {
    #[inline(always)]
    fn drop(&mut self) {
        let release = |shared: &mut Shared| release(shared, &self.sample);
        expect_here(self.hold.call(Brings::LOAN, release));
    }
}

#[inline(always)]
pub(crate) fn release(shared: &mut Shared, sample: &sys::Sample) -> u32 {
    // SAFETY: see `Shared::at`.
    unsafe { sys::iox2ps_sample_release(shared.at(), sample) }
}

impl<P: Payload + ?Sized + fmt::Debug, M: Threads> fmt::Debug for Sample<P, M> {
    fn fmt(&self, f: &mut fmt::Formatter<'_>) -> fmt::Result {
        f.debug_struct("Sample")
            .field("origin", &self.origin())
            .field("number", &self.number())
            .field("payload", &self.payload())
            .finish()
    }
}
