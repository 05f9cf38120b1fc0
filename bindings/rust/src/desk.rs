// SPDX-License-Identifier: Apache-2.0 OR MIT
//! What a reader asks for, and another thread does for it that has the lock.

use crate::sample::release;
use crate::shared::Shared;
use crate::subscriber::{receive_next, Got};
use crate::sys;
use crate::threads::Brings;
use std::cell::UnsafeCell;
use std::mem::MaybeUninit;
use std::sync::atomic::{AtomicU8, Ordering};

/// What was received in one hold of the lock.
pub(crate) struct Batch {
    pub(crate) taken: Vec<Got>,
    /// How many of them were read.
    pub(crate) read: usize,
    pub(crate) capacity: usize,
}

impl Batch {
    /// Gives back all that is taken, and takes what waits.
    pub(crate) fn turn(&mut self, shared: &mut Shared, port: &sys::Subscriber) -> u32 {
        let gave_back = self.give_back(shared);
        let code = self.take(shared, port);
        if gave_back {
            shared.brings_too = Brings::LOAN;
        }
        code
    }

    pub(crate) fn give_back(&mut self, shared: &mut Shared) -> bool {
        let had_some = !self.taken.is_empty();
        for got in self.taken.drain(..) {
            release(shared, &got.sample);
        }
        self.read = 0;
        had_some
    }

    fn take(&mut self, shared: &mut Shared, port: &sys::Subscriber) -> u32 {
        let mut got = MaybeUninit::uninit();
        while self.taken.len() < self.capacity {
            match receive_next(shared, port, &mut got) {
                // SAFETY: with this code it is written.
                sys::OK => self.taken.push(unsafe { *got.as_ptr() }),
                code if self.taken.is_empty() => return code,
                // What is refused now is asked for again when what is taken has been given back.
                _ => break,
            }
        }
        sys::OK
    }

    pub(crate) fn unread(&self) -> usize {
        self.taken.len() - self.read
    }
}

// Whose the batch is: the reader's, but while it asks that of whoever has the lock.
const OWN: u8 = 0;
const ASKED: u8 = 1;
const SERVED: u8 = 2;

/// A reader's batch. Its reader may ask for a turn without the lock, and a thread that has the lock then makes it.
///
/// So what a message needs stays near the processor of the thread that sends, and the reader takes no lock.
#[doc(hidden)]
#[allow(missing_debug_implementations)]
// As long as what processors take from each other.
#[repr(align(128))]
pub struct Desk {
    state: AtomicU8,
    port: sys::Subscriber,
    batch: UnsafeCell<Batch>,
}

// SAFETY: what is in the batch are numbers and places of messages, which any thread may give back under the lock.
unsafe impl Send for Desk {}
// SAFETY: one thread at a time reaches the batch: its reader, or one that has the lock while the reader asks. Each sees what the
// one before has written, since the state is stored with `Release` and loaded with `Acquire`.
unsafe impl Sync for Desk {}

impl Desk {
    /// `None` where there is no memory for so many messages.
    pub(crate) fn new(port: sys::Subscriber, capacity: usize) -> Option<Self> {
        let mut taken = Vec::new();
        taken.try_reserve_exact(capacity).ok()?;
        Some(Desk {
            state: AtomicU8::new(OWN),
            port,
            batch: UnsafeCell::new(Batch {
                taken,
                read: 0,
                capacity,
            }),
        })
    }

    /// The batch. It is the reader's, but while it asks that of whoever has the lock.
    #[inline]
    pub(crate) fn batch(&self) -> *mut Batch {
        self.batch.get()
    }

    /// The reader asks for a turn. Returns whether the one before was full, so that more may wait.
    pub(crate) fn ask(&self) -> bool {
        // SAFETY: it doesn't ask yet.
        let batch = unsafe { &*self.batch.get() };
        let was_full = batch.taken.len() == batch.capacity;
        self.state.store(ASKED, Ordering::Release);
        was_full
    }

    /// Whether somebody has made it. Then the batch is the reader's again.
    pub(crate) fn is_served(&self) -> bool {
        let is_served = self.state.load(Ordering::Acquire) == SERVED;
        if is_served {
            self.state.store(OWN, Ordering::Relaxed);
        }
        is_served
    }

    /// Under the lock, by any thread: makes the turn where it is asked for, and says what that brings to others.
    pub(crate) fn serve(&self, shared: &mut Shared) -> Brings {
        if self.state.load(Ordering::Acquire) != ASKED {
            return Brings::NOTHING;
        }
        // SAFETY: the reader asks, and nobody else has the lock.
        let batch = unsafe { &mut *self.batch.get() };
        let had_some = batch.give_back(shared);
        let code = batch.take(shared, &self.port);
        if code == sys::OK {
            self.state.store(SERVED, Ordering::Release);
            return Brings::COPY;
        }
        // What is refused the reader finds itself.
        match had_some {
            true => Brings::LOAN,
            false => Brings::NOTHING,
        }
    }

    /// Under the lock, by the reader: what it asked for, or a turn of its own.
    pub(crate) fn turn(&self, shared: &mut Shared) -> u32 {
        if self.state.swap(OWN, Ordering::Acquire) == SERVED {
            return sys::OK;
        }
        // SAFETY: it asks no longer.
        unsafe { &mut *self.batch.get() }.turn(shared, &self.port)
    }
}
