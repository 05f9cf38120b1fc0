// SPDX-License-Identifier: Apache-2.0 OR MIT
//! Where the thread of a wait set sleeps.

use std::sync::atomic::{AtomicBool, Ordering};
use std::sync::{Condvar, Mutex, MutexGuard, PoisonError};
use std::time::Instant;

/// It is raised under the lock of a domain, for which the thread that sleeps here doesn't wait meanwhile.
#[doc(hidden)]
#[derive(Debug, Default)]
pub struct Alarm {
    is_raised: AtomicBool,
    sleeps: Mutex<()>,
    rings: Condvar,
}

impl Alarm {
    pub(crate) fn raise(&self) {
        if !self.is_raised.swap(true, Ordering::AcqRel) {
            // Behind a thread that has found it lowered and doesn't sleep yet.
            drop(self.sleeps());
            self.rings.notify_all();
        }
    }

    /// What is looked at after this has all that was brought by whoever raised it before.
    pub(crate) fn lower(&self) {
        self.is_raised.swap(false, Ordering::AcqRel);
    }

    /// Returns when it is raised or this moment has come.
    pub(crate) fn sleep(&self, until: Option<Instant>) {
        let mut sleeps = self.sleeps();
        while !self.is_raised.load(Ordering::Acquire) {
            let woken = match until.map(|until| until.checked_duration_since(Instant::now())) {
                None => self.rings.wait(sleeps),
                Some(Some(left)) if !left.is_zero() => {
                    match self.rings.wait_timeout(sleeps, left) {
                        Ok((sleeps, _)) => Ok(sleeps),
                        Err(poison) => Err(PoisonError::new(poison.into_inner().0)),
                    }
                }
                Some(_) => return,
            };
            sleeps = woken.unwrap_or_else(PoisonError::into_inner);
        }
    }

    fn sleeps(&self) -> MutexGuard<'_, ()> {
        self.sleeps.lock().unwrap_or_else(PoisonError::into_inner)
    }
}
