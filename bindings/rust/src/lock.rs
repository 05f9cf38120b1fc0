// SPDX-License-Identifier: Apache-2.0 OR MIT
//! The lock of a domain that threads share.

use std::fmt;
use std::hint::spin_loop;
use std::sync::{Mutex, MutexGuard, PoisonError, TryLockError};
use std::thread::yield_now;

/// A lock under which the calls of a shared domain are made. [`StdLock`] is the one that is there; another is
/// brought by [`DomainBuilder::create_with_lock`](crate::DomainBuilder::create_with_lock), for example one that
/// lends its holder the priority of whoever waits for it.
///
/// # Safety
///
/// While [`hold`](DomainLock::hold) runs what it was given, no other thread runs what was given to the same lock,
/// and what one has written the next one sees. The lock is given back where what runs panics, too.
pub unsafe trait DomainLock: Send + Sync + 'static {
    /// Whether all threads that may go on are woken at once. Else they are woken one by one, each by the one
    /// before, so that they don't all want the lock together; but then a thread waits until the one that was
    /// woken before it has run, whatever its priority.
    const WAKES_ALL: bool = false;

    /// How often a thread that waits looks for a change before it sleeps: up to 7 short looks, and then after
    /// others were let run. 0 for one that sleeps at once.
    const LOOKS: u32 = 10;

    /// A lock that nobody has.
    fn new() -> Self;

    /// Takes the lock, runs this, and gives the lock back.
    fn hold<R>(&self, run: impl FnOnce() -> R) -> R;
}

/// The standard library's lock. Who finds it taken looks again after pauses that double, and then some times after
/// others were let run, before it sleeps: so its holder makes several calls meanwhile, and what they need stays near its
/// processor. That takes 2,016 pauses in all, some 110 microseconds on the Xeon where they were measured. A
/// thread keeps its processor for the first 30 of these microseconds. It lends no priority: where threads
/// have unequal priorities, or there is one processor, bring a lock of your own.
pub struct StdLock(Mutex<()>);

// How many short pauses are between the first looks.
const PAUSES: [u32; 4] = [32, 64, 128, 256];
// How often others are let run before it sleeps, and how many pauses come after each time.
const YIELDS: u32 = 12;
const PAUSES_AFTER: u32 = 128;

// A panic leaves nothing half done: what runs under the lock are calls of the archive, which don't unwind, and
// counts. So the poison says nothing.
impl StdLock {
    #[inline]
    fn look(&self) -> Option<MutexGuard<'_, ()>> {
        match self.0.try_lock() {
            Ok(guard) => Some(guard),
            Err(TryLockError::Poisoned(poison)) => Some(poison.into_inner()),
            Err(TryLockError::WouldBlock) => None,
        }
    }

    fn look_after(&self, pauses: u32) -> Option<MutexGuard<'_, ()>> {
        (0..pauses).for_each(|_| spin_loop());
        self.look()
    }

    #[cold]
    fn wait(&self) -> MutexGuard<'_, ()> {
        for pauses in PAUSES {
            if let Some(guard) = self.look_after(pauses) {
                return guard;
            }
        }
        for _ in 0..YIELDS {
            yield_now();
            if let Some(guard) = self.look_after(PAUSES_AFTER) {
                return guard;
            }
        }
        self.0.lock().unwrap_or_else(PoisonError::into_inner)
    }
}

impl fmt::Debug for StdLock {
    fn fmt(&self, f: &mut fmt::Formatter<'_>) -> fmt::Result {
        f.write_str("StdLock")
    }
}

// SAFETY: it is a mutex.
unsafe impl DomainLock for StdLock {
    fn new() -> Self {
        StdLock(Mutex::new(()))
    }

    #[inline]
    fn hold<R>(&self, run: impl FnOnce() -> R) -> R {
        let _guard = self.look().unwrap_or_else(|| self.wait());
        run()
    }
}
