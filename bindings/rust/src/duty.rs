// SPDX-License-Identifier: Apache-2.0 OR MIT
//! Who sleeps where other processes wake this one: a thread that waits, as long as only threads wait, or else the domain's own.

use std::mem::take;
use std::thread::Thread;

/// Used under the lock.
#[derive(Default)]
pub(crate) struct Duty {
    // The domain's own thread, and whether it is elsewhere.
    watcher: Option<Thread>,
    is_away: bool,
    // A thread that waits sleeps for all.
    has_sleeper: bool,
    // One did so since the domain's own thread was called.
    is_of_threads: bool,
}

impl Duty {
    pub(crate) fn watcher_is(&mut self, thread: &Thread) {
        self.watcher = Some(thread.clone());
    }

    /// Whether a thread that is about to sleep does so for all. Others than threads may wait.
    pub(crate) fn take(&mut self, others_wait: bool) -> bool {
        if self.has_sleeper || others_wait {
            return false;
        }
        self.has_sleeper = true;
        self.is_of_threads = true;
        true
    }

    /// It is awake.
    pub(crate) fn give_back(&mut self) {
        self.has_sleeper = false;
    }

    /// Whether nobody sleeps but perhaps the domain's own thread.
    pub(crate) fn is_free(&self) -> bool {
        !self.has_sleeper
    }

    /// From now on the domain's own thread sleeps for all.
    pub(crate) fn call_watcher(&mut self) {
        self.is_of_threads = false;
        if take(&mut self.is_away) {
            if let Some(watcher) = &self.watcher {
                watcher.unpark();
            }
        }
    }

    /// Whether the domain's own thread isn't needed, until it is called.
    pub(crate) fn lets_watcher_go(&mut self, others_wait: bool) -> bool {
        self.is_away = self.is_of_threads && !others_wait;
        self.is_away
    }
}
