// SPDX-License-Identifier: Apache-2.0 OR MIT
//! What other processes bring to a domain that threads share, and who sleeps meanwhile.

use super::{Guarded, Seen, State};
use crate::dead_nodes::DeadNodeListener;
use crate::errors::AFTER_FORK;
use crate::lock::DomainLock;
use crate::shared::Shared;
use crate::sys;
use crate::sys::processes::PROCESSES_NOT_SHARED;
use crate::threads::{Brings, Waits};
use crate::waiting::Wake;
use crate::watch::{calls_of, Begun, Handle, Pace, Sleep, Told, Watch};
use std::hint::spin_loop;
use std::io;
use std::ptr::addr_of_mut;
use std::sync::Arc;
use std::thread::Thread;
use std::time::Instant;

/// What is used without the lock.
#[derive(Default)]
pub(super) struct Others {
    watch: Watch,
    // `None` where no other process can bring anything.
    pace: Option<Pace>,
}

impl Others {
    /// The domain goes.
    pub(super) fn end(&mut self, is_here: bool) {
        self.watch.end(is_here);
    }
}

/// `None` where no other process can bring anything.
pub(super) type OfOthers = Option<Told>;

impl State {
    // Whether others than threads wait for what other processes bring.
    fn others_wait(&self) -> bool {
        let told = self.told.as_ref();
        self.waiting.has_others() || told.map_or(false, |told| told.dead_nodes.wants() != 0)
    }

    // The thread that slept for all is awake, and out of the list. What came is brought to the others by its next call.
    pub(super) fn is_awake(&mut self) {
        if let Some(told) = &mut self.told {
            told.duty.give_back();
            if self.waiting.has_threads() {
                let too = self.shared.brings_too;
                self.shared.brings_too = too.and(told.look(&mut self.shared));
            }
        }
    }

    // A thread waits no longer. Where others still do, somebody sleeps for them.
    pub(super) fn hands_over(&mut self) {
        let threads_wait = self.waiting.has_threads();
        if let Some(told) = &mut self.told {
            if threads_wait && told.duty.is_free() {
                told.duty.call_watcher();
            }
        }
    }
}

impl<L: DomainLock> Guarded<L> {
    // Of a domain that processes may share, before any thread waits: a thread looks for the dead, and sleeps for all that wait.
    pub(crate) fn watched(mut self, pace: Pace) -> io::Result<Arc<Self>> {
        let state = self.state.get_mut();
        state.told = Told::of(&mut state.shared);
        self.others.pace = state.told.is_some().then_some(pace);
        let watched = Arc::new(self);
        if watched.others.pace.is_some() {
            watched.others.watch.start(&watched)?;
        }
        Ok(watched)
    }

    // What the domain's pointer is, for calls that are made without the lock.
    pub(crate) fn handle(&self) -> Handle {
        // SAFETY: nobody writes it as long as this is there.
        let place = Shared::place(unsafe { addr_of_mut!((*self.state.get()).shared) });
        // SAFETY: as above.
        Handle::of(unsafe { (*place).domain })
    }

    pub(crate) fn watcher_is(&self, thread: &Thread) {
        self.with(|state| {
            if let Some(told) = &mut state.told {
                told.duty.watcher_is(thread);
            }
        });
    }

    // By the thread that sleeps for all. `None` in a child after a fork, which it can't be.
    pub(crate) fn begin_sleep(&self) -> Option<Begun> {
        self.with(|state| {
            let (wanted, others_wait) = (state.waiting.wanted(), state.others_wait());
            let told = state.told.as_mut();
            let (begun, brings, is_away) = told.map_or((None, Brings::NOTHING, false), |told| {
                let (begun, brings) = told.begin(&mut state.shared, wanted);
                (begun, brings, told.duty.lets_watcher_go(others_wait))
            });
            let sleep = begun.map(|begun| match (is_away, self.others.pace) {
                (true, Some(pace)) => Sleep::Away(pace.reap_every),
                _ => Sleep::ForAll(begun),
            });
            let wake = self.others_brought(state, brings).map(|wake| {
                let tasks = std::iter::from_fn(|| state.waiting.next_task()).collect();
                (wake, tasks)
            });
            let (told, shared) = (&mut state.told, &mut state.shared);
            let deaths = told.as_mut().and_then(|told| told.dead_nodes.calls(shared));
            Begun {
                sleep,
                wake,
                deaths,
            }
        })
    }

    pub(super) fn others_brought(&self, state: &mut State, brings: Brings) -> Option<Wake> {
        match brings {
            Brings::NOTHING => None,
            _ => self.brought(state, brings, sys::OK),
        }
    }

    // Under the lock, before anybody waits: from now on calls of other processes are told that bring any of this, and what they
    // have brought by now is. The domain's own thread sleeps. Returns whom to wake because of it.
    pub(super) fn listens_to_others(&self, state: &mut State, wanted: Brings) -> Option<Wake> {
        let told = state.told.as_mut()?;
        told.duty.call_watcher();
        let (_, brings) = told.begin(&mut state.shared, wanted);
        self.others_brought(state, brings)
    }

    // The same for a thread that waits. Also where a sleep for all begins.
    pub(super) fn begins_to_sleep(
        &self,
        state: &mut State,
        wanted: Brings,
    ) -> (Option<u64>, Option<Wake>) {
        let wanted = wanted.and(state.waiting.wanted());
        match &mut state.told {
            Some(told) => {
                let (begun, brings) = told.begin(&mut state.shared, wanted);
                (begun, self.others_brought(state, brings))
            }
            None => (None, None),
        }
    }

    // Whether the thread that has begun to wait last sleeps for all of the process.
    pub(super) fn takes_duty(&self, state: &mut State) -> bool {
        let others_wait = state.others_wait();
        let told = state.told.as_mut();
        let is_for_all = told.map_or(false, |told| told.duty.take(others_wait));
        if is_for_all {
            state.waiting.last_sleeps_at(self.handle());
        }
        is_for_all
    }

    pub(super) fn sleeps_for_all(&self, begun: u64, until: Option<Instant>) {
        self.handle().sleep(begun, until);
    }

    // Looks for what other processes bring: `None` where none can. It takes the lock where they have made calls.
    pub(super) fn looks_at_others(&self, what: Waits, seen: Seen) -> Option<bool> {
        let spins = match L::LOOKS {
            0 => 0,
            _ => self.others.pace?.spins,
        };
        let mut calls = seen.calls;
        for _ in 0..spins {
            if self.has_changed(what, seen) {
                return Some(true);
            }
            if !self.handle().has_more_calls(calls) {
                spin_loop();
                continue;
            }
            let wake = self.with(|state| {
                let told = state.told.as_mut()?;
                let brings = told.look(&mut state.shared);
                calls = calls_of(&mut state.shared);
                self.others_brought(state, brings)
            });
            if let Some(wake) = wake.flatten() {
                self.wake(wake);
            }
        }
        Some(self.has_changed(what, seen))
    }

    // How many calls of all processes are made.
    pub(super) fn calls_of_all(&self, state: &mut State) -> u64 {
        let pace = self.others.pace;
        pace.map_or(0, |_| calls_of(&mut state.shared))
    }

    // Whether processes share it. `None` in a child after a fork.
    pub(crate) fn is_of_processes(&self) -> Option<bool> {
        self.with(|state| state.told.is_some())
    }

    // This is called from now on with each process that died.
    pub(super) fn tell_deaths(&self, listener: Option<DeadNodeListener>) -> u32 {
        let mut wake = None;
        let listened = self.with(|state| {
            let told = state.told.as_mut().ok_or(PROCESSES_NOT_SHARED)?;
            let before = told.dead_nodes.listen(&mut state.shared, listener)?;
            wake = self.listens_to_others(state, Brings::NOTHING);
            Ok(before)
        });
        if let Some(wake) = wake {
            self.wake(wake);
        }
        match listened {
            Some(Ok(_)) => sys::OK,
            Some(Err(code)) => code,
            None => AFTER_FORK,
        }
    }
}
