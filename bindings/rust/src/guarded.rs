// SPDX-License-Identifier: Apache-2.0 OR MIT
//! A domain under its lock, and those who wait in it.

#[cfg(feature = "processes")]
use crate::dead_nodes::DeadNodeListener;
use crate::desk::Desk;
use crate::errors::AFTER_FORK;
use crate::fork::Process;
use crate::listeners::{is_listening, Listener, Listeners};
use crate::lock::DomainLock;
use crate::shared::Shared;
use crate::sys::{self, Wide};
use crate::threads::{Brings, Place, Polls, Wait, WaitingPlace, Waits};
use crate::waiting::{FutureNumber, Listed, WaitingList, Wake, Woken};
use std::cell::UnsafeCell;
use std::hint::spin_loop;
use std::mem::take;
use std::sync::atomic::{AtomicUsize, Ordering};
use std::sync::Arc;
use std::task::Waker;
use std::thread::{self, yield_now};
use std::time::Instant;

#[cfg_attr(not(feature = "processes"), path = "guarded/alone.rs")]
mod others;

use others::{OfOthers, Others};

/// A domain that threads share.
#[doc(hidden)]
#[allow(missing_debug_implementations)]
pub struct Guarded<L> {
    lock: L,
    state: UnsafeCell<State>,
    changes: Changes,
    process: Process,
    others: Others,
}

// What came so far: messages, and all else. These are read without the lock too, and so lie apart from it.
#[derive(Default)]
#[repr(align(128))]
struct Changes {
    messages: AtomicUsize,
    others: AtomicUsize,
}

struct State {
    shared: Shared,
    waiting: WaitingList,
    desks: Vec<Arc<Desk>>,
    is_stopped: bool,
    #[cfg_attr(not(feature = "processes"), allow(dead_code))]
    told: OfOthers,
}

// What a thread has seen of what it waits for, and of the calls of all processes.
#[derive(Clone, Copy)]
struct Seen {
    changes: usize,
    #[cfg_attr(not(feature = "processes"), allow(dead_code))]
    calls: u64,
}

// SAFETY: the state is reached by `with` alone, where the lock lets one thread in at a time, and what it has may
// go from thread to thread, as the lock itself may be used by all.
unsafe impl<L: DomainLock> Sync for Guarded<L> {}
// SAFETY: the domain, those who wait and the lock may each go to another thread.
unsafe impl<L: DomainLock> Send for Guarded<L> {}

impl<L: DomainLock> Guarded<L> {
    pub(crate) fn new(shared: Shared) -> Self {
        Guarded {
            process: shared.process(),
            lock: L::new(),
            state: UnsafeCell::new(State {
                shared,
                waiting: WaitingList::default(),
                desks: Vec::new(),
                is_stopped: false,
                told: OfOthers::default(),
            }),
            changes: Changes::default(),
            others: Others::default(),
        }
    }

    // What runs here is this crate's alone, and drops nothing of a user's. `None` in a child after a fork, which may not have
    // the lock, since nobody may be there to give it back.
    #[inline]
    fn with<R>(&self, run: impl FnOnce(&mut State) -> R) -> Option<R> {
        if !self.process.is_this() {
            return None;
        }
        // SAFETY: one thread at a time is here, and what runs doesn't come back here.
        Some(self.lock.hold(|| run(unsafe { &mut *self.state.get() })))
    }

    fn wake(&self, wake: Wake) {
        wake.wake(|| self.with(|state| state.waiting.next_task()).flatten());
    }

    #[inline]
    fn changes(&self, what: Waits) -> &AtomicUsize {
        match what {
            Waits::Message => &self.changes.messages,
            _ => &self.changes.others,
        }
    }

    // Under the lock: what calls have brought that returned this code. Returns whom to wake, where anybody waits.
    #[inline]
    fn brought(&self, state: &mut State, brings: Brings, code: u32) -> Option<Wake> {
        let too = take(&mut state.shared.brings_too);
        let mut brings = match code {
            sys::OK => brings.and(too),
            _ => brings.by(code).and(too),
        };
        if brings.meets(Brings::MESSAGE) || waits_for_readers(code) {
            for desk in &state.desks {
                brings = brings.and(desk.serve(&mut state.shared));
            }
        }
        // What may have come so far, so that one may look for it without the lock.
        if brings.meets(Brings::MESSAGE) {
            count(&self.changes.messages);
        }
        if brings.meets(Brings::OTHERS) {
            count(&self.changes.others);
        }
        if state.waiting.is_empty() {
            return None;
        }
        Some(Self::next(state, brings))
    }

    #[cold]
    fn next(state: &mut State, brings: Brings) -> Wake {
        state.shared.wake_joined(brings);
        state.waiting.bring(brings);
        state.waiting.next(L::WAKES_ALL)
    }

    // Whether this is the process that made it.
    pub(crate) fn is_here(&self) -> bool {
        self.process.is_this()
    }

    // Another language joins: it stays at its place, and may be called on any thread, until it leaves.
    pub(crate) fn join(&self, joined: *mut sys::shared::Joined) -> u32 {
        let mut wake = None;
        let code = self.with(|state| {
            let code = state.shared.join(joined);
            if code == sys::OK {
                state.waiting.has_joined(true);
                // SAFETY: it is there.
                unsafe { (*joined).waits_are_stopped = u32::from(state.is_stopped) };
                wake = self.listens_to_others(state, Brings::ALL);
            }
            code
        });
        if let Some(wake) = wake {
            self.wake(wake);
        }
        code.unwrap_or(AFTER_FORK)
    }

    pub(crate) fn leave(&self, joined: *mut sys::shared::Joined) {
        self.with(|state| {
            let has_joined = state.shared.leave(joined);
            state.waiting.has_joined(has_joined);
        });
    }

    // Under the lock.
    fn see(&self, state: &mut State, what: Waits) -> Seen {
        Seen {
            changes: self.changes(what).load(Ordering::Relaxed),
            calls: self.calls_of_all(state),
        }
    }

    fn has_changed(&self, what: Waits, seen: Seen) -> bool {
        self.changes(what).load(Ordering::Relaxed) != seen.changes
    }

    // Looks for a change without the lock, for about as long as it takes to fall asleep.
    fn looks_out(&self, what: Waits, seen: Seen) -> bool {
        if let Some(has_changed) = self.looks_at_others(what, seen) {
            return has_changed;
        }
        for turn in 0..L::LOOKS {
            if self.has_changed(what, seen) {
                return true;
            }
            match turn {
                0..=6 => (0..1 << turn).for_each(|_| spin_loop()),
                _ => yield_now(),
            }
        }
        false
    }

    // Sleeps, unless something came since then. Then it is in the list of those who wait.
    fn sleep(&self, wait: &Wait, seen: Seen, woken: &Woken, listed: &mut Listed) {
        let thread = thread::current();
        let (mut begun, mut wake) = (None, None);
        self.with(|state| {
            (begun, wake) = self.begins_to_sleep(state, wait.what.helped_by());
            if wake.is_none() && !self.has_changed(wait.what, seen) {
                state.waiting.add(wait.what, wait.port, thread, woken);
                listed.is_in = true;
                listed.is_for_all = begun.is_some() && self.takes_duty(state);
            }
        });
        if let Some(wake) = wake {
            self.wake(wake);
        }
        match begun {
            _ if !listed.is_in => {}
            Some(begun) if listed.is_for_all => self.sleeps_for_all(begun, wait.until),
            _ => woken.sleep(wait.until),
        }
    }
}

impl<L> Drop for Guarded<L> {
    fn drop(&mut self) {
        self.others.end(self.process.is_this());
    }
}

impl<L: DomainLock> Place for Guarded<L> {
    const IS_SHARED: bool = true;

    #[inline]
    fn call(&self, brings: Brings, calls: impl FnOnce(&mut Shared) -> u32) -> u32 {
        let mut wake = None;
        let code = self.with(|state| {
            let code = calls(&mut state.shared);
            wake = self.brought(state, brings, code);
            code
        });
        if let Some(wake) = wake {
            self.wake(wake);
        }
        code.unwrap_or(AFTER_FORK)
    }

    fn wait(&self, wait: Wait, mut calls: impl FnMut(&mut Shared) -> u32) -> u32 {
        let (woken, mut listed) = (Woken::default(), Listed::default());
        loop {
            let tried = self.with(|state| {
                if take(&mut listed.is_in) {
                    state.waiting.remove(&woken);
                }
                if take(&mut listed.is_for_all) {
                    state.is_awake();
                }
                let code = calls(&mut state.shared);
                if code == sys::NO_SAMPLE {
                    state.waiting.nothing_for(wait.port);
                }
                // Before what it brings, which may serve a reader and so bring what this waits for.
                let seen = self.see(state, wait.what);
                let wake = self.brought(state, wait.brings, code);
                let is_over = !wait.what.goes_on(code) || state.is_stopped || is_past(wait.until);
                if is_over {
                    state.hands_over();
                }
                (code, is_over, seen, wake)
            });
            let (code, is_over, seen, wake) = match tried {
                Some(tried) => tried,
                None => break,
            };
            if let Some(wake) = wake {
                self.wake(wake);
            }
            if is_over || is_listening() {
                return code;
            }
            if !self.looks_out(wait.what, seen) {
                self.sleep(&wait, seen, &woken, &mut listed);
            }
        }
        // This process has no thread that could look into the list.
        listed.is_in = false;
        AFTER_FORK
    }

    fn close(&self, desk: &Arc<Desk>) {
        let closed = self.with(|state| {
            let at = state.desks.iter().position(|one| Arc::ptr_eq(one, desk))?;
            Some(state.desks.swap_remove(at))
        });
        drop(closed);
    }

    fn forget(&self, port: Wide) {
        let gone = self.with(|state| {
            if state.waiting.is_empty() {
                return None;
            }
            let none = Listeners::default();
            let listeners = state
                .waiting
                .listeners
                .as_deref()
                .unwrap_or(&none)
                .with(port, None);
            let listeners = state.waiting.listen(listeners);
            Some((listeners, state.waiting.remove_tasks(port)))
        });
        drop(gone);
    }
}

impl<L: DomainLock> WaitingPlace for Guarded<L> {
    fn poll(&self, polls: Polls<'_>, calls: impl FnOnce(&mut Shared) -> u32) -> Option<u32> {
        let (port, waker) = (polls.port, polls.waker.clone());
        let polled = self.with(|state| {
            let code = calls(&mut state.shared);
            let wake = self.brought(state, polls.brings, code);
            let waits = code == sys::NO_SAMPLE && !state.is_stopped;
            let list = &mut state.waiting;
            let gone = match (waits, polls.future) {
                (true, None) => (list.add_task(port, waker), None),
                (true, Some(future)) => (list.add_future(port, waker, future), None),
                (false, future) => {
                    let waited = future.and_then(|future| future.take());
                    let last = waited.and_then(|number| list.remove_future(number));
                    (Some(waker), last)
                }
            };
            let later = match waits {
                true => self.listens_to_others(state, Brings::MESSAGE),
                false => None,
            };
            (code, waits, [wake, later], gone)
        });
        let (code, waits, wakes, gone) = match polled {
            Some(polled) => polled,
            None => return Some(AFTER_FORK),
        };
        drop(gone);
        for wake in wakes.into_iter().flatten() {
            self.wake(wake);
        }
        (!waits).then_some(code)
    }

    fn forget_waker(&self, port: Wide, waker: &Waker) {
        let gone = self.with(|state| state.waiting.remove_task(port, waker));
        drop(gone);
    }

    fn forget_future(&self, future: FutureNumber) {
        let gone = self.with(|state| state.waiting.remove_future(future));
        drop(gone);
    }

    fn listen(&self, port: Wide, listener: Option<Listener>) {
        let mut wake = None;
        let old = self.with(|state| {
            let none = Listeners::default();
            let listeners = state.waiting.listeners.as_deref().unwrap_or(&none);
            let listeners = listeners.with(port, listener);
            let old = state.waiting.listen(listeners);
            wake = self.listens_to_others(state, Brings::MESSAGE);
            old
        });
        drop(old);
        if let Some(wake) = wake {
            self.wake(wake);
        }
    }

    #[cfg(feature = "processes")]
    fn listen_to_deaths(&self, listener: Option<DeadNodeListener>) -> u32 {
        self.tell_deaths(listener)
    }

    fn open(&self, desk: &Arc<Desk>) {
        let desk = desk.clone();
        self.with(|state| state.desks.push(desk));
    }

    fn is_served(&self, desk: &Desk) -> bool {
        if L::LOOKS == 0 || !self.process.is_this() {
            return false;
        }
        // Where more may wait already, not for long: perhaps nobody sends.
        let looks = if desk.ask() { 4 } else { 7 };
        (0..looks).any(|turn| {
            (0..1 << turn).for_each(|_| spin_loop());
            desk.is_served()
        })
    }

    fn stop_waits(&self, is_stopped: bool) {
        let wake = self.with(|state| {
            state.is_stopped = is_stopped;
            count(&self.changes.messages);
            count(&self.changes.others);
            state.shared.stop_joined(is_stopped);
            state.shared.wake_joined(Brings::ALL);
            state.waiting.bring(Brings::ALL);
            state.waiting.next(true)
        });
        if let Some(wake) = wake {
            self.wake(wake);
        }
    }

    fn waits_are_stopped(&self) -> bool {
        self.with(|state| state.is_stopped).unwrap_or(true)
    }
}

// Whether a reader that asks for a turn may have what the call lacks: room, or a slot.
#[inline]
fn waits_for_readers(code: u32) -> bool {
    matches!(code, sys::BLOCKED | sys::LOAN_ERROR_OUT_OF_MEMORY)
}

// Under the lock, so that nothing is lost between the two.
#[inline]
fn count(changes: &AtomicUsize) {
    let next = changes.load(Ordering::Relaxed).wrapping_add(1);
    changes.store(next, Ordering::Relaxed);
}

fn is_past(until: Option<Instant>) -> bool {
    matches!(until, Some(until) if until <= Instant::now())
}
