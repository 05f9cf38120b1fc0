// SPDX-License-Identifier: Apache-2.0 OR MIT
//! A lock that counts each thread's turns, so that a test knows when a thread sleeps, and can stop it between two turns. No
//! test has to give a thread time, and hope that it was enough.
#![allow(dead_code)] // each file of tests uses a part

use iox2_pubsub::{DomainLock, ManyThreads};
use std::cell::RefCell;
use std::sync::{Arc, Condvar, Mutex, PoisonError};
use std::thread::{Scope, ScopedJoinHandle};

/// Threads that share a domain under the lock [`Watched`].
pub type WatchedThreads = ManyThreads<Watched>;

/// How often a wait takes the lock before its thread sleeps: it tries, and is put into the list of those who wait.
pub const TO_SLEEP: usize = 2;

/// A lock that counts the turns of the threads that are watched. How often a thread looks for a change before it sleeps is a
/// parameter; the default is that of the trait.
pub struct Watched<const LOOKS: u32 = 10>(Mutex<()>);

// SAFETY: it is a mutex.
unsafe impl<const LOOKS: u32> DomainLock for Watched<LOOKS> {
    const LOOKS: u32 = LOOKS;

    fn new() -> Self {
        Watched(Mutex::new(()))
    }

    fn hold<R>(&self, run: impl FnOnce() -> R) -> R {
        let turns = OWN.with(|own| own.borrow().clone());
        if let Some(turns) = &turns {
            turns.begin();
        }
        let result = {
            let _guard = self.0.lock().unwrap_or_else(PoisonError::into_inner);
            run()
        };
        if let Some(turns) = &turns {
            turns.end();
        }
        result
    }
}

thread_local! {
    static OWN: RefCell<Option<Arc<Turns>>> = const { RefCell::new(None) };
}

struct Turns {
    count: Mutex<Count>,
    changed: Condvar,
}

#[derive(Clone, Copy)]
struct Count {
    had: usize,
    // Before the next one its thread stops.
    allowed: usize,
    // It wants the next one.
    comes: bool,
    has_ended: bool,
}

impl Turns {
    fn new(allowed: usize) -> Arc<Turns> {
        Arc::new(Turns {
            count: Mutex::new(Count {
                had: 0,
                allowed,
                comes: false,
                has_ended: false,
            }),
            changed: Condvar::new(),
        })
    }

    fn change(&self, change: impl FnOnce(&mut Count)) {
        change(&mut self.count.lock().unwrap());
        self.changed.notify_all();
    }

    fn wait_until(&self, is_so: impl Fn(&Count) -> bool) -> Count {
        let count = self.count.lock().unwrap();
        let is_not_so = |count: &mut Count| !is_so(count);
        *self.changed.wait_while(count, is_not_so).unwrap()
    }

    fn begin(&self) {
        self.change(|count| count.comes = true);
        self.wait_until(|count| count.had < count.allowed);
    }

    fn end(&self) {
        self.change(|count| {
            count.had += 1;
            count.comes = false;
        });
    }
}

// The thread has ended when this is dropped, also where it panics.
struct Ends(Arc<Turns>);

impl Drop for Ends {
    fn drop(&mut self) {
        self.0.change(|count| count.has_ended = true);
    }
}

// The thread may go on when this is dropped, also where the test panics.
struct Gate(Arc<Turns>);

impl Gate {
    fn open(&self) {
        self.0.change(|count| count.allowed = usize::MAX);
    }
}

impl Drop for Gate {
    fn drop(&mut self) {
        self.open();
    }
}

/// A thread whose turns are counted.
pub struct Watch<'s, T> {
    gate: Gate,
    thread: ScopedJoinHandle<'s, T>,
}

impl<T> Watch<'_, T> {
    /// Waits until it has had the lock so often since it began.
    #[track_caller]
    pub fn has_had(&self, turns: usize) {
        let is_so = |count: &Count| count.had >= turns || count.has_ended;
        let had = self.gate.0.wait_until(is_so).had;
        assert!(had >= turns, "it has ended after {had} turns");
    }

    /// Lets a stopped thread go on.
    pub fn go_on(&self) {
        self.gate.open();
    }

    pub fn is_finished(&self) -> bool {
        self.thread.is_finished()
    }

    /// What it returns when it has ended.
    #[track_caller]
    pub fn join(self) -> T {
        self.thread.join().unwrap()
    }
}

fn start<'s, T: Send + 's>(
    scope: &'s Scope<'s, '_>,
    allowed: usize,
    run: impl FnOnce() -> T + Send + 's,
) -> Watch<'s, T> {
    let turns = Turns::new(allowed);
    let ends = Ends(turns.clone());
    let thread = scope.spawn(move || {
        OWN.with(|own| *own.borrow_mut() = Some(ends.0.clone()));
        run()
    });
    let gate = Gate(turns);
    Watch { gate, thread }
}

/// Starts a thread, and returns when it has had the lock so often: `TO_SLEEP` times in the wait in which it sleeps then, and
/// before that in the calls before.
#[track_caller]
pub fn asleep_after<'s, T: Send + 's>(
    scope: &'s Scope<'s, '_>,
    turns: usize,
    run: impl FnOnce() -> T + Send + 's,
) -> Watch<'s, T> {
    let watch = start(scope, usize::MAX, run);
    watch.has_had(turns);
    assert!(!watch.is_finished());
    watch
}

/// Starts a thread, and returns when it sleeps in its first wait. Where it is woken it stops before the lock, until it is told
/// to go on.
#[track_caller]
pub fn asleep_and_stopped<'s, T: Send + 's>(
    scope: &'s Scope<'s, '_>,
    run: impl FnOnce() -> T + Send + 's,
) -> Watch<'s, T> {
    let watch = start(scope, TO_SLEEP, run);
    watch.has_had(TO_SLEEP);
    watch
}

/// Starts a thread, and returns when it has had the lock that often. The thread waits before the lock then,
/// until it is told to go on.
#[track_caller]
pub fn stopped_after<'s, T: Send + 's>(
    scope: &'s Scope<'s, '_>,
    turns: usize,
    run: impl FnOnce() -> T + Send + 's,
) -> Watch<'s, T> {
    let watch = start(scope, turns, run);
    let stands = |count: &Count| count.comes && count.had == turns;
    let is_so = |count: &Count| stands(count) || count.has_ended;
    let count = watch.gate.0.wait_until(is_so);
    assert!(stands(&count), "it has ended after {} turns", count.had);
    watch
}

/// What it returns, and how often it takes the lock.
pub fn turns_of<T>(run: impl FnOnce() -> T) -> (T, usize) {
    let turns = Turns::new(usize::MAX);
    OWN.with(|own| *own.borrow_mut() = Some(turns.clone()));
    let result = run();
    OWN.with(|own| *own.borrow_mut() = None);
    let had = turns.count.lock().unwrap().had;
    (result, had)
}
