// SPDX-License-Identifier: Apache-2.0 OR MIT
//! Those who wait in a domain: threads, tasks, and what is called when a message may have come.

use crate::listeners::Listeners;
use crate::sys::Wide;
use crate::threads::{Brings, Waits};
#[cfg(feature = "processes")]
use crate::watch::Handle;
use std::iter;
use std::mem::{replace, take};
use std::process::abort;
use std::ptr;
use std::sync::atomic::{AtomicBool, Ordering};
use std::sync::Arc;
use std::task::Waker;
use std::thread::{self, Thread};
use std::time::Instant;

/// Whether a thread that waits was woken. It lies in the frame of the call that waits, so that a wait takes no memory.
#[derive(Default)]
pub(crate) struct Woken(AtomicBool);

/// Whether it is in the list of those who wait, where its frame may not go.
#[derive(Default)]
pub(crate) struct Listed {
    pub(crate) is_in: bool,
    /// It sleeps for all of its process.
    pub(crate) is_for_all: bool,
}

impl Drop for Listed {
    fn drop(&mut self) {
        // A lock of the user's has panicked, and not run what takes it out.
        if self.is_in {
            abort();
        }
    }
}

impl Woken {
    /// Returns when it was woken or this moment has come.
    pub(crate) fn sleep(&self, until: Option<Instant>) {
        while !self.0.load(Ordering::Acquire) {
            match until {
                None => thread::park(),
                Some(until) => match until.checked_duration_since(Instant::now()) {
                    Some(left) if !left.is_zero() => thread::park_timeout(left),
                    _ => return,
                },
            }
        }
    }
}

/// A future's number among the tasks, from its first wait on.
pub type FutureNumber = u64;

struct Task {
    port: Wide,
    waker: Waker,
    // `None` where it polls the subscriber itself.
    future: Option<FutureNumber>,
    // A message may have come.
    is_due: bool,
}

struct Waiting {
    what: Waits,
    port: Wide,
    thread: Thread,
    // In the frame of the call that waits, which doesn't return before it has taken this out of the list.
    woken: *const Woken,
    // Something came that may help.
    is_due: bool,
    // It was woken, and isn't back yet.
    is_awake: bool,
    // Where it sleeps for all of its process, if it does.
    #[cfg(feature = "processes")]
    sleeps_at: Option<Handle>,
}

// SAFETY: what it points to is an atomic, which any thread may change while this is in the list.
unsafe impl Send for Waiting {}

impl Waiting {
    fn wakes(&mut self) {
        self.is_due = false;
        self.is_awake = true;
        // SAFETY: this is in the list, so the frame is there.
        unsafe { &*self.woken }.0.store(true, Ordering::Release);
    }

    // Whether it is awake now, since it slept for all. Under the lock, so that the domain is there.
    #[cfg(feature = "processes")]
    fn is_rung(&self) -> bool {
        self.sleeps_at.map(Handle::end_sleep).is_some()
    }

    #[cfg(not(feature = "processes"))]
    fn is_rung(&self) -> bool {
        false
    }
}

impl Task {
    // Whether it polls this subscriber itself.
    fn polls(&self, port: Wide, waker: &Waker) -> bool {
        self.future.is_none() && self.port == port && self.waker.will_wake(waker)
    }
}

// So many threads and tasks may wait at a time in a domain that has taken no more memory since it was made.
const ROOM: usize = 32;

/// All of it is used under the lock, except what is to be done afterwards.
pub(crate) struct WaitingList {
    threads: Vec<Waiting>,
    awake: usize,
    tasks: Vec<Task>,
    // How many futures have waited.
    futures: FutureNumber,
    pub(crate) listeners: Option<Arc<Listeners>>,
    messages_came: bool,
    // Whether another language has joined the domain.
    has_joined: bool,
    // Whether any of these is there. It is looked at in each call.
    is_used: bool,
}

impl Default for WaitingList {
    fn default() -> Self {
        WaitingList {
            threads: Vec::with_capacity(ROOM),
            awake: 0,
            tasks: Vec::with_capacity(ROOM),
            futures: 0,
            listeners: None,
            messages_came: false,
            has_joined: false,
            is_used: false,
        }
    }
}

impl WaitingList {
    #[inline]
    pub(crate) fn is_empty(&self) -> bool {
        !self.is_used
    }

    fn look(&mut self) {
        self.is_used = self.has_joined
            || !self.threads.is_empty()
            || !self.tasks.is_empty()
            || self.listeners.is_some();
    }

    pub(crate) fn has_joined(&mut self, has_joined: bool) {
        self.has_joined = has_joined;
        self.look();
    }

    /// The listeners of the domain's subscribers are these from now on. Returns those before, which are to be dropped
    /// without the lock.
    pub(crate) fn listen(&mut self, listeners: Option<Arc<Listeners>>) -> Option<Arc<Listeners>> {
        let before = replace(&mut self.listeners, listeners);
        self.look();
        before
    }

    /// A thread begins to wait, and is to take this out of the list before it goes.
    pub(crate) fn add(&mut self, what: Waits, port: Wide, thread: Thread, woken: &Woken) {
        woken.0.store(false, Ordering::Relaxed);
        self.threads.push(Waiting {
            what,
            port,
            thread,
            woken,
            is_due: false,
            is_awake: false,
            #[cfg(feature = "processes")]
            sleeps_at: None,
        });
        self.is_used = true;
    }

    /// It is back: by a wake-up, or because its time is up.
    pub(crate) fn remove(&mut self, woken: &Woken) {
        let is_it = |one: &Waiting| ptr::eq(one.woken, woken);
        if let Some(at) = self.threads.iter().position(is_it) {
            self.awake -= usize::from(self.threads.remove(at).is_awake);
            self.look();
        }
    }

    /// The thread that has begun to wait last sleeps there, for all of its process.
    #[cfg(feature = "processes")]
    pub(crate) fn last_sleeps_at(&mut self, domain: Handle) {
        if let Some(last) = self.threads.last_mut() {
            last.sleeps_at = Some(domain);
        }
    }

    /// Whether threads wait.
    #[cfg(feature = "processes")]
    pub(crate) fn has_threads(&self) -> bool {
        !self.threads.is_empty()
    }

    /// Whether others wait than threads.
    #[cfg(feature = "processes")]
    pub(crate) fn has_others(&self) -> bool {
        self.has_joined || !self.tasks.is_empty() || self.listeners.is_some()
    }

    /// What would help those who wait.
    #[cfg(feature = "processes")]
    pub(crate) fn wanted(&self) -> Brings {
        if self.has_joined {
            return Brings::ALL;
        }
        let of_tasks = match self.tasks.is_empty() && self.listeners.is_none() {
            true => Brings::NOTHING,
            false => Brings::MESSAGE,
        };
        let of_threads = self.threads.iter().map(|one| one.what.helped_by());
        of_threads.fold(of_tasks, Brings::and)
    }

    /// Something came that may help those who wait for it. A thread that is awake tries again anyway.
    pub(crate) fn bring(&mut self, brings: Brings) {
        self.messages_came |= brings.meets(Brings::MESSAGE);
        for one in &mut self.threads {
            one.is_due |= !one.is_awake && one.what.helped_by().meets(brings);
        }
    }

    /// Nothing came for this subscriber, so that no other thread finds it there.
    pub(crate) fn nothing_for(&mut self, port: Wide) {
        for one in &mut self.threads {
            one.is_due &= one.what != Waits::Message || one.port != port;
        }
    }

    /// A task is to be woken when a message may have come. Returns one that waits no longer.
    pub(crate) fn add_task(&mut self, port: Wide, waker: Waker) -> Option<Waker> {
        let waits = |task: &Task| task.polls(port, &waker);
        if self.tasks.iter().any(waits) {
            return Some(waker);
        }
        self.push(port, waker, None);
        None
    }

    /// The same for a future, which wakes the task alone that polled it last. One that hasn't waited gets its number.
    pub(crate) fn add_future(
        &mut self,
        port: Wide,
        waker: Waker,
        future: &mut Option<FutureNumber>,
    ) -> Option<Waker> {
        let number = *future.get_or_insert_with(|| {
            self.futures += 1;
            self.futures
        });
        let is_it = |task: &&mut Task| task.future == Some(number);
        if let Some(task) = self.tasks.iter_mut().find(is_it) {
            return Some(replace(&mut task.waker, waker));
        }
        self.push(port, waker, Some(number));
        None
    }

    fn push(&mut self, port: Wide, waker: Waker, future: Option<FutureNumber>) {
        self.tasks.push(Task {
            port,
            waker,
            future,
            is_due: false,
        });
        self.is_used = true;
    }

    /// A task that polls this subscriber isn't to be woken any longer. Returns what is to be dropped without the lock.
    pub(crate) fn remove_task(&mut self, port: Wide, waker: &Waker) -> Option<Waker> {
        self.remove_where(|task| task.polls(port, waker))
    }

    /// A future waits no longer. Returns what is to be dropped without the lock.
    pub(crate) fn remove_future(&mut self, number: FutureNumber) -> Option<Waker> {
        self.remove_where(|task| task.future == Some(number))
    }

    /// The next task to which a message may have come. It waits no longer.
    pub(crate) fn next_task(&mut self) -> Option<Waker> {
        self.remove_where(|task| task.is_due)
    }

    fn remove_where(&mut self, is_it: impl Fn(&Task) -> bool) -> Option<Waker> {
        let at = self.tasks.iter().position(is_it)?;
        let gone = self.tasks.swap_remove(at);
        self.look();
        Some(gone.waker)
    }

    /// Its subscriber goes. Returns what is to be dropped without the lock.
    pub(crate) fn remove_tasks(&mut self, port: Wide) -> Vec<Waker> {
        let mut gone = Vec::new();
        while let Some(waker) = self.remove_where(|task| task.port == port) {
            gone.push(waker);
        }
        gone
    }

    /// Whom to wake once the lock was given back: of the threads the first whom something may help. None of them,
    /// where another is awake that will come here, and so wake the next.
    pub(crate) fn next(&mut self, all: bool) -> Wake {
        let mut wake = Wake::default();
        for one in self.threads.iter_mut().filter(|one| one.is_due) {
            if !all && self.awake > 0 {
                break;
            }
            one.wakes();
            self.awake += 1;
            match all {
                _ if one.is_rung() => {}
                true => one.thread.unpark(),
                false => wake.thread = Some(one.thread.clone()),
            }
        }
        if take(&mut self.messages_came) {
            self.tasks.iter_mut().for_each(|task| task.is_due = true);
            wake.task = self.next_task();
            wake.has_tasks = self.tasks.iter().any(|task| task.is_due);
            wake.listeners = self.listeners.clone();
        }
        wake
    }
}

/// Who is to be woken and called without the lock.
#[must_use]
#[derive(Default)]
pub(crate) struct Wake {
    thread: Option<Thread>,
    task: Option<Waker>,
    // Whether it isn't the only one.
    has_tasks: bool,
    listeners: Option<Arc<Listeners>>,
}

impl Wake {
    /// The function gives each task after the first.
    #[inline]
    pub(crate) fn wake(self, next_task: impl FnMut() -> Option<Waker>) {
        if let Some(thread) = self.thread {
            thread.unpark();
        }
        if let Some(task) = self.task {
            task.wake();
        }
        if self.has_tasks {
            iter::from_fn(next_task).for_each(Waker::wake);
        }
        if let Some(listeners) = self.listeners {
            listeners.call();
        }
    }
}
