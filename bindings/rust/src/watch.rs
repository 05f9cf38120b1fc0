// SPDX-License-Identifier: Apache-2.0 OR MIT
//! The thread that sleeps for all others of a domain that processes share, until a call of another process brings something.

use crate::dead_nodes::DeadNodes;
use crate::duty::Duty;
use crate::guarded::Guarded;
use crate::listeners::Listeners;
use crate::lock::DomainLock;
use crate::shared::Shared;
use crate::sys;
use crate::sys::processes as c;
use crate::threads::Brings;
use crate::waiting::Wake;
use std::ffi::c_void;
use std::io;
use std::mem::forget;
use std::os::raw::c_int;
use std::panic::{catch_unwind, AssertUnwindSafe};
use std::ptr::null_mut;
use std::sync::atomic::{fence, AtomicU8, Ordering};
use std::sync::{Arc, Mutex, PoisonError};
use std::task::Waker;
use std::thread::{park_timeout, Builder, JoinHandle};
use std::time::{Duration, Instant};

/// What other processes have brought to a domain that they share, as far as those who wait here were told. Used under the lock.
pub(crate) struct Told {
    counts: [u64; KINDS.len()],
    pub(crate) dead_nodes: DeadNodes,
    pub(crate) duty: Duty,
}

/// How a domain that processes share waits.
#[derive(Clone, Copy)]
pub(crate) struct Pace {
    /// How often a thread looks for calls of other processes before it sleeps.
    pub(crate) spins: u32,
    pub(crate) reap_every: Duration,
}

impl Pace {
    pub(crate) fn of(options: &c::Options) -> Pace {
        Pace {
            spins: options.spins,
            reap_every: Duration::from_millis(options.reap_every_ms.into()),
        }
    }
}

const KINDS: [Brings; 5] = [
    Brings::MESSAGE,
    Brings::ROOM,
    Brings::FREE,
    Brings::LOAN,
    Brings::EVENT,
];

impl Told {
    /// `None` where no other process can bring anything.
    pub(crate) fn of(shared: &mut Shared) -> Option<Told> {
        let mut told = Told {
            counts: [0; KINDS.len()],
            dead_nodes: DeadNodes::default(),
            duty: Duty::default(),
        };
        let mut begun = 0;
        // SAFETY: see `Shared::at`.
        match unsafe { c::iox2ps_domain_sleep_begin(shared.at(), 0, &mut begun) } {
            c::PROCESSES_NOT_SHARED => None,
            _ => {
                told.look(shared);
                Some(told)
            }
        }
    }

    /// From now on a call that brings any of these ends the sleep. Returns what the sleep takes, or nothing where the domain can
    /// only be left; and what came that nobody was told of.
    pub(crate) fn begin(&mut self, shared: &mut Shared, wanted: Brings) -> (Option<u64>, Brings) {
        let mut begun = 0;
        let wanted = u32::from(wanted.0) | self.dead_nodes.wants();
        // SAFETY: see `Shared::at`.
        match unsafe { c::iox2ps_domain_sleep_begin(shared.at(), wanted, &mut begun) } {
            sys::OK => (Some(begun), self.look(shared)),
            _ => (None, Brings::ALL),
        }
    }

    /// All of it where the domain can only be left: whoever waits then finds out why.
    pub(crate) fn look(&mut self, shared: &mut Shared) -> Brings {
        let mut brings = Brings::NOTHING;
        for (one, told) in KINDS.into_iter().zip(&mut self.counts) {
            let mut count = 0;
            // SAFETY: see `Shared::at`.
            let code = unsafe {
                c::iox2ps_domain_brought_by_others(shared.at(), one.0.into(), &mut count)
            };
            if code != sys::OK {
                return Brings::ALL;
            }
            if *told != count {
                *told = count;
                brings = brings.and(one);
            }
        }
        brings
    }
}

/// Where the domain's own thread sleeps.
#[derive(Clone, Copy)]
pub(crate) enum Sleep {
    /// Where other processes wake this one.
    ForAll(u64),
    /// Elsewhere, until a thread calls it or it is time to look for the dead.
    Away(Duration),
}

/// What the thread does under the lock: the sleep that it has begun, and whom to wake first.
pub(crate) struct Begun {
    /// `None` where the domain can only be left.
    pub(crate) sleep: Option<Sleep>,
    pub(crate) wake: Option<(Wake, Vec<Waker>)>,
    /// What is called because processes died.
    pub(crate) deaths: Option<Arc<Listeners>>,
}

impl Begun {
    // Whether anybody is to be woken or called.
    fn has_news(&self) -> bool {
        self.wake.is_some() || self.deaths.is_some()
    }

    // Without the lock.
    fn tell(self) {
        if let Some((wake, mut tasks)) = self.wake {
            // A waker's panic has been reported, and is none of the others'.
            drop(catch_unwind(AssertUnwindSafe(|| {
                wake.wake(|| tasks.pop());
            })));
        }
        if let Some(deaths) = self.deaths {
            deaths.call();
        }
    }
}

/// How many calls of all processes this one has made.
pub(crate) fn calls_of(shared: &mut Shared) -> u64 {
    // SAFETY: see `Shared::at`.
    unsafe { c::iox2ps_domain_calls(shared.at()) }
}

// Where the thread is: it reaches the domain, or calls what a program has brought, or the domain is about to go.
const HERE: u8 = 0;
const AWAY: u8 = 1;
const ENDED: u8 = 2;

/// The thread of a domain, if it has one.
#[derive(Default)]
pub(crate) struct Watch(Mutex<Option<Thread>>);

struct Thread {
    phase: Arc<AtomicU8>,
    domain: Handle,
    thread: JoinHandle<()>,
}

// A pointer as `sys::Domain` has it, for the calls that are made without the lock.
#[derive(Clone, Copy)]
pub(crate) struct Handle(*mut c_void);

// SAFETY: the calls that take it may be made on any thread.
unsafe impl Send for Handle {}

// As long as the domain is there, these may be called.
impl Handle {
    pub(crate) fn of(domain: *mut c_void) -> Handle {
        Handle(domain)
    }

    /// Sleeps until a call of another process since then brings something, or this moment has come, and no longer than `reap_every`.
    pub(crate) fn sleep(self, begun: u64, until: Option<Instant>) {
        let most = until.map_or(u64::MAX, |until| {
            let left = until.saturating_duration_since(Instant::now());
            u64::try_from(left.as_nanos()).unwrap_or(u64::MAX)
        });
        // SAFETY: the domain is there.
        unsafe { c::iox2ps_domain_sleep(&self.domain(), begun, most) };
    }

    /// Ends the sleeps of this process that were begun before.
    pub(crate) fn end_sleep(self) {
        // SAFETY: the domain is there.
        unsafe { c::iox2ps_domain_sleep_end(&self.domain()) };
    }

    /// Whether processes have made more calls than that.
    pub(crate) fn has_more_calls(self, calls: u64) -> bool {
        // SAFETY: the domain is there.
        unsafe { c::iox2ps_domain_has_more_calls(&self.domain(), calls) != 0 }
    }

    fn domain(self) -> sys::Domain {
        sys::Domain { domain: self.0 }
    }
}

// Where a domain lies that is there as long as the phase says so.
struct At<L>(*const Guarded<L>);

// SAFETY: any thread may use what it leads to.
unsafe impl<L: DomainLock> Send for At<L> {}

impl<L: DomainLock> At<L> {
    fn begin(&self) -> Option<Begun> {
        // SAFETY: the phase is `HERE`, and whoever ends the domain waits for the thread then.
        unsafe { &*self.0 }.begin_sleep()
    }

    // From a sleep on that is begun.
    fn run(self, mut sleep: Option<Sleep>, domain: Handle, phase: &AtomicU8) {
        while let Some(sleeps) = sleep {
            // Who ends the domain meanwhile has perhaps ended the sleeps before this one: the other fence is there.
            fence(Ordering::SeqCst);
            if phase.load(Ordering::Acquire) == ENDED {
                return;
            }
            match sleeps {
                Sleep::ForAll(begun) => domain.sleep(begun, None),
                Sleep::Away(most) => park_timeout(most),
            }
            if phase.load(Ordering::Acquire) == ENDED {
                return;
            }
            let begun = match self.begin() {
                Some(begun) => begun,
                None => return,
            };
            sleep = begun.sleep;
            if begun.has_news() {
                if !passes(phase, HERE, AWAY) {
                    return;
                }
                begun.tell();
                // Whoever was called may have dropped the domain, or another thread meanwhile.
                if !passes(phase, AWAY, HERE) {
                    return;
                }
            }
        }
    }
}

fn passes(phase: &AtomicU8, from: u8, to: u8) -> bool {
    phase
        .compare_exchange(from, to, Ordering::AcqRel, Ordering::Acquire)
        .is_ok()
}

impl Watch {
    /// Begins to sleep for the domain, which stays where it is until this ends.
    pub(crate) fn start<L: DomainLock>(&self, domain: &Guarded<L>) -> io::Result<()> {
        let handle = domain.handle();
        let (at, phase) = (At(domain), Arc::new(AtomicU8::new(HERE)));
        let of_thread = phase.clone();
        // Here, so that the thread takes the lock only when it is woken. Nobody waits yet.
        let sleep = at.begin().and_then(|begun| begun.sleep);
        let builder = Builder::new().name("iox2_pubsub".into());
        let thread = without_signals(|| builder.spawn(move || at.run(sleep, handle, &of_thread)))?;
        domain.watcher_is(thread.thread());
        *self.0.lock().unwrap_or_else(PoisonError::into_inner) = Some(Thread {
            phase,
            domain: handle,
            thread,
        });
        Ok(())
    }

    /// Before the domain goes: the thread reaches it no longer.
    pub(crate) fn end(&mut self, is_here: bool) {
        let mine = self.0.get_mut().unwrap_or_else(PoisonError::into_inner);
        if let Some(thread) = mine.take() {
            match is_here {
                true => thread.end(),
                // A child after a fork has no such thread.
                false => forget(thread),
            }
        }
    }
}

impl Thread {
    fn end(self) {
        // One that calls what a program has brought finds it out then, and may be this one.
        if self.phase.swap(ENDED, Ordering::AcqRel) == HERE {
            fence(Ordering::SeqCst);
            self.domain.end_sleep();
            self.thread.thread().unpark();
            drop(self.thread.join());
        }
    }
}

extern "C" {
    fn sigfillset(set: *mut SignalSet) -> c_int;
    fn pthread_sigmask(how: c_int, set: *const SignalSet, old: *mut SignalSet) -> c_int;
}

// As long as glibc's and musl's.
#[repr(C)]
struct SignalSet([u64; 16]);

const SIG_SETMASK: c_int = 2;

// Threads that are spawned here get no signal, which are for the program's own.
fn without_signals<R>(run: impl FnOnce() -> R) -> R {
    let (mut all, mut before) = (SignalSet([0; 16]), SignalSet([0; 16]));
    // SAFETY: they have room for such a set.
    unsafe {
        sigfillset(&mut all);
        pthread_sigmask(SIG_SETMASK, &all, &mut before);
    }
    let result = run();
    // SAFETY: it was filled above.
    unsafe { pthread_sigmask(SIG_SETMASK, &before, null_mut()) };
    result
}
