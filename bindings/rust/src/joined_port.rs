// SPDX-License-Identifier: Apache-2.0 OR MIT
//! A port in a wait set. Its domain tells the set what calls bring, as it tells another language that has joined.

use crate::alarm::Alarm;
use crate::errors::AFTER_FORK;
#[cfg(feature = "processes")]
use crate::event_listener::Listener;
use crate::lock::DomainLock;
use crate::payload::Payload;
use crate::publisher::Publisher;
use crate::shared::Shared;
use crate::subscriber::Subscriber;
use crate::sys::shared as c;
use crate::sys::{self, Wide};
use crate::threads::{Brings, ManyThreads, Part, Place};
use std::cell::UnsafeCell;
use std::fmt;
use std::mem::size_of;
use std::ptr::{null_mut, NonNull};
use std::sync::atomic::{AtomicBool, Ordering};
use std::sync::Arc;

/// A port that is attached.
#[doc(hidden)]
pub trait Member: Send {
    /// Asks its domain, where something came since it was asked last.
    fn look(&mut self) -> Look;

    /// Its event was handled.
    fn handled(&self);

    /// It is asked by the next look, whatever comes.
    fn ask_again(&self);
}

/// What a port says.
#[doc(hidden)]
#[derive(Clone, Copy, Debug, Default)]
pub struct Look {
    pub(crate) is_after_fork: bool,
    /// It is closed.
    pub(crate) is_gone: bool,
    pub(crate) has_event: bool,
    /// No call of its domain waits.
    pub(crate) is_stopped: bool,
}

/// What can make a member of a set.
#[doc(hidden)]
pub trait Joins {
    /// The code of the domain where it is refused.
    fn join(&self, alarm: &Arc<Alarm>) -> Result<Box<dyn Member>, u32>;
}

impl<P: Payload + ?Sized, L: DomainLock> Joins for Subscriber<P, ManyThreads<L>> {
    fn join(&self, alarm: &Arc<Alarm>) -> Result<Box<dyn Member>, u32> {
        JoinedPort::member(&self.hold, Port::Subscriber(self.port), alarm)
    }
}

impl<P: Payload + ?Sized, L: DomainLock> Joins for Publisher<P, ManyThreads<L>> {
    fn join(&self, alarm: &Arc<Alarm>) -> Result<Box<dyn Member>, u32> {
        JoinedPort::member(&self.hold, Port::Publisher(self.port.id), alarm)
    }
}

#[cfg(feature = "processes")]
impl<L: DomainLock> Joins for Listener<ManyThreads<L>> {
    fn join(&self, alarm: &Arc<Alarm>) -> Result<Box<dyn Member>, u32> {
        JoinedPort::member(&self.hold, Port::Listener, alarm)
    }
}

enum Port {
    Subscriber(sys::Subscriber),
    Publisher(Wide),
    #[cfg(feature = "processes")]
    Listener,
}

impl Port {
    // What may bring an event.
    fn wants(&self) -> Brings {
        match self {
            Port::Subscriber(_) => Brings::MESSAGE,
            Port::Publisher(_) => Brings::ROOM.and(Brings::END),
            #[cfg(feature = "processes")]
            Port::Listener => Brings::EVENT,
        }
    }

    // Whether it has an event. The code is `NOT_LIVE` where it is closed, and that of a receive where that would be refused.
    fn ask(&self, shared: &mut Shared) -> (u32, bool) {
        match self {
            Port::Subscriber(port) => {
                let mut waits = 0;
                // SAFETY: see `Shared::at`.
                let code =
                    unsafe { sys::iox2ps_subscriber_has_samples(shared.at(), port, &mut waits) };
                (code, waits != 0 || code != sys::OK)
            }
            Port::Publisher(id) if shared.has_publisher(*id) => (sys::OK, true),
            Port::Publisher(_) => (sys::NOT_LIVE, false),
            // It is asked only where one may have come.
            #[cfg(feature = "processes")]
            Port::Listener => (sys::OK, true),
        }
    }
}

// What the domain calls. It stays at its place until it has left the domain.
#[repr(C)]
struct Told {
    // The first field, so that its place is that of all. What is in it is the domain's, and reached with its lock.
    joined: UnsafeCell<c::Joined>,
    wants: Brings,
    is_told: AtomicBool,
    rings: Rings,
}

// Called under the lock.
type Rings = Box<dyn Fn() + Send + Sync>;

impl Told {
    fn new(wants: Brings, rings: Rings) -> NonNull<Told> {
        let joined = c::Joined {
            struct_size: size_of::<c::Joined>(),
            wake: Told::wake,
            connect: Told::connect,
            waits_are_stopped: 0,
            reserved: 0,
            before: null_mut(),
            after: null_mut(),
        };
        NonNull::from(Box::leak(Box::new(Told {
            joined: UnsafeCell::new(joined),
            wants,
            is_told: AtomicBool::new(true),
            rings,
        })))
    }

    // SAFETY of both: it has joined, so it is there.
    unsafe extern "C" fn wake(joined: *mut c::Joined, brings: u32) {
        let told = &*(joined as *const Told);
        if told.wants.meets(Brings(brings as u8)) {
            told.is_told.store(true, Ordering::Release);
            (told.rings)();
        }
    }

    unsafe extern "C" fn connect(_: *mut c::Joined, _: *mut sys::Domain) {}
}

/// What a domain tells of what calls bring, until it is dropped.
pub(crate) struct Joined<L: DomainLock> {
    hold: Part<L>,
    told: NonNull<Told>,
}

// SAFETY: what it points to is its own, or used with the lock of the domain, or atomic; and the rest may go to another thread.
unsafe impl<L: DomainLock> Send for Joined<L> {}

impl<L: DomainLock> Joined<L> {
    /// The code of the domain where it is refused.
    pub(crate) fn new(hold: &Part<L>, wants: Brings, rings: Rings) -> Result<Self, u32> {
        let made = Joined {
            hold: hold.clone(),
            told: Told::new(wants, rings),
        };
        match made.hold.join(made.told.as_ptr().cast()) {
            sys::OK => Ok(made),
            code => Err(code),
        }
    }

    fn told(&self) -> &Told {
        // SAFETY: it is there as long as this is, and nobody has it mutably.
        unsafe { self.told.as_ref() }
    }
}

struct JoinedPort<L: DomainLock> {
    joined: Joined<L>,
    port: Port,
    // What was said last.
    is_stopped: bool,
}

impl<L: DomainLock> JoinedPort<L> {
    fn member(hold: &Part<L>, port: Port, alarm: &Arc<Alarm>) -> Result<Box<dyn Member>, u32> {
        let alarm = alarm.clone();
        let joined = Joined::new(hold, port.wants(), Box::new(move || alarm.raise()))?;
        Ok(Box::new(JoinedPort {
            joined,
            port,
            is_stopped: false,
        }))
    }
}

impl<L: DomainLock> Member for JoinedPort<L> {
    fn look(&mut self) -> Look {
        let mut look = Look {
            is_after_fork: !self.joined.hold.is_here(),
            is_stopped: self.is_stopped,
            ..Look::default()
        };
        if look.is_after_fork || !self.joined.told().is_told.swap(false, Ordering::AcqRel) {
            return look;
        }
        let (told, port) = (self.joined.told(), &self.port);
        let code = self.joined.hold.call(Brings::NOTHING, |shared| {
            // SAFETY: the domain writes it with its lock.
            look.is_stopped = unsafe { (*told.joined.get()).waits_are_stopped } != 0;
            let (code, has_event) = port.ask(shared);
            look.has_event = has_event;
            code
        });
        look.is_after_fork = code == AFTER_FORK;
        look.is_gone = code == sys::NOT_LIVE;
        self.is_stopped = look.is_stopped;
        look
    }

    fn handled(&self) {
        // As long as a message waits there is an event.
        if let Port::Subscriber(_) = self.port {
            self.ask_again();
        }
    }

    fn ask_again(&self) {
        self.joined.told().is_told.store(true, Ordering::Release);
    }
}

impl<L: DomainLock> Drop for Joined<L> {
    fn drop(&mut self) {
        // Also where it hasn't joined: then there is nothing to leave.
        self.hold.leave(self.told.as_ptr().cast());
        // SAFETY: it was leaked by `Told::new`, and the domain has it no longer; a child after a fork calls nothing of its parent's.
        drop(unsafe { Box::from_raw(self.told.as_ptr()) });
    }
}

impl fmt::Debug for dyn Member {
    fn fmt(&self, f: &mut fmt::Formatter<'_>) -> fmt::Result {
        f.write_str("Member")
    }
}
