// SPDX-License-Identifier: Apache-2.0 OR MIT
//! For which threads the handles of a domain are, and how they hold it.

#[cfg(feature = "processes")]
use crate::dead_nodes::DeadNodeListener;
use crate::desk::Desk;
use crate::fork;
use crate::guarded::Guarded;
use crate::listeners::Listener;
use crate::lock::{DomainLock, StdLock};
use crate::shared::Shared;
use crate::sys;
use crate::waiting::FutureNumber;
use std::cell::UnsafeCell;
use std::fmt;
use std::marker::PhantomData;
use std::ops::Deref;
use std::rc::Rc;
use std::sync::Arc;
use std::task::Waker;
use std::time::Instant;

mod sealed {
    pub trait Sealed {}
    impl Sealed for super::OneThread {}
    impl<L> Sealed for super::ManyThreads<L> {}
    impl<M: super::Threads> Sealed for super::Borrowed<'_, M> {}
}

/// For which threads the handles of a domain are: [`OneThread`], [`ManyThreads`], or either of them
/// [`Borrowed`].
pub trait Threads: sealed::Sealed {
    #[doc(hidden)]
    type Place: Place;
    #[doc(hidden)]
    type Hold: Hold<Target = Self::Place>;
}

/// Of [`Threads`] those whose calls may wait: [`ManyThreads`], also [`Borrowed`].
#[cfg_attr(
    has_diagnostics,
    diagnostic::on_unimplemented(
        message = "this call is one of a domain that threads share",
        label = "the domain is one thread's: make it by `create_shared`, or make a call that never waits"
    )
)]
pub trait MayWait: Threads<Place = <Self as MayWait>::WaitingPlace> {
    #[doc(hidden)]
    type WaitingPlace: WaitingPlace;
}

/// The handles stay on the thread that made the domain, and nothing is locked. Each has a counted part
/// in the domain.
#[derive(Debug)]
pub enum OneThread {}

/// The handles may be given to other threads and be used by several at a time. Each call of the library
/// is made under the domain's lock, which is a [`StdLock`] unless another is brought. Each handle has a
/// counted part in the domain.
pub struct ManyThreads<L = StdLock>(PhantomData<L>);

/// The handles borrow their domain, and count nothing: a message costs less, and no handle outlives the
/// [`Domain`](crate::Domain) that was borrowed.
pub struct Borrowed<'d, M: Threads = OneThread>(PhantomData<&'d M>);

impl<L> fmt::Debug for ManyThreads<L> {
    fn fmt(&self, f: &mut fmt::Formatter<'_>) -> fmt::Result {
        f.write_str("ManyThreads")
    }
}

impl<M: Threads> fmt::Debug for Borrowed<'_, M> {
    fn fmt(&self, f: &mut fmt::Formatter<'_>) -> fmt::Result {
        f.write_str("Borrowed")
    }
}

impl Threads for OneThread {
    type Place = Single;
    type Hold = Rc<Single>;
}

impl<L: DomainLock> Threads for ManyThreads<L> {
    type Place = Guarded<L>;
    type Hold = Part<L>;
}

impl<'d, M: Threads> Threads for Borrowed<'d, M>
where
    M::Place: 'd,
{
    type Place = M::Place;
    type Hold = &'d M::Place;
}

impl<L: DomainLock> MayWait for ManyThreads<L> {
    type WaitingPlace = Guarded<L>;
}

impl<'d, M: MayWait> MayWait for Borrowed<'d, M>
where
    M::Place: 'd,
{
    type WaitingPlace = M::WaitingPlace;
}

/// What a call may have brought to those who wait: a sum of these.
#[doc(hidden)]
#[derive(Clone, Copy, Debug, Default, PartialEq, Eq)]
pub struct Brings(pub(crate) u8);

impl Brings {
    pub(crate) const NOTHING: Brings = Brings(0);
    pub(crate) const MESSAGE: Brings = Brings(sys::BRINGS_MESSAGE as u8);
    pub(crate) const ROOM: Brings = Brings(sys::BRINGS_ROOM as u8);
    /// A publisher's send has ended.
    pub(crate) const FREE: Brings = Brings(sys::BRINGS_FREE as u8);
    /// A loan has ended, or a slot came back.
    pub(crate) const LOAN: Brings = Brings(sys::BRINGS_LOAN as u8);
    /// A notification, of a domain that processes share.
    pub(crate) const EVENT: Brings = Brings(32);
    pub(crate) const OTHERS: Brings = Brings::ROOM.and(Brings::END).and(Brings::EVENT);
    pub(crate) const ALL: Brings = Brings::MESSAGE.and(Brings::OTHERS);

    /// Of a loan's send, and of a copy's.
    pub(crate) const SEND: Brings = Brings::MESSAGE.and(Brings::LOAN);
    /// Of the end of a send that was blocked.
    pub(crate) const END: Brings = Brings::FREE.and(Brings::LOAN);
    /// Of a giving up, which reaches others too.
    pub(crate) const GIVE_UP: Brings = Brings::END.and(Brings::MESSAGE);
    /// Of a receive with its release.
    pub(crate) const COPY: Brings = Brings::ROOM.and(Brings::LOAN);

    pub(crate) const fn and(self, other: Brings) -> Brings {
        Brings(self.0 | other.0)
    }

    pub(crate) const fn only(self, other: Brings) -> Brings {
        Brings(self.0 & other.0)
    }

    /// What of it a call has brought that returned this code: docs/DECISIONS.md, "Only a call that changed something wakes others".
    #[inline]
    pub(crate) const fn by(self, code: u32) -> Brings {
        Brings(sys::iox2ps_brought_by(self.0 as u32, code) as u8)
    }

    #[inline]
    pub(crate) const fn meets(self, other: Brings) -> bool {
        self.0 & other.0 != 0
    }
}

/// For what a thread waits.
#[doc(hidden)]
#[derive(Clone, Copy, Debug, PartialEq, Eq)]
pub enum Waits {
    Message,
    /// Where the next buffer is full that a blocked send has to reach.
    Room,
    /// That the publisher's earlier send ends.
    Free,
    Loan,
    #[cfg(feature = "processes")]
    Event,
}

impl Waits {
    /// Whether a call that waits for this tries again after this code.
    pub(crate) fn goes_on(self, code: u32) -> bool {
        match self {
            Waits::Message => code == sys::NO_SAMPLE,
            Waits::Room => code == sys::BLOCKED,
            Waits::Free => code == sys::PUBLISHER_IS_BLOCKED,
            Waits::Loan => matches!(
                code,
                sys::PUBLISHER_IS_BLOCKED
                    | sys::LOAN_ERROR_EXCEEDS_MAX_LOANS
                    | sys::LOAN_ERROR_OUT_OF_MEMORY
            ),
            #[cfg(feature = "processes")]
            Waits::Event => code == sys::processes::PROCESSES_TIMED_OUT,
        }
    }

    /// What may bring it.
    pub(crate) fn helped_by(self) -> Brings {
        match self {
            Waits::Message => Brings::MESSAGE,
            Waits::Room => Brings::ROOM,
            Waits::Free => Brings::FREE,
            Waits::Loan => Brings::LOAN.and(Brings::FREE),
            #[cfg(feature = "processes")]
            Waits::Event => Brings::EVENT,
        }
    }
}

/// A wait: what it waits for, its port, until when or forever, and what its calls bring to others.
#[doc(hidden)]
#[derive(Clone, Copy, Debug)]
pub struct Wait {
    pub(crate) what: Waits,
    pub(crate) port: sys::Wide,
    pub(crate) until: Option<Instant>,
    pub(crate) brings: Brings,
}

/// A poll: for which subscriber, by which task, and what its calls bring to others.
#[doc(hidden)]
#[derive(Debug)]
pub struct Polls<'p> {
    pub(crate) port: sys::Wide,
    pub(crate) waker: &'p Waker,
    /// The number of the future that is polled; `None` where the subscriber itself is.
    pub(crate) future: Option<&'p mut Option<FutureNumber>>,
    pub(crate) brings: Brings,
}

/// A part in a domain.
#[doc(hidden)]
pub trait Hold: Clone + Deref {
    /// Such a part for a new port. Its loans and samples get theirs from it.
    fn of_port(&self) -> Self;
}

impl Hold for Rc<Single> {
    fn of_port(&self) -> Self {
        self.clone()
    }
}

impl<P> Hold for &P {
    fn of_port(&self) -> Self {
        self
    }
}

/// A counted part in a domain that threads share. Each port has a count of its own, so that threads which use different
/// ports don't write to the same one with each message.
#[doc(hidden)]
#[allow(missing_debug_implementations)]
pub struct Part<L>(Arc<Counted<L>>);

// As long as what processors take from each other, and so alone in it.
#[repr(align(128))]
struct Counted<L>(Arc<Guarded<L>>);

impl<L> Part<L> {
    pub(crate) fn new(domain: Arc<Guarded<L>>) -> Self {
        Part(Arc::new(Counted(domain)))
    }
}

impl<L> Clone for Part<L> {
    #[inline]
    fn clone(&self) -> Self {
        Part(self.0.clone())
    }
}

impl<L> Deref for Part<L> {
    type Target = Guarded<L>;

    #[inline]
    fn deref(&self) -> &Guarded<L> {
        &self.0 .0
    }
}

impl<L> Hold for Part<L> {
    fn of_port(&self) -> Self {
        Part::new(self.0 .0.clone())
    }
}

/// Where a domain is.
#[doc(hidden)]
pub trait Place {
    /// Whether threads share it.
    const IS_SHARED: bool;

    /// Makes calls of the library, with no other between them, and returns the code of the last. What runs
    /// here is this crate's alone: no function of a user, which could call again.
    fn call(&self, brings: Brings, calls: impl FnOnce(&mut Shared) -> u32) -> u32;

    /// Makes them again as long as the wait goes on, each time when something came that may help.
    fn wait(&self, wait: Wait, calls: impl FnMut(&mut Shared) -> u32) -> u32;

    /// A subscriber goes: no task waits for it, and nothing is called for it any longer.
    fn forget(&self, port: sys::Wide);

    /// The reader of an open desk goes: nobody serves it any longer.
    fn close(&self, desk: &Arc<Desk>);
}

/// Where a domain is that several threads use.
#[doc(hidden)]
pub trait WaitingPlace: Place {
    /// Makes calls, and lets the task of this poll be woken when a message may have come for the subscriber, where none
    /// is there. `None` then.
    fn poll(&self, polls: Polls<'_>, calls: impl FnOnce(&mut Shared) -> u32) -> Option<u32>;

    /// This task, which polled the subscriber itself, isn't woken any longer for it.
    fn forget_waker(&self, port: sys::Wide, waker: &Waker);

    /// This future goes: no task is woken for it any longer.
    fn forget_future(&self, future: FutureNumber);

    /// This is called from now on when a message may have come for the subscriber, in place of what was before.
    fn listen(&self, port: sys::Wide, listener: Option<Listener>);

    /// This is called from now on with each process that died, in place of what was before. Returns the code of the domain.
    #[cfg(feature = "processes")]
    fn listen_to_deaths(&self, listener: Option<DeadNodeListener>) -> u32;

    /// Whoever has the lock when a message comes serves this desk from now on.
    fn open(&self, desk: &Arc<Desk>);

    /// Asks there, and whether somebody serves it soon. Else it still asks.
    fn is_served(&self, desk: &Desk) -> bool;

    /// No call waits any longer, or calls wait again.
    fn stop_waits(&self, is_stopped: bool);

    /// Which of these was said last.
    fn waits_are_stopped(&self) -> bool;
}

/// A domain that stays on its thread.
#[doc(hidden)]
#[allow(missing_debug_implementations)]
pub struct Single(UnsafeCell<Shared>);

impl Single {
    pub(crate) fn new(shared: Shared) -> Rc<Self> {
        let single = Rc::new(Single(UnsafeCell::new(shared)));
        fork::remember(Shared::place(single.0.get()));
        single
    }
}

impl Drop for Single {
    fn drop(&mut self) {
        fork::forget(Shared::place(self.0.get()));
    }
}

impl Place for Single {
    const IS_SHARED: bool = false;

    #[inline(always)]
    fn call(&self, _: Brings, calls: impl FnOnce(&mut Shared) -> u32) -> u32 {
        // SAFETY: this is the only reference: `calls` don't come back here, and no other thread has
        // a part, since this isn't `Sync`.
        calls(unsafe { &mut *self.0.get() })
    }

    fn wait(&self, wait: Wait, calls: impl FnMut(&mut Shared) -> u32) -> u32 {
        self.call(wait.brings, calls)
    }

    #[inline]
    fn forget(&self, _: sys::Wide) {}

    fn close(&self, _: &Arc<Desk>) {}
}
