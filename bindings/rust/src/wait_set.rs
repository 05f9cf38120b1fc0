// SPDX-License-Identifier: Apache-2.0 OR MIT
//! Waits for several subscribers and publishers at once, and for times.

use crate::alarm::Alarm;
use crate::attachments::{earlier, Attachment, Attachments};
use crate::errors::{WaitSetAttachmentError, WaitSetRunError};
#[cfg(feature = "processes")]
use crate::event_listener::Listener;
use crate::joined_port::{Joins, Member};
use crate::listeners::is_listening;
use crate::lock::DomainLock;
use crate::payload::Payload;
use crate::publisher::Publisher;
use crate::subscriber::Subscriber;
use crate::threads::ManyThreads;
use crate::timeout::after;
use std::cell::RefCell;
use std::fmt;
use std::marker::PhantomData;
use std::sync::Arc;
use std::time::{Duration, Instant};

/// What can be attached to a [`WaitSet`]: a [`Subscriber`] or a [`Publisher`] of a domain that threads share. Those that
/// [borrow](crate::Domain::borrowed) their domain can't.
#[cfg_attr(
    has_diagnostics,
    diagnostic::on_unimplemented(
        message = "only ports of a domain that threads share are attached",
        label = "a subscriber or a publisher of a domain that `create_shared` made, which isn't borrowed, can be"
    )
)]
pub trait SynchronousMultiplexing: Joins {}

impl<P: Payload + ?Sized, L: DomainLock> SynchronousMultiplexing for Subscriber<P, ManyThreads<L>> {}
impl<P: Payload + ?Sized, L: DomainLock> SynchronousMultiplexing for Publisher<P, ManyThreads<L>> {}
#[cfg(feature = "processes")]
impl<L: DomainLock> SynchronousMultiplexing for Listener<ManyThreads<L>> {}

/// One thread waits for subscribers and publishers of several domains that threads share, and for times. The names are
/// iceoryx2's.
///
/// ```
/// use iox2_pubsub::{CallbackProgression, Domain, WaitSet};
/// use std::time::Duration;
///
/// # fn main() -> Result<(), Box<dyn std::error::Error>> {
/// let (words, numbers) = (Domain::<char>::builder(1).create_shared()?, Domain::<u64>::builder(2).create_shared()?);
/// let (publisher, subscriber) = (words.publisher()?, words.subscriber()?);
/// let other = numbers.subscriber()?;
/// let set = WaitSet::new();
/// let word = set.attach_notification(&subscriber)?;
/// let number = set.attach_deadline(&other, Duration::from_millis(1))?;
/// let tick = set.attach_interval(Duration::from_secs(60))?;
/// publisher.send_copy('a')?.delivered();
/// set.wait_and_process(|id| {
///     if id.has_event_from(&word) {
///         assert_eq!(subscriber.receive_copy(), Ok(Some('a')));
///     }
///     match id.has_missed_deadline(&number) || id.has_event_from(&tick) {
///         true => CallbackProgression::Stop,
///         false => CallbackProgression::Continue,
///     }
/// })?;
/// # Ok(())
/// # }
/// ```
///
/// A call that attaches returns a guard, which detaches when it is dropped. A wait sleeps until there is an event, and then
/// calls a function for each attachment that has one, in the order in which they were attached:
///
/// - A subscriber has an event as long as a message waits for it, also one that can't be received yet: where the function
///   receives nothing it is called again at once. A message that another thread or a [`Reader`](crate::Reader) has taken first
///   isn't seen.
/// - A publisher has one when it is attached, and whenever a loan or a send that it refused may be made, or a send that is
///   blocked may be retried. That may be for nothing: each release of a sample brings one. So it is attached while something of
///   it waits.
/// - A `Listener` of events has one when it is attached, and whenever an event came. Take all.
/// - A deadline is missed where a wait finds no event of the port for so long: since it was attached, had its last event, or
///   missed it. Then it begins anew.
/// - An interval has an event whenever so much time has passed. Those that were due while the thread was elsewhere are one.
///
/// [`stop_waits`](crate::Domain::stop_waits) of a domain ends the wait of each set that has a port of it, once no port has an
/// event. In a listener a set doesn't wait.
///
/// The function may attach, detach and wait by this set. Events for which nothing was called, after
/// [`CallbackProgression::Stop`] or a panic, are there for the next wait. Memory is taken where something is attached, and in no
/// wait.
///
/// A set may be given to another thread, and is used by one at a time: it is `Send` and not `Sync`. Any thread may bring what it
/// waits for.
///
/// ```compile_fail
/// fn by_threads<T: Sync>(_: &T) {}
/// by_threads(&iox2_pubsub::WaitSet::new());
/// ```
#[derive(Default)]
pub struct WaitSet {
    alarm: Arc<Alarm>,
    attachments: RefCell<Attachments>,
}

impl WaitSet {
    /// A set without attachments.
    #[must_use]
    pub fn new() -> WaitSet {
        WaitSet::default()
    }

    /// How much is attached.
    #[must_use]
    pub fn len(&self) -> usize {
        self.attachments.borrow().all.len()
    }

    /// Whether nothing is attached.
    #[must_use]
    pub fn is_empty(&self) -> bool {
        self.len() == 0
    }

    /// Attaches a subscriber or a publisher, which can't be dropped before the guard:
    ///
    /// ```compile_fail
    /// let domain = iox2_pubsub::Domain::<u64>::builder(7).create_shared().unwrap();
    /// let subscriber = domain.subscriber().unwrap();
    /// let set = iox2_pubsub::WaitSet::new();
    /// let guard = set.attach_notification(&subscriber).unwrap();
    /// drop(subscriber);
    /// drop(guard);
    /// ```
    ///
    /// # Errors
    ///
    /// See [`WaitSetAttachmentError`].
    pub fn attach_notification<'set, 'member>(
        &'set self,
        attachment: &'member impl SynchronousMultiplexing,
    ) -> Result<WaitSetGuard<'set, 'member>, WaitSetAttachmentError> {
        self.attach(Some(attachment.join(&self.alarm)), None)
    }

    /// Attaches one with a deadline: there is an event too where it has none of its own for so long.
    ///
    /// # Errors
    ///
    /// See [`WaitSetAttachmentError`].
    pub fn attach_deadline<'set, 'member>(
        &'set self,
        attachment: &'member impl SynchronousMultiplexing,
        deadline: Duration,
    ) -> Result<WaitSetGuard<'set, 'member>, WaitSetAttachmentError> {
        self.attach(Some(attachment.join(&self.alarm)), Some(deadline))
    }

    /// Attaches an interval: there is an event whenever so much time has passed; of zero, in each wait.
    ///
    /// # Errors
    ///
    /// See [`WaitSetAttachmentError`].
    pub fn attach_interval(
        &self,
        interval: Duration,
    ) -> Result<WaitSetGuard<'_, 'static>, WaitSetAttachmentError> {
        self.attach(None, Some(interval))
    }

    fn attach<'set, 'member>(
        &'set self,
        member: Option<Result<Box<dyn Member>, u32>>,
        period: Option<Duration>,
    ) -> Result<WaitSetGuard<'set, 'member>, WaitSetAttachmentError> {
        let member = member.transpose().map_err(WaitSetAttachmentError::of)?;
        let attachment = Attachment::new(member, period);
        let number = attachment.number;
        let mut attachments = self.attachments.borrow_mut();
        if attachments.all.try_reserve(1).is_err() {
            return Err(WaitSetAttachmentError::OutOfMemory);
        }
        attachments.all.push(attachment);
        Ok(WaitSetGuard {
            set: self,
            number,
            member: PhantomData,
        })
    }

    /// Waits and calls the function with the id of each event, again and again, until it returns [`CallbackProgression::Stop`] or
    /// waits are stopped.
    ///
    /// # Errors
    ///
    /// See [`WaitSetRunError`].
    pub fn wait_and_process(
        &self,
        mut call: impl FnMut(WaitSetAttachmentId) -> CallbackProgression,
    ) -> Result<WaitSetRunResult, WaitSetRunError> {
        loop {
            let ended = self.process(&mut call, None)?;
            if ended != WaitSetRunResult::AllEventsHandled {
                return Ok(ended);
            }
        }
    }

    /// Waits once, and calls the function for each event that there is then.
    ///
    /// # Errors
    ///
    /// See [`WaitSetRunError`].
    pub fn wait_and_process_once(
        &self,
        mut call: impl FnMut(WaitSetAttachmentId) -> CallbackProgression,
    ) -> Result<WaitSetRunResult, WaitSetRunError> {
        self.process(&mut call, None)
    }

    /// The same, for so long at most.
    ///
    /// # Errors
    ///
    /// See [`WaitSetRunError`].
    pub fn wait_and_process_once_with_timeout(
        &self,
        mut call: impl FnMut(WaitSetAttachmentId) -> CallbackProgression,
        timeout: Duration,
    ) -> Result<WaitSetRunResult, WaitSetRunError> {
        self.process(&mut call, after(timeout))
    }

    fn process(
        &self,
        call: &mut impl FnMut(WaitSetAttachmentId) -> CallbackProgression,
        until: Option<Instant>,
    ) -> Result<WaitSetRunResult, WaitSetRunError> {
        let ended = self.wait(until)?;
        // A borrow of its own each time, since the function may attach and detach.
        let next = || self.attachments.borrow_mut().take();
        while let Some(id) = next() {
            if call(id) == CallbackProgression::Stop {
                return Ok(WaitSetRunResult::StopRequest);
            }
        }
        Ok(ended)
    }

    // Waits until there are events, none where the time has passed first, or waits are stopped and no port has any.
    fn wait(&self, until: Option<Instant>) -> Result<WaitSetRunResult, WaitSetRunError> {
        // What an earlier wait has left, or one that called this.
        self.attachments.borrow_mut().put_off();
        loop {
            self.alarm.lower();
            let (found, gone) = self.attachments.borrow_mut().look();
            drop(gone);
            if found.is_after_fork {
                return Err(WaitSetRunError::AfterFork);
            }
            if self.is_empty() {
                return Err(WaitSetRunError::NoAttachments);
            }
            let is_stopped = found.is_stopped || is_listening();
            if found.of_ports || (found.of_times && !is_stopped) {
                return Ok(WaitSetRunResult::AllEventsHandled);
            }
            if is_stopped {
                self.attachments.borrow_mut().put_off();
                return Ok(WaitSetRunResult::TerminationRequest);
            }
            if matches!(until, Some(until) if until <= found.now) {
                return Ok(WaitSetRunResult::AllEventsHandled);
            }
            self.alarm.sleep(earlier(until, found.next));
        }
    }

    fn detach(&self, number: u64) {
        let gone = self.attachments.borrow_mut().remove(number);
        drop(gone);
    }
}

impl fmt::Debug for WaitSet {
    fn fmt(&self, f: &mut fmt::Formatter<'_>) -> fmt::Result {
        f.debug_struct("WaitSet")
            .field("len", &self.len())
            .finish_non_exhaustive()
    }
}

/// Keeps something attached to a [`WaitSet`] until it is dropped. It stays on the thread of its set.
#[must_use = "it detaches when it is dropped"]
pub struct WaitSetGuard<'set, 'member> {
    set: &'set WaitSet,
    number: u64,
    member: PhantomData<&'member ()>,
}

impl Drop for WaitSetGuard<'_, '_> {
    fn drop(&mut self) {
        self.set.detach(self.number);
    }
}

impl fmt::Debug for WaitSetGuard<'_, '_> {
    fn fmt(&self, f: &mut fmt::Formatter<'_>) -> fmt::Result {
        f.debug_struct("WaitSetGuard")
            .field("number", &self.number)
            .finish_non_exhaustive()
    }
}

/// What a [`WaitSet`] has called a function for. It may be the key of a map.
#[derive(Clone, Copy, Debug, PartialEq, Eq, Hash, PartialOrd, Ord)]
pub struct WaitSetAttachmentId {
    pub(crate) number: u64,
    pub(crate) missed: bool,
}

impl WaitSetAttachmentId {
    /// That of the events of what the guard has attached.
    #[must_use]
    pub fn from_guard(guard: &WaitSetGuard<'_, '_>) -> WaitSetAttachmentId {
        WaitSetAttachmentId {
            number: guard.number,
            missed: false,
        }
    }

    /// Whether it is an event of the guard's port, or its interval's.
    #[must_use]
    pub fn has_event_from(&self, guard: &WaitSetGuard<'_, '_>) -> bool {
        *self == WaitSetAttachmentId::from_guard(guard)
    }

    /// Whether the guard's port had no event within its deadline.
    #[must_use]
    pub fn has_missed_deadline(&self, guard: &WaitSetGuard<'_, '_>) -> bool {
        self.missed && self.number == guard.number
    }
}

/// What a function that a [`WaitSet`] calls wants.
#[derive(Clone, Copy, Debug, PartialEq, Eq, Hash)]
pub enum CallbackProgression {
    /// That the wait ends.
    Stop,
    /// The next event.
    Continue,
}

/// Why a wait of a [`WaitSet`] has ended.
#[derive(Clone, Copy, Debug, PartialEq, Eq, Hash)]
pub enum WaitSetRunResult {
    /// Waits are stopped in the domain of a port, and no port has an event.
    TerminationRequest,
    /// The function returned [`CallbackProgression::Stop`].
    StopRequest,
    /// The function was called for each event, or the time has passed.
    AllEventsHandled,
}
