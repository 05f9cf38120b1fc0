// SPDX-License-Identifier: Apache-2.0 OR MIT
//! A domain: a service and what is in it.

use crate::errors::{is_after_fork, is_broken, unexpected, DomainCreateError};
use crate::guarded::Guarded;
use crate::ids::{number, wide, NodeId};
use crate::lock::{DomainLock, StdLock};
#[cfg(feature = "processes")]
use crate::named_domain::options_of;
use crate::payload::{Payload, Value};
use crate::port_factory::{PortFactoryPublisher, PortFactorySubscriber};
use crate::publisher::{BackpressureStrategy, Publisher};
use crate::recording::{Recording, Room};
use crate::shared::Shared;
use crate::static_config::StaticConfig;
use crate::subscriber::Subscriber;
use crate::sys;
use crate::threads::{
    Borrowed, Brings, ManyThreads, MayWait, OneThread, Part, Place, Single, Threads, WaitingPlace,
};
use crate::warning::Warning;
#[cfg(feature = "processes")]
use crate::watch::Pace;
use crate::{PublisherCreateError, SubscriberCreateError};
use std::fmt;
use std::marker::PhantomData;
#[cfg(not(feature = "processes"))]
use std::sync::Arc;

/// A service whose messages are of the type `P`: a value, or a slice of values.
///
/// Clones are the same domain, and its ports, loans and samples keep it alive. One that
/// [`DomainBuilder::create`] makes stays on its thread, with all its handles; one that
/// [`DomainBuilder::create_shared`] makes is a [`SharedDomain`], which any thread may use.
pub struct Domain<P: Payload + ?Sized, M: Threads = OneThread> {
    pub(crate) hold: M::Hold,
    messages: PhantomData<P>,
}

/// A domain that several threads use at a time, as its handles may be.
pub type SharedDomain<P, L = StdLock> = Domain<P, ManyThreads<L>>;

impl<P: Payload + ?Sized, M: Threads> Clone for Domain<P, M> {
    fn clone(&self) -> Self {
        Domain {
            hold: self.hold.clone(),
            messages: PhantomData,
        }
    }
}

impl<P: Payload + ?Sized> Domain<P> {
    /// The settings of a domain of single values. The number names it: two domains with one number
    /// are the same to whoever compares ids.
    pub fn builder(service_id: u128) -> DomainBuilder<P>
    where
        P: Value,
    {
        DomainBuilder::new(service_id)
    }
}

impl<T: Copy + 'static> Domain<[T]> {
    /// The settings of a domain of slices, of one value at most until `max_slice_len` says more.
    pub fn slice_builder(service_id: u128) -> DomainBuilder<[T]> {
        DomainBuilder::new(service_id)
    }
}

impl<P: Payload + ?Sized, M: Threads> Domain<P, M> {
    pub(crate) fn of(hold: M::Hold) -> Self {
        Domain {
            hold,
            messages: PhantomData,
        }
    }

    /// The same domain with handles that borrow it, and so cost less than those that have a counted part in
    /// it each.
    ///
    /// ```
    /// use iox2_pubsub::{Borrowed, Domain, Publisher};
    ///
    /// # fn main() -> Result<(), Box<dyn std::error::Error>> {
    /// let domain = Domain::<u64>::builder(7).create()?;
    /// let publisher: Publisher<u64, Borrowed<'_>> = domain.borrowed().publisher()?;
    /// assert_eq!(publisher.send_copy(7)?.delivered(), Some(0));
    /// # Ok(())
    /// # }
    /// ```
    ///
    /// They don't outlive it:
    ///
    /// ```compile_fail
    /// let domain = iox2_pubsub::Domain::<u64>::builder(7).create().unwrap();
    /// let publisher = domain.borrowed().publisher().unwrap();
    /// drop(domain);
    /// drop(publisher);
    /// ```
    #[must_use]
    pub fn borrowed(&self) -> Domain<P, Borrowed<'_, M>> {
        Domain {
            hold: &*self.hold,
            messages: PhantomData,
        }
    }

    /// Makes a publisher as the settings of the domain say.
    ///
    /// # Errors
    ///
    /// See [`PublisherCreateError`].
    pub fn publisher(&self) -> Result<Publisher<P, M>, PublisherCreateError> {
        self.publisher_builder().create()
    }

    /// Makes a subscriber as the settings of the domain say; see
    /// [`create`](PortFactorySubscriber::create) for what it gets then.
    ///
    /// # Errors
    ///
    /// See [`SubscriberCreateError`].
    pub fn subscriber(&self) -> Result<Subscriber<P, M>, SubscriberCreateError> {
        self.subscriber_builder().create()
    }

    /// The settings of a publisher, which begin as those of the domain.
    pub fn publisher_builder(&self) -> PortFactoryPublisher<'_, P, M> {
        PortFactoryPublisher::new(self)
    }

    /// The settings of a subscriber, which begin as those of the domain.
    pub fn subscriber_builder(&self) -> PortFactorySubscriber<'_, P, M> {
        PortFactorySubscriber::new(self)
    }

    /// The number that names the domain.
    #[must_use]
    pub fn service_id(&self) -> u128 {
        number(self.config().service_id)
    }

    /// The settings that it was made with.
    #[must_use]
    #[track_caller]
    pub fn static_config(&self) -> StaticConfig {
        StaticConfig::of(self.config())
    }

    /// The last warnings, 32 at most, the oldest first. Reading forgets none.
    #[must_use]
    pub fn warnings(&self) -> Vec<Warning> {
        (0..)
            .map_while(|index| Warning::read(&*self.hold, index))
            .collect()
    }

    /// How many connections of a publisher and a subscriber the domain has.
    #[must_use]
    #[track_caller]
    pub fn connection_count(&self) -> usize {
        let mut count = 0;
        // SAFETY: see `Shared::at`.
        self.ask(|shared| unsafe { sys::iox2ps_domain_connection_count(shared.at(), &mut count) });
        count
    }

    /// How many books of slots the domain has: that of each publisher, and that of a closed one until
    /// nobody holds a slot of it.
    #[must_use]
    #[track_caller]
    pub fn book_count(&self) -> usize {
        let mut count = 0;
        // SAFETY: see `Shared::at`.
        self.ask(|shared| unsafe { sys::iox2ps_domain_book_count(shared.at(), &mut count) });
        count
    }

    /// How often memory for a connection was refused since the domain was made.
    #[must_use]
    #[track_caller]
    pub fn refused_connections(&self) -> u64 {
        let mut count = 0;
        // SAFETY: see `Shared::at`.
        self.ask(|shared| unsafe {
            sys::iox2ps_domain_refused_connections(shared.at(), &mut count)
        });
        count
    }

    /// What was recorded so far, where [`DomainBuilder::record`] asked for it.
    ///
    /// # Errors
    ///
    /// [`DomainCreateError::OutOfMemory`], where there is no memory for the text.
    pub fn recording(&self) -> Result<Recording, DomainCreateError> {
        Recording::read(&*self.hold).map_err(DomainCreateError::of)
    }

    pub(crate) fn config(&self) -> sys::Config {
        config(&*self.hold)
    }

    #[track_caller]
    fn ask(&self, question: impl FnOnce(&mut Shared) -> u32) {
        expect(self.hold.call(Brings::NOTHING, question));
    }
}

impl<P: Payload + ?Sized, M: Threads> fmt::Debug for Domain<P, M> {
    fn fmt(&self, f: &mut fmt::Formatter<'_>) -> fmt::Result {
        f.debug_struct("Domain")
            .field("service_id", &self.service_id())
            .finish_non_exhaustive()
    }
}

impl<P: Payload + ?Sized, M: Threads> Domain<P, M> {
    /// Lets no call wait any longer, here and on other threads: each tries once, and returns what it
    /// found. So a program ends its threads. With `false` calls wait again.
    ///
    /// A loop of `timed_` calls asks [`waits_are_stopped`](Domain::waits_are_stopped) where one found nothing.
    pub fn stop_waits(&self, stopped: bool)
    where
        M: MayWait,
    {
        self.hold.stop_waits(stopped);
    }

    /// Whether calls no longer wait: [`stop_waits`](Domain::stop_waits).
    ///
    /// ```
    /// use std::{thread, time::Duration};
    ///
    /// # fn main() -> Result<(), Box<dyn std::error::Error>> {
    /// let domain = iox2_pubsub::Domain::<u64>::builder(7).create_shared()?;
    /// let (subscriber, of_thread) = (domain.subscriber()?, domain.clone());
    /// let thread = thread::spawn(move || {
    ///     while !of_thread.waits_are_stopped() {
    ///         match subscriber.timed_receive_copy(Duration::from_secs(1)) {
    ///             Ok(Some(number)) => println!("{number}"),
    ///             Ok(None) => println!("nothing came"),
    ///             Err(error) => println!("{error}"),
    ///         }
    ///     }
    /// });
    /// domain.stop_waits(true);
    /// thread.join().unwrap();
    /// # Ok(())
    /// # }
    /// ```
    #[must_use]
    pub fn waits_are_stopped(&self) -> bool
    where
        M: MayWait,
    {
        self.hold.waits_are_stopped()
    }
}

/// The settings of the domain that is there.
pub(crate) fn config(place: &impl Place) -> sys::Config {
    let mut config = sys::Config::default();
    expect(read_config(place, &mut config));
    config
}

/// The same, and zeros in a child after a fork, where a later call says so.
pub(crate) fn config_or_zeros(place: &impl Place) -> sys::Config {
    let mut config = sys::Config::default();
    expect_here(read_config(place, &mut config));
    config
}

pub(crate) fn read_config(place: &impl Place, config: &mut sys::Config) -> u32 {
    // SAFETY: see `Shared::at`.
    place.call(Brings::NOTHING, |shared| unsafe {
        sys::iox2ps_domain_config(shared.at(), config)
    })
}

#[inline(always)]
#[track_caller]
pub(crate) fn expect(code: u32) {
    if code != sys::OK {
        unexpected(code);
    }
}

/// The same of a call that does nothing in a child after a fork, or where the domain can only be left, as one that gives something
/// back.
#[inline(always)]
pub(crate) fn expect_here(code: u32) {
    if code != sys::OK {
        not_here(code);
    }
}

#[cold]
fn not_here(code: u32) {
    if !is_after_fork(code) && !is_broken(code) {
        unexpected(code);
    }
}

/// The settings of a domain. Unless they are set: 2 publishers with 2 loans each, 8 subscribers with a
/// buffer of 2 and 2 borrowed samples, no history, overflow.
#[must_use = "settings make nothing until `create`"]
pub struct DomainBuilder<P: Payload + ?Sized> {
    pub(crate) config: sys::Config,
    pub(crate) recorded: Option<Room>,
    messages: PhantomData<P>,
}

// Written out, since derived ones would ask the same of `P`.
impl<P: Payload + ?Sized> Clone for DomainBuilder<P> {
    fn clone(&self) -> Self {
        DomainBuilder { ..*self }
    }
}

impl<P: Payload + ?Sized> fmt::Debug for DomainBuilder<P> {
    fn fmt(&self, f: &mut fmt::Formatter<'_>) -> fmt::Result {
        f.debug_struct("DomainBuilder")
            .field("config", &self.config)
            .field("recorded", &self.recorded)
            .finish()
    }
}

impl<P: Payload + ?Sized> DomainBuilder<P> {
    fn new(service_id: u128) -> Self {
        let ((), ()) = (P::FITS, P::COUNTS);
        let mut config = sys::Config::default();
        // SAFETY: the pointer is of a local.
        unsafe { sys::iox2ps_config_defaults(&mut config, 0, P::SIZE, P::ALIGNMENT) };
        config.service_id = wide(service_id);
        DomainBuilder {
            config,
            recorded: None,
            messages: PhantomData,
        }
    }

    /// The node that the header of each message names. Unless it is set: 0, and the process of the publisher in a domain that processes
    /// share.
    pub fn node_id(mut self, value: impl Into<NodeId>) -> Self {
        self.config.node_id = wide(value.into().value());
        self
    }

    /// How many publishers may be open at a time.
    pub fn max_publishers(mut self, value: usize) -> Self {
        self.config.max_publishers = value;
        self
    }

    /// How many subscribers there may be at a time. A closed one counts until its last sample is
    /// dropped.
    pub fn max_subscribers(mut self, value: usize) -> Self {
        self.config.max_subscribers = value;
        self
    }

    /// How many messages of one publisher may wait for one subscriber; 0 counts as 1.
    pub fn subscriber_max_buffer_size(mut self, value: usize) -> Self {
        self.config.subscriber_max_buffer_size = value;
        self
    }

    /// How many samples of one publisher a subscriber may have.
    pub fn subscriber_max_borrowed_samples(mut self, value: usize) -> Self {
        self.config.subscriber_max_borrowed_samples = value;
        self
    }

    /// How many of its last messages a publisher keeps for subscribers that come later. These get them when they are
    /// made, where threads share the domain; else at the publisher's next send or update. Without overflow keep it below
    /// the buffer's size, or the next send may block.
    pub fn history_size(mut self, value: usize) -> Self {
        self.config.history_size = value;
        self
    }

    /// How many channels each connection has; 0 counts as 1. Each takes slots in the memory of each
    /// publisher.
    pub fn number_of_channels(mut self, value: usize) -> Self {
        self.config.number_of_channels = value;
        self
    }

    /// How many closed publishers a subscriber has room for while it has samples of them.
    pub fn subscriber_expired_connection_buffer(mut self, value: usize) -> Self {
        self.config.subscriber_expired_connection_buffer = value;
        self
    }

    /// How many loans of a publisher may be out at a time.
    pub fn publisher_max_loaned_samples(mut self, value: usize) -> Self {
        self.config.publisher_max_loaned_samples = value;
        self
    }

    /// Whether a message that finds a full buffer pushes the oldest waiting one out.
    pub fn enable_safe_overflow(mut self, value: bool) -> Self {
        self.config.enable_safe_overflow = u32::from(value);
        self
    }

    /// What a publisher does at a full buffer where there is no overflow.
    pub fn backpressure_strategy(mut self, value: BackpressureStrategy) -> Self {
        self.config.backpressure_strategy = value as u32;
        self
    }

    /// Keeps a recording of the domain's first calls: as many as give this number of commands, with
    /// that many bytes of each message. The others are 0 in it. [`Domain::recording`] gives it.
    pub fn record(mut self, commands: usize, bytes: usize) -> Self {
        self.recorded = Some(Room { commands, bytes });
        self
    }

    /// How many slots a publisher of the domain has. `None` where the number doesn't fit.
    #[must_use]
    pub fn worst_case_slots(&self) -> Option<usize> {
        let mut slots = 0;
        let loans = self.config.publisher_max_loaned_samples;
        // SAFETY: the pointers are of locals.
        match unsafe { sys::iox2ps_worst_case_slots(&self.config, loans, &mut slots) } {
            sys::OK => Some(slots),
            _ => None,
        }
    }

    /// Makes the domain.
    ///
    /// # Errors
    ///
    /// See [`DomainCreateError`].
    pub fn create(self) -> Result<Domain<P>, DomainCreateError> {
        let shared = self.shared()?;
        Ok(Domain::of(Single::new(shared)))
    }

    /// Makes the domain for several threads. Its messages may be read by many at a time, so that they
    /// have to be `Sync`.
    ///
    /// # Errors
    ///
    /// See [`DomainCreateError`].
    pub fn create_shared(self) -> Result<SharedDomain<P>, DomainCreateError>
    where
        P: Send + Sync,
    {
        self.create_with_lock()
    }

    /// The same, with a lock that is brought: see [`DomainLock`].
    ///
    /// # Errors
    ///
    /// See [`DomainCreateError`].
    pub fn create_with_lock<L: DomainLock>(self) -> Result<SharedDomain<P, L>, DomainCreateError>
    where
        P: Send + Sync,
    {
        let guarded = Guarded::new(self.shared()?);
        // One that stands in for an ordinary domain in a test of processes.
        #[cfg(feature = "processes")]
        let guarded = guarded.watched(Pace::of(&options_of(&self.config)));
        #[cfg(feature = "processes")]
        let guarded = guarded.map_err(|_| DomainCreateError::OutOfMemory)?;
        #[cfg(not(feature = "processes"))]
        let guarded = Arc::new(guarded);
        Ok(Domain::of(Part::new(guarded)))
    }

    fn shared(&self) -> Result<Shared, DomainCreateError> {
        // SAFETY: it takes no pointer.
        if unsafe { sys::iox2ps_version() } != sys::VERSION {
            return Err(DomainCreateError::OtherVersion);
        }
        Shared::new(&self.config, self.recorded).map_err(DomainCreateError::of)
    }
}

impl<T: Copy + 'static> DomainBuilder<[T]> {
    /// How many values a message may have.
    pub fn max_slice_len(mut self, value: usize) -> Self {
        self.config.payload_size = <[T]>::greatest_size(value);
        self
    }
}
