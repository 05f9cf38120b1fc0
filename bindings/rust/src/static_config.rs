// SPDX-License-Identifier: Apache-2.0 OR MIT
//! Settings that are read back: what a domain, a publisher and a subscriber were made with.

use crate::ids::{number, NodeId};
use crate::payload::Payload;
use crate::port_factory::{AllocationStrategy, DegradationAction};
use crate::publisher::{BackpressureAction, BackpressureStrategy};
use crate::sys;
use std::fmt;
use std::marker::PhantomData;

/// The settings of a domain, read from the domain itself, which is proved to return those that it was made with.
///
/// ```
/// # fn main() -> Result<(), Box<dyn std::error::Error>> {
/// let domain = iox2_pubsub::Domain::<u64>::builder(7).history_size(3).create()?;
/// assert_eq!(domain.static_config().history_size(), 3);
/// # Ok(())
/// # }
/// ```
#[derive(Clone, Copy, Debug, PartialEq, Eq)]
pub struct StaticConfig {
    read: sys::Config,
}

impl StaticConfig {
    pub(crate) fn of(read: sys::Config) -> Self {
        StaticConfig { read }
    }

    /// The number that names the domain.
    #[must_use]
    pub fn service_id(&self) -> u128 {
        number(self.read.service_id)
    }

    /// The node that the header of each message names.
    #[must_use]
    pub fn node_id(&self) -> NodeId {
        NodeId::from_value(number(self.read.node_id))
    }

    /// How many bytes a message of a publisher may have that says nothing else.
    #[must_use]
    pub fn payload_size(&self) -> usize {
        self.read.payload_size
    }

    /// To how many bytes each message is aligned.
    #[must_use]
    pub fn payload_alignment(&self) -> usize {
        self.read.payload_alignment
    }

    /// How many publishers may be open at a time.
    #[must_use]
    pub fn max_publishers(&self) -> usize {
        self.read.max_publishers
    }

    /// How many subscribers there may be at a time.
    #[must_use]
    pub fn max_subscribers(&self) -> usize {
        self.read.max_subscribers
    }

    /// How many messages of one publisher may wait for a subscriber.
    #[must_use]
    pub fn subscriber_max_buffer_size(&self) -> usize {
        self.read.subscriber_max_buffer_size
    }

    /// How many samples of one publisher a subscriber may hold.
    #[must_use]
    pub fn subscriber_max_borrowed_samples(&self) -> usize {
        self.read.subscriber_max_borrowed_samples
    }

    /// How many of its last messages a publisher keeps for later subscribers.
    #[must_use]
    pub fn history_size(&self) -> usize {
        self.read.history_size
    }

    /// How many channels each connection has.
    #[must_use]
    pub fn number_of_channels(&self) -> usize {
        self.read.number_of_channels
    }

    /// How many connections to closed publishers a subscriber keeps.
    #[must_use]
    pub fn subscriber_expired_connection_buffer(&self) -> usize {
        self.read.subscriber_expired_connection_buffer
    }

    /// How many loans of a publisher may be out at a time that says nothing else.
    #[must_use]
    pub fn publisher_max_loaned_samples(&self) -> usize {
        self.read.publisher_max_loaned_samples
    }

    /// Whether a full buffer loses its oldest message.
    #[must_use]
    pub fn enable_safe_overflow(&self) -> bool {
        self.read.enable_safe_overflow != 0
    }

    /// What a publisher does at a full buffer, where there is no overflow, and it says nothing else.
    #[must_use]
    pub fn backpressure_strategy(&self) -> BackpressureStrategy {
        strategy_of(self.read.backpressure_strategy)
    }
}

/// What a publisher was made with: a copy, which its handle keeps.
pub struct PublisherConfig<P: Payload + ?Sized> {
    read: sys::PublisherOptions,
    messages: PhantomData<P>,
}

impl<P: Payload + ?Sized> PublisherConfig<P> {
    pub(crate) fn of(read: sys::PublisherOptions) -> Self {
        PublisherConfig {
            read,
            messages: PhantomData,
        }
    }

    /// How many loans may be out at a time.
    #[must_use]
    pub fn max_loaned_samples(&self) -> usize {
        self.read.max_loaned_samples
    }

    /// How many values a message may have, as long as memory isn't to grow.
    #[must_use]
    pub fn initial_max_slice_len(&self) -> usize {
        self.read.initial_max_slice_len / P::SIZE.max(1)
    }

    /// How many slots it was to have, or `None` for as many as the worst case needs.
    #[must_use]
    pub fn preallocated_samples(&self) -> Option<usize> {
        Some(self.read.preallocated_samples).filter(|slots| *slots > 0)
    }

    /// What it does at a full buffer, where there is no overflow.
    #[must_use]
    pub fn backpressure_strategy(&self) -> BackpressureStrategy {
        strategy_of(self.read.backpressure_strategy)
    }

    /// What always answers in place of the strategy, if something does.
    #[must_use]
    pub fn backpressure_handler(&self) -> Option<BackpressureAction> {
        match self.read.backpressure_handler {
            1 => Some(BackpressureAction::FollowBackpressureyStrategy),
            2 => Some(BackpressureAction::Retry),
            3 => Some(BackpressureAction::DiscardData),
            4 => Some(BackpressureAction::DiscardDataAndFail),
            _ => None,
        }
    }

    /// What it does where memory for a connection is refused.
    #[must_use]
    pub fn degradation_handler(&self) -> DegradationAction {
        degradation_of(self.read.degradation)
    }

    /// How its memory grows where a loan doesn't fit.
    #[must_use]
    pub fn allocation_strategy(&self) -> AllocationStrategy {
        match self.read.allocation_strategy {
            1 => AllocationStrategy::BestFit,
            2 => AllocationStrategy::PowerOfTwo,
            _ => AllocationStrategy::Static,
        }
    }
}

// Written out, since derived ones would ask the same of `P`.
impl<P: Payload + ?Sized> Clone for PublisherConfig<P> {
    fn clone(&self) -> Self {
        *self
    }
}

impl<P: Payload + ?Sized> Copy for PublisherConfig<P> {}

impl<P: Payload + ?Sized> PartialEq for PublisherConfig<P> {
    fn eq(&self, other: &Self) -> bool {
        self.read == other.read
    }
}

impl<P: Payload + ?Sized> Eq for PublisherConfig<P> {}

impl<P: Payload + ?Sized> fmt::Debug for PublisherConfig<P> {
    fn fmt(&self, f: &mut fmt::Formatter<'_>) -> fmt::Result {
        f.debug_tuple("PublisherConfig").field(&self.read).finish()
    }
}

/// What a subscriber was made with: a copy, which its handle keeps.
#[derive(Clone, Copy, Debug, PartialEq, Eq)]
pub struct SubscriberConfig {
    read: sys::SubscriberOptions,
}

impl SubscriberConfig {
    pub(crate) fn of(read: sys::SubscriberOptions) -> Self {
        SubscriberConfig { read }
    }

    /// How many messages of one publisher may wait.
    #[must_use]
    pub fn buffer_size(&self) -> usize {
        self.read.buffer_size
    }

    /// What it does where memory for a connection is refused.
    #[must_use]
    pub fn degradation_handler(&self) -> DegradationAction {
        degradation_of(self.read.degradation)
    }
}

pub(crate) fn strategy_of(number: u32) -> BackpressureStrategy {
    match number {
        0 => BackpressureStrategy::RetryUntilDelivered,
        _ => BackpressureStrategy::DiscardData,
    }
}

fn degradation_of(number: u32) -> DegradationAction {
    match number {
        0 => DegradationAction::Ignore,
        2 => DegradationAction::DegradeAndFail,
        _ => DegradationAction::Warn,
    }
}
