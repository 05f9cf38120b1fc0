// SPDX-License-Identifier: Apache-2.0 OR MIT
//! The settings of ports.

use crate::domain::{config_or_zeros, Domain};
use crate::errors::{PublisherCreateError, SubscriberCreateError};
use crate::payload::Payload;
use crate::publisher::{BackpressureAction, BackpressureStrategy, Publisher};
use crate::static_config::{PublisherConfig, SubscriberConfig};
use crate::subscriber::Subscriber;
use crate::sys;
use crate::threads::{Brings, Hold, OneThread, Place, Threads};
use std::fmt;

/// What a port does where memory for a connection is refused.
#[derive(Clone, Copy, Debug, PartialEq, Eq, Hash)]
#[repr(u32)]
pub enum DegradationAction {
    /// Goes on without the connection.
    Ignore = 0,
    /// Goes on without the connection, and the domain warns of it.
    Warn = 1,
    /// Lets the call fail.
    DegradeAndFail = 2,
}

/// How a publisher's memory grows where a loan doesn't fit.
#[derive(Clone, Copy, Debug, PartialEq, Eq, Hash)]
#[repr(u32)]
pub enum AllocationStrategy {
    /// It doesn't grow: the loan is refused.
    Static = 0,
    /// It grows by slots for slices as long as the longest so far.
    BestFit = 1,
    /// It grows by slots as long as the next power of two.
    PowerOfTwo = 2,
}

/// The settings of a publisher.
#[must_use = "settings make nothing until `create`"]
pub struct PortFactoryPublisher<'d, P: Payload + ?Sized, M: Threads = OneThread> {
    domain: &'d Domain<P, M>,
    options: sys::PublisherOptions,
    preallocated: Option<Box<dyn Fn(usize) -> usize>>,
}

impl<'d, P: Payload + ?Sized, M: Threads> PortFactoryPublisher<'d, P, M> {
    pub(crate) fn new(domain: &'d Domain<P, M>) -> Self {
        let mut options = sys::PublisherOptions::default();
        // SAFETY: the pointers are of locals.
        unsafe { sys::iox2ps_publisher_options_of(&config_or_zeros(&*domain.hold), &mut options) };
        PortFactoryPublisher {
            domain,
            options,
            preallocated: None,
        }
    }

    /// How many loans may be out at a time.
    pub fn max_loaned_samples(mut self, value: usize) -> Self {
        self.options.max_loaned_samples = value;
        self
    }

    /// What a publisher does at a full buffer without overflow.
    pub fn backpressure_strategy(mut self, value: BackpressureStrategy) -> Self {
        self.options.backpressure_strategy = value as u32;
        self
    }

    /// What always answers in place of the strategy.
    pub fn set_backpressure_handler(mut self, value: BackpressureAction) -> Self {
        self.options.backpressure_handler = value as u32;
        self
    }

    /// What the port does if memory for a connection is refused.
    pub fn set_degradation_handler(mut self, value: DegradationAction) -> Self {
        self.options.degradation = value as u32;
        self
    }

    /// How its memory grows where a loan doesn't fit: not at all, where nothing is set.
    pub fn allocation_strategy(mut self, value: AllocationStrategy) -> Self {
        self.options.allocation_strategy = value as u32;
        self
    }

    /// What says how many slots the publisher has. It is given the worst case, with which no loan is
    /// refused because no slot is free. The publisher gets the number that it answers, but no more than the
    /// worst case, and at least one where that isn't none.
    pub fn override_sample_preallocation(
        mut self,
        callback: impl Fn(usize) -> usize + 'static,
    ) -> Self {
        self.preallocated = Some(Box::new(callback));
        self
    }

    // 0 asks for nothing, and an answer of 0 counts as 1. Where the worst case doesn't fit, the
    // publisher is refused, and nothing is asked.
    fn asked_slots(&self) -> usize {
        let callback = match &self.preallocated {
            Some(callback) => callback,
            None => return 0,
        };
        let mut worst = 0;
        let config = config_or_zeros(&*self.domain.hold);
        let loans = self.options.max_loaned_samples;
        // SAFETY: the pointers are of locals.
        match unsafe { sys::iox2ps_worst_case_slots(&config, loans, &mut worst) } {
            sys::OK => callback(worst).max(1),
            _ => 0,
        }
    }

    /// Makes the publisher.
    ///
    /// # Errors
    ///
    /// See [`PublisherCreateError`].
    pub fn create(mut self) -> Result<Publisher<P, M>, PublisherCreateError> {
        self.options.preallocated_samples = self.asked_slots();
        // Memory that grows begins with some.
        if self.options.allocation_strategy != 0 && self.options.initial_max_slice_len == 0 {
            self.options.initial_max_slice_len = P::SIZE.max(P::ALIGNMENT);
        }
        let mut port = sys::Publisher::default();
        let hold = &self.domain.hold;
        // SAFETY: see `Shared::at`.
        let code = hold.call(Brings::MESSAGE, |shared| unsafe {
            let code = sys::iox2ps_publisher_create_with(shared.at(), &self.options, &mut port);
            if code == sys::OK && M::Place::IS_SHARED {
                shared.keep_publisher(&port);
            }
            code
        });
        match code {
            sys::OK => Ok(Publisher::new(
                hold.of_port(),
                port,
                PublisherConfig::of(self.options),
            )),
            _ => Err(PublisherCreateError::of(code)),
        }
    }
}

impl<T: Copy + 'static, M: Threads> PortFactoryPublisher<'_, [T], M> {
    /// How many values a message may have, as long as memory isn't to grow.
    pub fn initial_max_slice_len(mut self, value: usize) -> Self {
        self.options.initial_max_slice_len = <[T]>::greatest_size(value);
        self
    }
}

/// The settings of a subscriber.
#[must_use = "settings make nothing until `create`"]
pub struct PortFactorySubscriber<'d, P: Payload + ?Sized, M: Threads = OneThread> {
    domain: &'d Domain<P, M>,
    options: sys::SubscriberOptions,
}

impl<'d, P: Payload + ?Sized, M: Threads> PortFactorySubscriber<'d, P, M> {
    pub(crate) fn new(domain: &'d Domain<P, M>) -> Self {
        let mut options = sys::SubscriberOptions::default();
        // SAFETY: the pointers are of locals.
        unsafe { sys::iox2ps_subscriber_options_of(&config_or_zeros(&*domain.hold), &mut options) };
        PortFactorySubscriber { domain, options }
    }

    /// How many messages of one publisher may wait; 0 counts as 1.
    pub fn buffer_size(mut self, value: usize) -> Self {
        self.options.buffer_size = value;
        self
    }

    /// What the port does if memory for a connection is refused.
    pub fn set_degradation_handler(mut self, value: DegradationAction) -> Self {
        self.options.degradation = value as u32;
        self
    }

    /// Makes the subscriber. Where threads share the domain, its open publishers connect to it at once, so that it gets their
    /// histories; one whose send is blocked, or whose update is refused, at its next send or update.
    ///
    /// # Errors
    ///
    /// See [`SubscriberCreateError`].
    pub fn create(self) -> Result<Subscriber<P, M>, SubscriberCreateError> {
        let mut port = sys::Subscriber::default();
        let hold = &self.domain.hold;
        // SAFETY: see `Shared::at`.
        let code = hold.call(Brings::SEND, |shared| unsafe {
            let code = sys::iox2ps_subscriber_create_with(shared.at(), &self.options, &mut port);
            if code == sys::OK && M::Place::IS_SHARED {
                shared.update_publishers();
            }
            code
        });
        match code {
            sys::OK => {
                let buffer_size = port.buffer_size; // 0 counted as 1
                let config = SubscriberConfig::of(sys::SubscriberOptions {
                    buffer_size,
                    ..self.options
                });
                Ok(Subscriber::new(hold.of_port(), port, config))
            }
            _ => Err(SubscriberCreateError::of(code)),
        }
    }
}

impl<P: Payload + ?Sized, M: Threads> fmt::Debug for PortFactoryPublisher<'_, P, M> {
    fn fmt(&self, f: &mut fmt::Formatter<'_>) -> fmt::Result {
        f.debug_struct("PortFactoryPublisher")
            .field("options", &self.options)
            .finish_non_exhaustive()
    }
}

impl<P: Payload + ?Sized, M: Threads> fmt::Debug for PortFactorySubscriber<'_, P, M> {
    fn fmt(&self, f: &mut fmt::Formatter<'_>) -> fmt::Result {
        f.debug_struct("PortFactorySubscriber")
            .field("options", &self.options)
            .finish_non_exhaustive()
    }
}
