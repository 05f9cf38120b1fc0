// SPDX-License-Identifier: Apache-2.0 OR MIT
//! Which process, port, channel, connection or state is meant. Each is a type of its own, so that none is taken for another.

use crate::sys::{self, Wide};
use std::fmt;

macro_rules! names {
    ($($(#[$meta:meta])* $name:ident of $number:ty, $made:ident;)*) => { $(
        $(#[$meta])*
        #[derive(Clone, Copy, Debug, PartialEq, Eq, PartialOrd, Ord, Hash)]
        pub struct $name($number);

        impl $name {
            /// The one of this number, which [`value`](Self::value) gives, and which C and C++ know it by.
            #[must_use]
            pub const fn $made(value: $number) -> Self {
                $name(value)
            }

            /// Its number.
            #[must_use]
            pub const fn value(self) -> $number {
                self.0
            }
        }

        impl fmt::Display for $name {
            fn fmt(&self, f: &mut fmt::Formatter<'_>) -> fmt::Result {
                self.0.fmt(f)
            }
        }
    )* };
}

names! {
    /// The node that the settings of a domain name, 0 unless they do; or a process that shares a domain with others, which are named by
    /// themselves. Headers of messages have it.
    NodeId of u128, from_value;

    /// The id of a publisher, which no other port of its domain has.
    ///
    /// ```
    /// use std::collections::BTreeMap;
    ///
    /// # fn main() -> Result<(), Box<dyn std::error::Error>> {
    /// let domain = iox2_pubsub::Domain::<u64>::builder(7).create()?;
    /// let (publisher, subscriber) = (domain.publisher()?, domain.subscriber()?);
    /// publisher.send_copy(1)?.delivered();
    /// let mut counts = BTreeMap::new();
    /// for sample in &subscriber {
    ///     *counts.entry(sample?.origin()).or_insert(0) += 1;
    /// }
    /// assert_eq!(counts[&publisher.id()], 1);
    /// # Ok(())
    /// # }
    /// ```
    UniquePublisherId of u128, from_value;

    /// The id of a subscriber, which no other port of its domain has. That of a publisher isn't one:
    ///
    /// ```compile_fail
    /// let domain = iox2_pubsub::Domain::<u64>::builder(7).create().unwrap();
    /// let publisher = domain.publisher().unwrap();
    /// publisher.get_connection_id_of(publisher.id());
    /// ```
    UniqueSubscriberId of u128, from_value;

    /// A connection of a publisher, as [`get_connection_id_of`](crate::Publisher::get_connection_id_of) says it.
    ConnectionId of usize, new;

    /// A channel of a connection. The default is channel 0, to which sends go and which alone is received from.
    ///
    /// It can't be exchanged with the connection, nor with a state:
    ///
    /// ```compile_fail
    /// use iox2_pubsub::{ChannelId, ConnectionId, Domain, CHANNEL_STATE_OPEN};
    ///
    /// let domain = Domain::<u64>::builder(7).create().unwrap();
    /// let publisher = domain.publisher().unwrap();
    /// let (channel, connection) = (ChannelId::default(), ConnectionId::new(0));
    /// publisher.close_channel(connection, channel, CHANNEL_STATE_OPEN).unwrap();
    /// ```
    #[derive(Default)]
    ChannelId of usize, new;

    /// The state of a channel. Each but [`CHANNEL_STATE_CLOSED`] is open, and but for [`CHANNEL_STATE_OPEN`] the program
    /// says what it means.
    ChannelState of u64, new;
}

#[cfg(feature = "processes")]
names! {
    /// What happened, as the program means it: a number that a [`Notifier`](crate::Notifier) tells.
    #[derive(Default)]
    EventId of usize, new;
}

#[cfg(feature = "processes")]
impl EventId {
    /// The largest of them.
    pub const MAX_VALUE: usize = sys::processes::EVENT_ID_MAX_VALUE;
}

/// The state of a new channel.
pub const CHANNEL_STATE_OPEN: ChannelState = ChannelState::new(sys::CHANNEL_STATE_OPEN);

/// The state of a channel that takes no message.
pub const CHANNEL_STATE_CLOSED: ChannelState = ChannelState::new(sys::CHANNEL_STATE_CLOSED);

impl From<u128> for NodeId {
    fn from(value: u128) -> NodeId {
        NodeId(value)
    }
}

#[cfg(feature = "processes")]
impl NodeId {
    #[inline]
    pub(crate) fn of(id: Wide) -> Self {
        NodeId(number(id))
    }
}

impl UniquePublisherId {
    #[inline]
    pub(crate) fn of(id: Wide) -> Self {
        UniquePublisherId(number(id))
    }
}

impl UniqueSubscriberId {
    #[inline]
    pub(crate) fn of(id: Wide) -> Self {
        UniqueSubscriberId(number(id))
    }

    #[inline]
    pub(crate) fn wide(self) -> Wide {
        wide(self.0)
    }
}

#[inline]
pub(crate) fn number(wide: Wide) -> u128 {
    u128::from(wide.high) << 64 | u128::from(wide.low)
}

#[inline]
pub(crate) fn wide(number: u128) -> Wide {
    Wide {
        low: number as u64,
        high: (number >> 64) as u64,
    }
}
