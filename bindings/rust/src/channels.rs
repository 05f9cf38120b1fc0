// SPDX-License-Identifier: Apache-2.0 OR MIT
//! What ports ask about the channels of their connections, and how they change them.

use crate::errors::{unexpected, ChannelError};
use crate::ids::{ChannelId, ChannelState, ConnectionId, UniqueSubscriberId};
use crate::payload::Payload;
use crate::publisher::Publisher;
use crate::shared::Shared;
use crate::subscriber::Subscriber;
use crate::sys;
use crate::threads::{Brings, Place, Threads};

// What a call answers by 1 or 0, which brings nothing to anybody.
fn told(
    place: &impl Place,
    question: impl FnOnce(&mut Shared, *mut u32) -> u32,
) -> Result<bool, ChannelError> {
    let mut answer = 0;
    let code = place.call(Brings::NOTHING, |shared| question(shared, &mut answer));
    match code {
        sys::OK => Ok(answer != 0),
        code => Err(ChannelError::of(code)),
    }
}

fn done(code: u32) -> Result<(), ChannelError> {
    match code {
        sys::OK => Ok(()),
        code => Err(ChannelError::of(code)),
    }
}

/// # Channels
///
/// A publisher and a subscriber that are connected have as many channels as their domain says. A send goes to
/// channel 0, and one to a single connection to the channel that it names; only what is in channel 0 is
/// received. A channel is in a [`ChannelState`]. A closed channel takes no message and no history: a
/// send goes past it and doesn't count it, and what waits in channel 0 is received all the same. Each other
/// state is open, and the program says what it means.
impl<P: Payload + ?Sized, M: Threads> Publisher<P, M> {
    /// The connection to the subscriber with this id, where there is one, for the calls below. An update makes
    /// connections, and each send makes one first.
    ///
    /// ```
    /// use iox2_pubsub::{ChannelId, Domain, CHANNEL_STATE_CLOSED, CHANNEL_STATE_OPEN};
    ///
    /// # fn main() -> Result<(), Box<dyn std::error::Error>> {
    /// let domain = Domain::<u64>::builder(7).create()?;
    /// let publisher = domain.publisher()?;
    /// let subscriber = domain.subscriber()?;
    /// assert_eq!(publisher.get_connection_id_of(subscriber.id()), None);
    ///
    /// publisher.update_connections()?;
    /// let connection = publisher.get_connection_id_of(subscriber.id()).unwrap();
    /// let channel = ChannelId::default();
    /// assert!(publisher.has_channel_state(channel, connection, CHANNEL_STATE_OPEN)?);
    /// assert!(!publisher.has_channel_state(channel, connection, CHANNEL_STATE_CLOSED)?);
    /// # Ok(())
    /// # }
    /// ```
    #[must_use]
    pub fn get_connection_id_of(
        &self,
        receiver_port_id: UniqueSubscriberId,
    ) -> Option<ConnectionId> {
        let (receiver, mut connection) = (receiver_port_id.wide(), 0);
        // SAFETY: see `Shared::at`.
        let code = self.hold.call(Brings::NOTHING, |shared| unsafe {
            let (at, out) = (shared.at(), &mut connection);
            sys::iox2ps_publisher_get_connection_id_of(at, &self.port, &receiver, out)
        });
        match code {
            sys::OK => Some(ConnectionId::new(connection)),
            sys::NO_CONNECTION => None,
            code => unexpected(code),
        }
    }

    /// Whether a channel is in this state at one of the connections: `false` if there is no such
    /// connection.
    ///
    /// # Errors
    ///
    /// [`ChannelError::NoSuchChannel`] for a number that isn't below the domain's number of channels.
    pub fn has_channel_state(
        &self,
        channel: ChannelId,
        connection: ConnectionId,
        state: ChannelState,
    ) -> Result<bool, ChannelError> {
        // SAFETY: see `Shared::at`.
        told(&*self.hold, |shared, answer| unsafe {
            let (at, port) = (shared.at(), &self.port);
            let (channel, connection, state) = (channel.value(), connection.value(), state.value());
            sys::iox2ps_publisher_has_channel_state(at, port, channel, connection, state, answer)
        })
    }

    /// Whether a channel is in this state at one of the connections, and a disconnect was hinted there
    /// since it came into that. None was where there is no such connection.
    ///
    /// # Errors
    ///
    /// [`ChannelError::NoSuchChannel`] for a number that isn't below the domain's number of channels.
    pub fn has_disconnect_hint(
        &self,
        channel: ChannelId,
        connection: ConnectionId,
        state: ChannelState,
    ) -> Result<bool, ChannelError> {
        // SAFETY: see `Shared::at`.
        told(&*self.hold, |shared, answer| unsafe {
            let (at, port) = (shared.at(), &self.port);
            let (channel, connection, state) = (channel.value(), connection.value(), state.value());
            sys::iox2ps_publisher_has_disconnect_hint(at, port, channel, connection, state, answer)
        })
    }

    /// Closes a channel at one of the connections, if it is in the state `expected` there. A send that waits
    /// for it goes past it when it is tried again. Where there is no such connection nothing is done.
    ///
    /// ```
    /// use iox2_pubsub::{ChannelId, Domain, CHANNEL_STATE_OPEN};
    ///
    /// # fn main() -> Result<(), Box<dyn std::error::Error>> {
    /// let domain = Domain::<u64>::builder(7).create()?;
    /// let subscriber = domain.subscriber()?;
    /// let publisher = domain.publisher()?;
    /// let connection = publisher.get_connection_id_of(subscriber.id()).unwrap();
    /// publisher.close_channel(ChannelId::default(), connection, CHANNEL_STATE_OPEN)?;
    /// assert_eq!(publisher.send_copy(1)?.delivered(), Some(0));
    /// # drop(subscriber);
    /// # Ok(())
    /// # }
    /// ```
    ///
    /// # Errors
    ///
    /// [`ChannelError::NoSuchChannel`] for a number that isn't below the domain's number of channels.
    pub fn close_channel(
        &self,
        channel: ChannelId,
        connection: ConnectionId,
        expected: ChannelState,
    ) -> Result<(), ChannelError> {
        // SAFETY: see `Shared::at`.
        done(self.hold.call(Brings::ROOM, |shared| unsafe {
            let (at, port) = (shared.at(), &self.port);
            let (channel, connection) = (channel.value(), connection.value());
            sys::iox2ps_publisher_close_channel(at, port, channel, connection, expected.value())
        }))
    }
}

impl<P: Payload + ?Sized, M: Threads> Subscriber<P, M> {
    /// Whether a channel is in this state at some connection: `false` if the subscriber has none.
    ///
    /// ```
    /// use iox2_pubsub::{ChannelId, Domain, CHANNEL_STATE_OPEN};
    ///
    /// # fn main() -> Result<(), Box<dyn std::error::Error>> {
    /// let domain = Domain::<u64>::builder(7).create()?;
    /// let subscriber = domain.subscriber()?;
    /// let channel = ChannelId::default();
    /// assert!(!subscriber.at_least_one_channel_has_state(channel, CHANNEL_STATE_OPEN)?);
    ///
    /// let publisher = domain.publisher()?;
    /// subscriber.update_connections()?;
    /// assert!(subscriber.at_least_one_channel_has_state(channel, CHANNEL_STATE_OPEN)?);
    /// # drop(publisher);
    /// # Ok(())
    /// # }
    /// ```
    ///
    /// # Errors
    ///
    /// [`ChannelError::NoSuchChannel`] for a number that isn't below the domain's number of channels.
    pub fn at_least_one_channel_has_state(
        &self,
        channel: ChannelId,
        state: ChannelState,
    ) -> Result<bool, ChannelError> {
        // SAFETY: see `Shared::at`.
        told(&*self.hold, |shared, answer| unsafe {
            let (at, port) = (shared.at(), &self.port);
            let (channel, state) = (channel.value(), state.value());
            sys::iox2ps_subscriber_at_least_one_channel_has_state(at, port, channel, state, answer)
        })
    }

    /// Closes a channel at each connection where it is in the state `expected`: it takes no message there,
    /// and what waits is received all the same.
    ///
    /// ```
    /// use iox2_pubsub::{ChannelId, ChannelState, Domain, CHANNEL_STATE_OPEN};
    ///
    /// # fn main() -> Result<(), Box<dyn std::error::Error>> {
    /// let domain = Domain::<u64>::builder(7).create()?;
    /// let publisher = domain.publisher()?;
    /// let subscriber = domain.subscriber()?;
    /// let channel = ChannelId::default();
    /// subscriber.close_channel(channel, CHANNEL_STATE_OPEN)?;
    /// assert_eq!(publisher.send_copy(1)?.delivered(), Some(0));
    ///
    /// const READY: ChannelState = ChannelState::new(7); // the program's own, and open
    /// assert!(subscriber.set_channel_state(channel, READY)?);
    /// assert_eq!(publisher.send_copy(2)?.delivered(), Some(1));
    /// assert_eq!(subscriber.receive_copy()?, Some(2));
    /// # Ok(())
    /// # }
    /// ```
    ///
    /// # Errors
    ///
    /// [`ChannelError::NoSuchChannel`] for a number that isn't below the domain's number of channels.
    pub fn close_channel(
        &self,
        channel: ChannelId,
        expected: ChannelState,
    ) -> Result<(), ChannelError> {
        // SAFETY: see `Shared::at`. A send may wait for it.
        done(self.hold.call(Brings::ROOM, |shared| unsafe {
            let (channel, expected) = (channel.value(), expected.value());
            sys::iox2ps_subscriber_close_channel(shared.at(), &self.port, channel, expected)
        }))
    }

    /// Brings a channel into this state at each connection where it is closed, so that it takes messages
    /// again. Whether it was closed at all of them, and so `true` where there is none. Where it isn't closed
    /// it stays as it is. [`close_channel`](Subscriber::close_channel) has an example.
    ///
    /// # Errors
    ///
    /// [`ChannelError::NoSuchChannel`] for a number that isn't below the domain's number of channels.
    pub fn set_channel_state(
        &self,
        channel: ChannelId,
        state: ChannelState,
    ) -> Result<bool, ChannelError> {
        // SAFETY: see `Shared::at`.
        told(&*self.hold, |shared, answer| unsafe {
            let (at, port) = (shared.at(), &self.port);
            let (channel, state) = (channel.value(), state.value());
            sys::iox2ps_subscriber_set_channel_state(at, port, channel, state, answer)
        })
    }

    /// Hints at each connection where a channel is in the state `expected` that the subscriber is about to
    /// disconnect. The hint goes with the next change of the state.
    ///
    /// ```
    /// use iox2_pubsub::{ChannelId, Domain, CHANNEL_STATE_OPEN};
    ///
    /// # fn main() -> Result<(), Box<dyn std::error::Error>> {
    /// let domain = Domain::<u64>::builder(7).create()?;
    /// let publisher = domain.publisher()?;
    /// let subscriber = domain.subscriber()?;
    /// publisher.update_connections()?;
    /// let channel = ChannelId::default();
    /// subscriber.set_disconnect_hint(channel, CHANNEL_STATE_OPEN)?;
    /// let connection = publisher.get_connection_id_of(subscriber.id()).unwrap();
    /// assert!(publisher.has_disconnect_hint(channel, connection, CHANNEL_STATE_OPEN)?);
    /// # Ok(())
    /// # }
    /// ```
    ///
    /// # Errors
    ///
    /// [`ChannelError::NoSuchChannel`] for a number that isn't below the domain's number of channels.
    pub fn set_disconnect_hint(
        &self,
        channel: ChannelId,
        expected: ChannelState,
    ) -> Result<(), ChannelError> {
        // SAFETY: see `Shared::at`.
        done(self.hold.call(Brings::NOTHING, |shared| unsafe {
            let (channel, expected) = (channel.value(), expected.value());
            sys::iox2ps_subscriber_set_disconnect_hint(shared.at(), &self.port, channel, expected)
        }))
    }
}
