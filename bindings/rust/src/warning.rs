// SPDX-License-Identifier: Apache-2.0 OR MIT
//! What a domain did or left undone without failing a call.

use crate::errors::{is_after_fork, text, unexpected, ConnectionFailure};
use crate::ids::{UniquePublisherId, UniqueSubscriberId};
use crate::sys::{self, Wide};
use crate::threads::{Brings, Place};
use std::fmt;

/// What a warning is of.
#[non_exhaustive]
#[derive(Clone, Copy, Debug, PartialEq, Eq, Hash)]
pub enum WarningKind {
    /// A subscriber was made in a domain whose room for closed publishers is below the number of
    /// samples that it may borrow, which is taken in its place.
    ExpiredBufferRaised,
    /// A publisher was made, and its first update of connections failed.
    PublisherPartlyConnected,
    /// A subscriber was made, and its first update of connections failed.
    SubscriberPartlyConnected,
    /// Memory for a connection was refused.
    ConnectionNotMade,
    /// Messages of a closed publisher were lost before they were received, since there was no room
    /// to keep its connection.
    ExpiredDataDiscarded,
}

/// Something that a domain did or left undone without failing the call.
///
/// Fields may come, so that a pattern says `..`:
///
/// ```compile_fail
/// fn failed(warning: iox2_pubsub::Warning) -> bool {
///     let iox2_pubsub::Warning { kind: _, publisher: _, subscriber: _, failure } = warning;
///     failure.is_some()
/// }
/// ```
#[non_exhaustive]
#[derive(Clone, Copy, Debug, PartialEq, Eq, Hash)]
pub struct Warning {
    /// What it is of.
    pub kind: WarningKind,
    /// The id of the publisher that it names.
    pub publisher: Option<UniquePublisherId>,
    /// The id of the subscriber that it names.
    pub subscriber: Option<UniqueSubscriberId>,
    /// How the update of connections failed.
    pub failure: Option<ConnectionFailure>,
}

impl Warning {
    // `None` past the last one.
    pub(crate) fn read(place: &impl Place, index: usize) -> Option<Warning> {
        let mut warning = sys::Warning::default();
        // SAFETY: see `Shared::at`.
        let code = place.call(Brings::NOTHING, |shared| unsafe {
            sys::iox2ps_domain_warning(shared.at(), index, &mut warning)
        });
        match code {
            sys::OK => {}
            _ if is_after_fork(code) => unexpected(code),
            _ => return None,
        }
        let named = |id| Some(id).filter(|id| *id != Wide::default());
        Some(Warning {
            kind: WarningKind::of(warning.kind)?,
            publisher: named(warning.publisher).map(UniquePublisherId::of),
            subscriber: named(warning.subscriber).map(UniqueSubscriberId::of),
            failure: Some(warning.failure)
                .filter(|code| *code != 0)
                .map(ConnectionFailure::of),
        })
    }
}

impl WarningKind {
    fn of(kind: u32) -> Option<WarningKind> {
        Some(match kind {
            sys::WARNING_EXPIRED_BUFFER_RAISED => WarningKind::ExpiredBufferRaised,
            sys::WARNING_PUBLISHER_PARTLY_CONNECTED => WarningKind::PublisherPartlyConnected,
            sys::WARNING_SUBSCRIBER_PARTLY_CONNECTED => WarningKind::SubscriberPartlyConnected,
            sys::WARNING_CONNECTION_NOT_MADE => WarningKind::ConnectionNotMade,
            sys::WARNING_EXPIRED_DATA_DISCARDED => WarningKind::ExpiredDataDiscarded,
            _ => return None,
        })
    }

    fn code(self) -> u32 {
        match self {
            WarningKind::ExpiredBufferRaised => sys::WARNING_EXPIRED_BUFFER_RAISED,
            WarningKind::PublisherPartlyConnected => sys::WARNING_PUBLISHER_PARTLY_CONNECTED,
            WarningKind::SubscriberPartlyConnected => sys::WARNING_SUBSCRIBER_PARTLY_CONNECTED,
            WarningKind::ConnectionNotMade => sys::WARNING_CONNECTION_NOT_MADE,
            WarningKind::ExpiredDataDiscarded => sys::WARNING_EXPIRED_DATA_DISCARDED,
        }
    }
}

impl fmt::Display for WarningKind {
    fn fmt(&self, f: &mut fmt::Formatter<'_>) -> fmt::Result {
        f.write_str(text(self.code()))
    }
}
