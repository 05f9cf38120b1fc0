// SPDX-License-Identifier: Apache-2.0 OR MIT
//! What tells the listeners of a domain that something happened.

use crate::domain::Domain;
use crate::errors::{NotifierCreateError, NotifierNotifyError};
use crate::ids::EventId;
use crate::payload::Payload;
use crate::sys;
use crate::sys::processes as c;
use crate::threads::{Brings, Hold, OneThread, Place, Threads};
use std::fmt;

/// Tells all [`Listener`](crate::Listener)s of a domain that processes share, in whichever process, that something happened: by a number,
/// the [`EventId`]. The names are iceoryx2's.
///
/// ```
/// use iox2_pubsub::{Domain, EventId};
///
/// # fn main() -> Result<(), Box<dyn std::error::Error>> {
/// # let name = format!("My/Events.{}", std::process::id());
/// const DOOR: EventId = EventId::new(3);
///
/// // in one process
/// let domain = Domain::<f64>::builder(7).name(&name).open_or_create_shared()?;
/// let notifier = domain.notifier_builder().default_event_id(DOOR).create()?;
/// // in another, where it may be that of a WaitSet
/// let listener = domain.listener()?;
///
/// assert_eq!(notifier.notify()?, 1);
/// assert_eq!(notifier.notify_with_custom_event_id(EventId::new(5))?, 1);
/// let mut ids = Vec::new();
/// listener.blocking_wait_all(|id| ids.push(id))?;
/// assert_eq!(ids, [DOOR, EventId::new(5)]);
/// # Ok(())
/// # }
/// ```
///
/// It needs no room in the domain, and nothing is given back when it is dropped.
pub struct Notifier<M: Threads = OneThread> {
    hold: M::Hold,
    port: c::Notifier,
}

impl<M: Threads> Notifier<M> {
    /// Notifies by its default id. Returns how many listeners there are; those that wait are woken.
    ///
    /// # Errors
    ///
    /// See [`NotifierNotifyError`].
    pub fn notify(&self) -> Result<usize, NotifierNotifyError> {
        self.notify_by(self.port.default_event_id)
    }

    /// The same by this id, of at most [`EventId::MAX_VALUE`].
    ///
    /// # Errors
    ///
    /// See [`NotifierNotifyError`]. Then nobody is notified; where the domain can only be left, that isn't known.
    pub fn notify_with_custom_event_id(&self, id: EventId) -> Result<usize, NotifierNotifyError> {
        self.notify_by(id.value())
    }

    fn notify_by(&self, id: usize) -> Result<usize, NotifierNotifyError> {
        let mut listeners = 0;
        // SAFETY: see `Shared::at`.
        let code = self.hold.call(Brings::EVENT, |shared| unsafe {
            c::iox2ps_notifier_notify_with_custom_event_id(
                shared.at(),
                &self.port,
                id,
                &mut listeners,
            )
        });
        match code {
            sys::OK => Ok(listeners),
            code => Err(NotifierNotifyError::of(code)),
        }
    }
}

impl<M: Threads> fmt::Debug for Notifier<M> {
    fn fmt(&self, f: &mut fmt::Formatter<'_>) -> fmt::Result {
        f.debug_struct("Notifier")
            .field("default_event_id", &self.port.default_event_id)
            .finish_non_exhaustive()
    }
}

/// The settings of a [`Notifier`].
#[must_use = "settings make nothing until `create`"]
pub struct PortFactoryNotifier<'d, P: Payload + ?Sized, M: Threads = OneThread> {
    domain: &'d Domain<P, M>,
    default_event_id: EventId,
}

impl<P: Payload + ?Sized, M: Threads> PortFactoryNotifier<'_, P, M> {
    /// By which id [`notify`](Notifier::notify) does it: 0 unless it is set.
    pub fn default_event_id(mut self, value: EventId) -> Self {
        self.default_event_id = value;
        self
    }

    /// Makes it.
    ///
    /// # Errors
    ///
    /// See [`NotifierCreateError`].
    pub fn create(self) -> Result<Notifier<M>, NotifierCreateError> {
        let (hold, mut port) = (self.domain.hold.of_port(), c::Notifier::default());
        let id = self.default_event_id.value();
        // SAFETY: see `Shared::at`.
        let code = hold.call(Brings::NOTHING, |shared| unsafe {
            c::iox2ps_notifier_create(shared.at(), id, &mut port)
        });
        match code {
            sys::OK => Ok(Notifier { hold, port }),
            code => Err(NotifierCreateError::of(code)),
        }
    }
}

impl<P: Payload + ?Sized, M: Threads> fmt::Debug for PortFactoryNotifier<'_, P, M> {
    fn fmt(&self, f: &mut fmt::Formatter<'_>) -> fmt::Result {
        f.debug_struct("PortFactoryNotifier")
            .field("default_event_id", &self.default_event_id)
            .finish_non_exhaustive()
    }
}

/// # Events
///
/// Of a domain that processes share, beside its messages.
impl<P: Payload + ?Sized, M: Threads> Domain<P, M> {
    /// Makes a notifier, whose default id is 0.
    ///
    /// # Errors
    ///
    /// See [`NotifierCreateError`].
    pub fn notifier(&self) -> Result<Notifier<M>, NotifierCreateError> {
        self.notifier_builder().create()
    }

    /// The settings of a notifier.
    pub fn notifier_builder(&self) -> PortFactoryNotifier<'_, P, M> {
        PortFactoryNotifier {
            domain: self,
            default_event_id: EventId::default(),
        }
    }
}
