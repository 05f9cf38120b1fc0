// SPDX-License-Identifier: Apache-2.0 OR MIT
//! Who hears of events.

use crate::domain::{expect_here, Domain};
use crate::errors::{ListenerCreateError, ListenerWaitError};
use crate::ids::EventId;
use crate::payload::Payload;
use crate::shared::Shared;
use crate::sys;
use crate::sys::processes as c;
use crate::threads::{Brings, Hold, OneThread, Place, Threads, Wait, Waits};
use crate::timeout::after;
use std::fmt;
use std::time::Duration;

/// Hears of what each [`Notifier`](crate::Notifier) of its domain tells, from its creation on: of each id once, however often it came since
/// the listener told of it last, and none is lost. Who is told of one finds all that was called before it: a message that was sent first
/// is there.
///
/// It may wait in a domain of one thread, too: then the thread sleeps as long. It may be attached to a [`WaitSet`](crate::WaitSet), and
/// has a [descriptor](Listener::event_fd), where threads share the domain.
///
/// ```
/// use iox2_pubsub::{Domain, EventId};
/// use std::time::Duration;
///
/// # fn main() -> Result<(), Box<dyn std::error::Error>> {
/// # let name = format!("My/Listener.{}", std::process::id());
/// let domain = Domain::<f64>::builder(7).name(&name).open_or_create()?;
/// let (notifier, listener) = (domain.notifier()?, domain.listener()?);
/// notifier.notify()?;
/// assert_eq!(listener.timed_wait_one(Duration::from_secs(1))?, Some(EventId::new(0)));
/// assert_eq!(listener.try_wait_one()?, None);
/// # Ok(())
/// # }
/// ```
///
/// Events are tested and not proved, and no recording has them. Each process has as many listeners as it has memory for.
pub struct Listener<M: Threads = OneThread> {
    pub(crate) hold: M::Hold,
    port: c::Listener,
}

impl<M: Threads> Listener<M> {
    /// Looks for one event that came, of several by turns. `None`: none came.
    ///
    /// # Errors
    ///
    /// See [`ListenerWaitError`].
    pub fn try_wait_one(&self) -> Result<Option<EventId>, ListenerWaitError> {
        self.timed_wait_one(Duration::ZERO)
    }

    /// Waits for one, and so long at most. `None`: none came, or waits are [stopped](Domain::stop_waits).
    ///
    /// # Errors
    ///
    /// See [`ListenerWaitError`].
    pub fn timed_wait_one(&self, timeout: Duration) -> Result<Option<EventId>, ListenerWaitError> {
        self.wait_one(Some(timeout))
    }

    /// Waits for one. `None`: waits are stopped.
    ///
    /// # Errors
    ///
    /// See [`ListenerWaitError`].
    pub fn blocking_wait_one(&self) -> Result<Option<EventId>, ListenerWaitError> {
        self.wait_one(None)
    }

    /// Calls this with the id of each event that came, the lowest first, if any did. It may call the domain.
    ///
    /// # Errors
    ///
    /// See [`ListenerWaitError`].
    pub fn try_wait_all(&self, callback: impl FnMut(EventId)) -> Result<(), ListenerWaitError> {
        self.timed_wait_all(callback, Duration::ZERO)
    }

    /// Waits until events came, and so long at most, and does the same.
    ///
    /// # Errors
    ///
    /// See [`ListenerWaitError`].
    pub fn timed_wait_all(
        &self,
        callback: impl FnMut(EventId),
        timeout: Duration,
    ) -> Result<(), ListenerWaitError> {
        self.wait_all(callback, Some(timeout))
    }

    /// Waits until events came or waits are stopped, and does the same.
    ///
    /// # Errors
    ///
    /// See [`ListenerWaitError`].
    pub fn blocking_wait_all(
        &self,
        callback: impl FnMut(EventId),
    ) -> Result<(), ListenerWaitError> {
        self.wait_all(callback, None)
    }

    fn wait_one(&self, timeout: Option<Duration>) -> Result<Option<EventId>, ListenerWaitError> {
        let mut id = 0;
        // SAFETY: see `Shared::at`.
        let has_come = self.wait(timeout, |shared, for_ns| unsafe {
            c::iox2ps_listener_timed_wait_one(shared.at(), &self.port, for_ns, &mut id)
        })?;
        Ok(has_come.then(|| EventId::new(id)))
    }

    fn wait_all(
        &self,
        callback: impl FnMut(EventId),
        timeout: Option<Duration>,
    ) -> Result<(), ListenerWaitError> {
        let mut ids = c::EventIds::default();
        // SAFETY: see `Shared::at`.
        self.wait(timeout, |shared, for_ns| unsafe {
            c::iox2ps_listener_timed_wait_all(shared.at(), &self.port, for_ns, &mut ids)
        })?;
        let has = |id: &usize| ids.words[id / 64] >> (id % 64) & 1 != 0;
        let came = (0..=c::EVENT_ID_MAX_VALUE).filter(has);
        came.map(EventId::new).for_each(callback);
        Ok(())
    }

    // Whether any has come. A thread that has the domain for itself sleeps in the call, and others where the domain isn't locked.
    fn wait(
        &self,
        timeout: Option<Duration>,
        mut takes: impl FnMut(&mut Shared, u64) -> u32,
    ) -> Result<bool, ListenerWaitError> {
        let for_ns = timeout.map_or(u64::MAX, nanoseconds);
        let code = match M::Place::IS_SHARED && for_ns != 0 {
            true => self.hold.wait(
                Wait {
                    what: Waits::Event,
                    port: self.port.id,
                    until: timeout.and_then(after),
                    brings: Brings::NOTHING,
                },
                |shared| takes(shared, 0),
            ),
            false => self
                .hold
                .call(Brings::NOTHING, |shared| takes(shared, for_ns)),
        };
        match code {
            sys::OK => Ok(true),
            c::PROCESSES_TIMED_OUT => Ok(false),
            code => Err(ListenerWaitError::of(code)),
        }
    }
}

fn nanoseconds(timeout: Duration) -> u64 {
    u64::try_from(timeout.as_nanos()).unwrap_or(u64::MAX)
}

impl<M: Threads> Drop for Listener<M> {
    fn drop(&mut self) {
        // SAFETY: see `Shared::at`.
        expect_here(self.hold.call(Brings::NOTHING, |shared| unsafe {
            c::iox2ps_listener_close(shared.at(), &self.port)
        }));
    }
}

impl<M: Threads> fmt::Debug for Listener<M> {
    fn fmt(&self, f: &mut fmt::Formatter<'_>) -> fmt::Result {
        f.debug_struct("Listener").finish_non_exhaustive()
    }
}

impl<P: Payload + ?Sized, M: Threads> Domain<P, M> {
    /// Makes a listener, which hears of what is notified from now on.
    ///
    /// # Errors
    ///
    /// See [`ListenerCreateError`].
    pub fn listener(&self) -> Result<Listener<M>, ListenerCreateError> {
        let (hold, mut port) = (self.hold.of_port(), c::Listener::default());
        // SAFETY: see `Shared::at`.
        let code = hold.call(Brings::NOTHING, |shared| unsafe {
            c::iox2ps_listener_create(shared.at(), &mut port)
        });
        match code {
            sys::OK => Ok(Listener { hold, port }),
            code => Err(ListenerCreateError::of(code)),
        }
    }
}
