// SPDX-License-Identifier: Apache-2.0 OR MIT
//! Receives messages.

use crate::domain::expect_here;
#[cfg(feature = "processes")]
use crate::errors::WRONG_LENGTH;
use crate::errors::{ConnectionFailure, ReceiveError};
use crate::ids::UniqueSubscriberId;
use crate::payload::Payload;
use crate::sample::{release, Sample};
use crate::shared::Shared;
use crate::static_config::SubscriberConfig;
use crate::sys;
use crate::threads::{Brings, MayWait, OneThread, Place, Threads, Wait, Waits};
use crate::timeout::after;
use std::fmt;
use std::iter::FusedIterator;
use std::marker::PhantomData;
use std::mem::{size_of, MaybeUninit};
use std::ops::ControlFlow;
use std::ptr::addr_of_mut;
use std::time::{Duration, Instant};

/// Receives the messages of every publisher of its domain, until it is dropped.
pub struct Subscriber<P: Payload + ?Sized, M: Threads = OneThread> {
    pub(crate) hold: M::Hold,
    pub(crate) port: sys::Subscriber,
    config: SubscriberConfig,
    messages: PhantomData<P>,
}

impl<P: Payload + ?Sized, M: Threads> Subscriber<P, M> {
    pub(crate) fn new(hold: M::Hold, port: sys::Subscriber, config: SubscriberConfig) -> Self {
        Subscriber {
            hold,
            port,
            config,
            messages: PhantomData,
        }
    }

    /// The subscriber's id, which no other port of the domain has.
    #[must_use]
    pub fn id(&self) -> UniqueSubscriberId {
        UniqueSubscriberId::of(self.port.id)
    }

    /// What it was made with.
    #[must_use]
    pub fn config(&self) -> SubscriberConfig {
        self.config
    }

    /// How many messages of one publisher may wait.
    #[must_use]
    pub fn buffer_size(&self) -> usize {
        self.port.buffer_size
    }

    /// The next message of some publisher, or `None` where none waits. The messages of one publisher
    /// come in the order in which they were sent. With `None` and an error what waits is as it was; only what a closed
    /// publisher left may be lost, where the subscriber has no room for it.
    ///
    /// # Errors
    ///
    /// See [`ReceiveError`]. `ConnectionFailure` and `ExceedsMaxBorrows` don't come while it holds fewer samples in all
    /// than it may of one publisher, and no publisher was made or closed since its last update that succeeded.
    #[inline(always)]
    pub fn receive(&self) -> Result<Option<Sample<P, M>>, ReceiveError> {
        let mut got = MaybeUninit::uninit();
        let code = self.hold.call(Brings::ROOM, |shared| {
            receive_next(shared, &self.port, &mut got)
        });
        self.sample(code, &got)
    }

    // What a receive has written that returned this code.
    #[inline(always)]
    pub(crate) fn sample(
        &self,
        code: u32,
        got: &MaybeUninit<Got>,
    ) -> Result<Option<Sample<P, M>>, ReceiveError> {
        match code {
            sys::OK => {
                // SAFETY: with this code it is written.
                let got = unsafe { &*got.as_ptr() };
                match got.payload() {
                    Some(payload) => Ok(Some(Sample::new(self.hold.clone(), got, payload))),
                    None => Err(self.refuse(got)),
                }
            }
            sys::NO_SAMPLE => Ok(None),
            _ => Err(ReceiveError::of(code)),
        }
    }

    // It isn't as long as its type, and goes back.
    #[cold]
    fn refuse(&self, got: &Got) -> ReceiveError {
        let release = |shared: &mut Shared| release(shared, &got.sample);
        expect_here(self.hold.call(Brings::LOAN, release));
        wrong_length()
    }

    /// Receives what waits, one message after the other, and ends where nothing does or a call is
    /// refused; the refusal is the last that it gives.
    pub fn iter(&self) -> Received<'_, P, M> {
        Received {
            subscriber: Some(self),
        }
    }

    /// Whether a message waits, also one that can't be received yet.
    ///
    /// # Errors
    ///
    /// See [`ConnectionFailure`]. The other connections are made all the same.
    pub fn has_samples(&self) -> Result<bool, ConnectionFailure> {
        let mut waits = 0;
        // SAFETY: see `Shared::at`.
        let code = self.hold.call(Brings::NOTHING, |shared| unsafe {
            sys::iox2ps_subscriber_has_samples(shared.at(), &self.port, &mut waits)
        });
        match code {
            sys::OK => Ok(waits != 0),
            code => Err(ConnectionFailure::of(code)),
        }
    }

    /// Makes the connections with publishers that came, as each receive does first.
    ///
    /// # Errors
    ///
    /// See [`ConnectionFailure`]. The other connections are made all the same.
    pub fn update_connections(&self) -> Result<(), ConnectionFailure> {
        // SAFETY: see `Shared::at`.
        let code = self.hold.call(Brings::NOTHING, |shared| unsafe {
            sys::iox2ps_subscriber_update_connections(shared.at(), &self.port)
        });
        match code {
            sys::OK => Ok(()),
            code => Err(ConnectionFailure::of(code)),
        }
    }
}

impl<T: Copy + 'static, M: Threads> Subscriber<T, M> {
    /// The next message as a copy: a receive, a copy and a release with no other call between.
    ///
    /// # Errors
    ///
    /// See [`ReceiveError`].
    #[inline]
    pub fn receive_copy(&self) -> Result<Option<T>, ReceiveError> {
        let mut value = MaybeUninit::uninit();
        let code = self.hold.call(Brings::COPY, |shared| {
            copy_next(shared, &self.port, &mut value)
        });
        copied(code, value)
    }
}

#[inline]
fn copy_next<T: Copy + 'static>(
    shared: &mut Shared,
    port: &sys::Subscriber,
    value: &mut MaybeUninit<T>,
) -> u32 {
    let (mut len, mut sample) = (0, MaybeUninit::uninit());
    let (bytes, room, sample) = (
        value.as_mut_ptr().cast(),
        size_of::<T>(),
        sample.as_mut_ptr(),
    );
    // SAFETY: see `Shared::at`.
    let code = unsafe {
        sys::iox2ps_subscriber_receive_copy(shared.at(), port, bytes, room, &mut len, sample)
    };
    checked(code, len, room)
}

// Another process may have sent less than the type's bytes.
#[cfg(feature = "processes")]
#[inline]
fn checked(code: u32, len: usize, room: usize) -> u32 {
    match code {
        sys::OK if len != room => WRONG_LENGTH,
        _ => code,
    }
}

#[cfg(not(feature = "processes"))]
#[inline(always)]
fn checked(code: u32, _: usize, _: usize) -> u32 {
    code
}

#[inline]
fn copied<T>(code: u32, value: MaybeUninit<T>) -> Result<Option<T>, ReceiveError> {
    match code {
        // SAFETY: it is the copy of a message, and each message of a domain is of its type.
        sys::OK => Ok(Some(unsafe { value.assume_init() })),
        sys::NO_SAMPLE => Ok(None),
        _ => Err(ReceiveError::of(code)),
    }
}

impl<T: Copy + 'static, M: Threads> Subscriber<T, M> {
    /// Waits for a message, and gives a copy of it. `None` where waits are stopped.
    ///
    /// # Errors
    ///
    /// See [`ReceiveError`].
    pub fn blocking_receive_copy(&self) -> Result<Option<T>, ReceiveError>
    where
        M: MayWait,
    {
        self.copy_until(None)
    }

    /// The same, for so long. `None` where none came, or waits are stopped.
    ///
    /// # Errors
    ///
    /// See [`ReceiveError`].
    pub fn timed_receive_copy(&self, timeout: Duration) -> Result<Option<T>, ReceiveError>
    where
        M: MayWait,
    {
        self.copy_until(after(timeout))
    }

    fn copy_until(&self, until: Option<Instant>) -> Result<Option<T>, ReceiveError>
    where
        M: MayWait,
    {
        let mut value = MaybeUninit::uninit();
        let wait = self.wait_for_message(until, Brings::COPY);
        let code = self
            .hold
            .wait(wait, |shared| copy_next(shared, &self.port, &mut value));
        copied(code, value)
    }
}

/// What a receive writes.
#[derive(Clone, Copy)]
pub(crate) struct Got {
    pub(crate) sample: sys::Sample,
    pub(crate) start: *const u8,
    pub(crate) len: usize,
}

impl Got {
    /// `None` where another process has sent bytes that are no `P`.
    #[inline(always)]
    pub(crate) fn payload<P: Payload + ?Sized>(&self) -> Option<*const P> {
        P::at(self.start as *mut u8, self.len).map(|payload| payload as *const P)
    }
}

#[cfg(feature = "processes")]
pub(crate) fn wrong_length() -> ReceiveError {
    ReceiveError::WrongLength
}

#[cfg(not(feature = "processes"))]
pub(crate) fn wrong_length() -> ReceiveError {
    panic!("each message of a domain is of its type")
}

#[inline(always)]
pub(crate) fn receive_next(
    shared: &mut Shared,
    port: &sys::Subscriber,
    got: &mut MaybeUninit<Got>,
) -> u32 {
    let got = got.as_mut_ptr();
    // SAFETY: see `Shared::at`. The places are fields of what lives through the call.
    unsafe {
        let (sample, start, len) = (
            addr_of_mut!((*got).sample),
            addr_of_mut!((*got).start),
            addr_of_mut!((*got).len),
        );
        sys::iox2ps_subscriber_receive(shared.at(), port, sample, start, len)
    }
}

impl<P: Payload + ?Sized, M: Threads> Subscriber<P, M> {
    /// Waits for a message. `None` where waits are stopped (`SharedDomain::stop_waits`).
    ///
    /// # Errors
    ///
    /// See [`ReceiveError`].
    pub fn blocking_receive(&self) -> Result<Option<Sample<P, M>>, ReceiveError>
    where
        M: MayWait,
    {
        self.receive_until(None)
    }

    /// Waits for a message, for so long. `None` where none came, or waits are stopped.
    ///
    /// # Errors
    ///
    /// See [`ReceiveError`].
    pub fn timed_receive(&self, timeout: Duration) -> Result<Option<Sample<P, M>>, ReceiveError>
    where
        M: MayWait,
    {
        self.receive_until(after(timeout))
    }

    fn receive_until(&self, until: Option<Instant>) -> Result<Option<Sample<P, M>>, ReceiveError>
    where
        M: MayWait,
    {
        let mut got = MaybeUninit::uninit();
        let wait = self.wait_for_message(until, Brings::ROOM);
        let code = self
            .hold
            .wait(wait, |shared| receive_next(shared, &self.port, &mut got));
        self.sample(code, &got)
    }

    pub(crate) fn wait_for_message(&self, until: Option<Instant>, brings: Brings) -> Wait {
        Wait {
            what: Waits::Message,
            port: self.port.id,
            until,
            brings,
        }
    }

    /// Waits for one message after the other, and reads each where it lies, without the lock. Ends where
    /// the function breaks off, or waits are stopped. A message is given back in the call that asks for
    /// the next, so that each takes the lock once. A [`reader`](Subscriber::reader) takes it less often.
    ///
    /// # Errors
    ///
    /// See [`ReceiveError`].
    pub fn blocking_for_each(
        &self,
        mut read: impl FnMut(&P) -> ControlFlow<()>,
    ) -> Result<(), ReceiveError>
    where
        M: MayWait,
    {
        // What is taken is read, so that none is lost where it breaks off.
        let mut reader = self.reader_with_capacity(1);
        while let Some(message) = reader.blocking_receive()? {
            if read(message).is_break() {
                break;
            }
        }
        Ok(())
    }

    /// Waits for one message after the other, and ends where waits are stopped or a call is refused;
    /// the refusal is the last that it gives.
    pub fn blocking_iter(&self) -> Incoming<'_, P, M>
    where
        M: MayWait,
    {
        Incoming {
            subscriber: Some(self),
        }
    }
}

impl<P: Payload + ?Sized, M: Threads> fmt::Debug for Subscriber<P, M> {
    fn fmt(&self, f: &mut fmt::Formatter<'_>) -> fmt::Result {
        f.debug_struct("Subscriber")
            .field("id", &self.id())
            .field("buffer_size", &self.buffer_size())
            .finish_non_exhaustive()
    }
}

impl<P: Payload + ?Sized, M: Threads> Drop for Subscriber<P, M> {
    fn drop(&mut self) {
        // SAFETY: see `Shared::at`. A send may wait for this subscriber, and slots come back.
        expect_here(self.hold.call(Brings::COPY, |shared| unsafe {
            sys::iox2ps_subscriber_close(shared.at(), &self.port)
        }));
        self.hold.forget(self.port.id);
    }
}

/// What comes to a subscriber: an iterator that waits.
#[must_use = "it receives nothing until it is iterated"]
pub struct Incoming<'s, P: Payload + ?Sized, M: MayWait> {
    // None once the last was given.
    subscriber: Option<&'s Subscriber<P, M>>,
}

impl<P: Payload + ?Sized, M: MayWait> Iterator for Incoming<'_, P, M> {
    type Item = Result<Sample<P, M>, ReceiveError>;

    fn next(&mut self) -> Option<Self::Item> {
        let received = self.subscriber?.blocking_receive().transpose();
        if !matches!(received, Some(Ok(_))) {
            self.subscriber = None;
        }
        received
    }
}

impl<P: Payload + ?Sized, M: MayWait> FusedIterator for Incoming<'_, P, M> {}

impl<P: Payload + ?Sized, M: MayWait> fmt::Debug for Incoming<'_, P, M> {
    fn fmt(&self, f: &mut fmt::Formatter<'_>) -> fmt::Result {
        f.debug_struct("Incoming")
            .field("subscriber", &self.subscriber)
            .finish()
    }
}

/// What waits for a subscriber: an iterator that ends where nothing does.
#[must_use = "it receives nothing until it is iterated"]
pub struct Received<'s, P: Payload + ?Sized, M: Threads = OneThread> {
    // None once the last was given.
    subscriber: Option<&'s Subscriber<P, M>>,
}

impl<P: Payload + ?Sized, M: Threads> Iterator for Received<'_, P, M> {
    type Item = Result<Sample<P, M>, ReceiveError>;

    #[inline(always)]
    fn next(&mut self) -> Option<Self::Item> {
        let received = self.subscriber?.receive().transpose();
        if !matches!(received, Some(Ok(_))) {
            self.subscriber = None;
        }
        received
    }
}

impl<P: Payload + ?Sized, M: Threads> FusedIterator for Received<'_, P, M> {}

impl<P: Payload + ?Sized, M: Threads> fmt::Debug for Received<'_, P, M> {
    fn fmt(&self, f: &mut fmt::Formatter<'_>) -> fmt::Result {
        f.debug_struct("Received")
            .field("subscriber", &self.subscriber)
            .finish()
    }
}

impl<'s, P: Payload + ?Sized, M: Threads> IntoIterator for &'s Subscriber<P, M> {
    type Item = Result<Sample<P, M>, ReceiveError>;
    type IntoIter = Received<'s, P, M>;

    fn into_iter(self) -> Received<'s, P, M> {
        self.iter()
    }
}
