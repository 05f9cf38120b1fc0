// SPDX-License-Identifier: Apache-2.0 OR MIT
//! Sends one message after the other, and takes the lock once for each.

use crate::errors::SendError;
use crate::loan::{discard, send};
use crate::payload::Payload;
use crate::publisher::{lend, update_for_slots, Lent, Publisher};
use crate::send_outcome::{outcome, retry, SendOutcome};
use crate::shared::Shared;
use crate::sys;
use crate::threads::{Brings, MayWait, OneThread, Place, Threads, Wait, Waits};
use crate::timeout::after;
use std::fmt;
use std::mem::{size_of, MaybeUninit};
use std::time::{Duration, Instant};

/// Sends one message after the other. It has a loan ready, to which the next message is written without the lock; and in
/// the hold of the lock in which that is sent, the one after it is lent. So it costs less than a loan and a send, and
/// unlike [`Publisher::send_copy`] nothing is copied under the lock.
///
/// ```
/// # fn main() -> Result<(), Box<dyn std::error::Error>> {
/// let domain = iox2_pubsub::Domain::<u64>::builder(7).create_shared()?;
/// let (publisher, subscriber) = (domain.publisher()?, domain.subscriber()?);
/// let mut writer = publisher.writer();
/// for number in 1..=2 {
///     assert_eq!(writer.send(number)?.delivered(), Some(1));
/// }
/// drop(writer); // gives its loan back
/// assert_eq!(subscriber.receive_copy()?, Some(1));
/// # Ok(())
/// # }
/// ```
///
/// The loan that is ready counts against those that the publisher may have out.
pub struct Writer<'p, T: Copy + 'static, M: Threads = OneThread> {
    publisher: &'p Publisher<T, M>,
    ready: Option<Lent>,
}

// Sends what is ready, and lends the next.
#[inline(always)]
fn turn<T>(
    ready: &mut Option<Lent>,
    shared: &mut Shared,
    port: &sys::Publisher,
    receivers: &mut usize,
    blocked: &mut MaybeUninit<sys::Blocked>,
) -> u32 {
    let lent = ready.as_ref().expect("a loan is ready");
    let code = send(shared, &lent.loan, receivers, blocked);
    if code == sys::OK {
        *ready = next::<T>(shared, port);
    } else if code != sys::PUBLISHER_IS_BLOCKED {
        *ready = None;
    }
    code
}

// If there is none, the next send says so, since it asks again.
#[inline(always)]
fn next<T>(shared: &mut Shared, port: &sys::Publisher) -> Option<Lent> {
    let mut lent = MaybeUninit::uninit();
    let code = lend(shared, port, size_of::<T>(), &mut lent);
    // SAFETY: with this code it is written.
    (code == sys::OK).then(|| unsafe { lent.assume_init() })
}

impl<T: Copy + 'static, M: Threads> Writer<'_, T, M> {
    /// Sends a message.
    ///
    /// # Errors
    ///
    /// See [`SendError`].
    #[inline]
    pub fn send(&mut self, value: T) -> Result<SendOutcome<T, M>, SendError> {
        let Publisher { hold, port, .. } = self.publisher;
        if self.ready.is_none() {
            let mut lent = MaybeUninit::uninit();
            let code = hold.call(Brings::NOTHING, |shared| {
                lend(shared, port, size_of::<T>(), &mut lent)
            });
            self.is_lent(code, lent)?;
        }
        self.write(value);
        let (mut receivers, mut blocked) = (0, MaybeUninit::uninit());
        let ready = &mut self.ready;
        let code = hold.call(Brings::SEND, |shared| {
            turn::<T>(ready, shared, port, &mut receivers, &mut blocked)
        });
        outcome(hold, code, receivers, &blocked)
    }

    // What a call has written that lends and returned this code.
    fn is_lent(&mut self, code: u32, lent: MaybeUninit<Lent>) -> Result<(), SendError> {
        if code != sys::OK {
            return Err(SendError::of(code));
        }
        // SAFETY: with this code it is written.
        self.ready = Some(unsafe { lent.assume_init() });
        Ok(())
    }

    #[inline]
    fn write(&mut self, value: T) {
        let lent = self.ready.as_ref().expect("a loan is ready");
        let payload = T::at(lent.start, size_of::<T>()).expect("a loan has room for its type");
        // SAFETY: the bytes stay where they are, and are this loan's alone until it is sent.
        unsafe { payload.write(value) };
    }
}

impl<T: Copy + 'static, M: Threads> Writer<'_, T, M> {
    /// Sends a message. Waits for its loan as [`Publisher::blocking_loan_uninit`] does, and then until it has reached
    /// everybody. Where waits are stopped (`SharedDomain::stop_waits`) it is tried once, and what is still blocked is in
    /// what this returns.
    ///
    /// # Errors
    ///
    /// Those of [`send`](Writer::send), those that are waited for only where waits are stopped.
    pub fn blocking_send(&mut self, value: T) -> Result<SendOutcome<T, M>, SendError>
    where
        M: MayWait,
    {
        self.send_until(value, None)
    }

    /// The same, for so long. What still waits then is in what this returns.
    ///
    /// # Errors
    ///
    /// Those of [`send`](Writer::send), as they are when the time is up.
    pub fn timed_send(
        &mut self,
        value: T,
        timeout: Duration,
    ) -> Result<SendOutcome<T, M>, SendError>
    where
        M: MayWait,
    {
        self.send_until(value, after(timeout))
    }

    #[inline]
    fn send_until(
        &mut self,
        value: T,
        until: Option<Instant>,
    ) -> Result<SendOutcome<T, M>, SendError>
    where
        M: MayWait,
    {
        if self.ready.is_none() {
            self.lend_until(until)?;
        }
        self.write(value);
        let Publisher { hold, port, .. } = self.publisher;
        let (mut receivers, mut blocked) = (0, MaybeUninit::uninit());
        let wait = self.wait_for(Waits::Free, until, Brings::SEND);
        let ready = &mut self.ready;
        let code = hold.wait(wait, |shared| {
            turn::<T>(ready, shared, port, &mut receivers, &mut blocked)
        });
        match code {
            // SAFETY: with this code it is written.
            sys::BLOCKED => self.retry_until(until, unsafe { blocked.assume_init() }),
            _ => outcome(hold, code, receivers, &blocked),
        }
    }

    #[cold]
    fn lend_until(&mut self, until: Option<Instant>) -> Result<(), SendError>
    where
        M: MayWait,
    {
        let Publisher { hold, port, .. } = self.publisher;
        let mut lent = MaybeUninit::uninit();
        let wait = self.wait_for(Waits::Loan, until, Brings::NOTHING);
        let code = hold.wait(wait, |shared| {
            let code = lend(shared, port, size_of::<T>(), &mut lent);
            if !update_for_slots(shared, port, code) {
                return code;
            }
            lend(shared, port, size_of::<T>(), &mut lent)
        });
        self.is_lent(code, lent)
    }

    // A full buffer is waited for, and the next is lent when there was room.
    fn retry_until(
        &mut self,
        until: Option<Instant>,
        blocked: sys::Blocked,
    ) -> Result<SendOutcome<T, M>, SendError>
    where
        M: MayWait,
    {
        let Publisher { hold, port, .. } = self.publisher;
        let (started, mut receivers) = (Instant::now(), 0);
        let wait = self.wait_for(Waits::Room, until, Brings::END);
        let ready = &mut self.ready;
        let code = hold.wait(wait, |shared| {
            let code = retry(shared, &blocked, started.elapsed(), &mut receivers);
            if code == sys::OK {
                *ready = next::<T>(shared, port);
            }
            code
        });
        outcome(hold, code, receivers, &MaybeUninit::new(blocked))
    }

    fn wait_for(&self, what: Waits, until: Option<Instant>, brings: Brings) -> Wait {
        Wait {
            what,
            port: self.publisher.port.id,
            until,
            brings,
        }
    }
}

impl<T: Copy + 'static, M: Threads> Publisher<T, M> {
    /// Sends one message after the other, and takes the lock once for each.
    pub fn writer(&self) -> Writer<'_, T, M> {
        Writer {
            publisher: self,
            ready: None,
        }
    }
}

// SAFETY: what is ready is a loan, which may go to other threads: see there.
unsafe impl<T: Copy + Send + Sync + 'static, M: MayWait> Send for Writer<'_, T, M> {}
// SAFETY: shared, it gives away whether a loan is ready, and no more.
unsafe impl<T: Copy + Send + Sync + 'static, M: MayWait> Sync for Writer<'_, T, M> {}

impl<T: Copy + 'static, M: Threads> Drop for Writer<'_, T, M> {
    fn drop(&mut self) {
        if let Some(lent) = self.ready.take() {
            self.publisher
                .hold
                .call(Brings::LOAN, |shared| discard(shared, &lent.loan));
        }
    }
}

impl<T: Copy + 'static, M: Threads> fmt::Debug for Writer<'_, T, M> {
    fn fmt(&self, f: &mut fmt::Formatter<'_>) -> fmt::Result {
        f.debug_struct("Writer")
            .field("publisher", &self.publisher)
            .field("has_loan", &self.ready.is_some())
            .finish()
    }
}
