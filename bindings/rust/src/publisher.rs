// SPDX-License-Identifier: Apache-2.0 OR MIT
//! Sends messages.

use crate::domain::expect;
use crate::errors::{ConnectionFailure, LoanError, SendError};
use crate::ids::UniquePublisherId;
use crate::loan::{Loan, LoanUninit};
use crate::payload::Payload;
use crate::send_outcome::{outcome, SendOutcome};
use crate::shared::Shared;
use crate::static_config::{strategy_of, PublisherConfig};
use crate::sys;
use crate::threads::{Brings, MayWait, OneThread, Place, Threads, Wait, Waits};
use crate::timeout::after;
use crate::zeroable::Zeroable;
use std::fmt;
use std::mem::{size_of, MaybeUninit};
use std::ptr::addr_of_mut;
use std::time::{Duration, Instant};

/// What a publisher does at a full buffer, where there is no overflow.
#[derive(Clone, Copy, Debug, PartialEq, Eq, Hash)]
#[repr(u32)]
pub enum BackpressureStrategy {
    /// The send is blocked: it is tried again, or given up.
    RetryUntilDelivered = 0,
    /// The subscriber doesn't get the message.
    DiscardData = 1,
}

/// What a handler answers at a full buffer.
#[derive(Clone, Copy, Debug, PartialEq, Eq, Hash)]
#[repr(u32)]
pub enum BackpressureAction {
    /// Do as the publisher's strategy says. The spelling is the original's.
    FollowBackpressureyStrategy = 1,
    /// Block the send.
    Retry = 2,
    /// Skip this subscriber and go on to the others.
    DiscardData = 3,
    /// Skip this subscriber and go on to the others; the send fails in the end.
    DiscardDataAndFail = 4,
}

/// Sends messages to every subscriber of its domain, until it is dropped. One that is dropped while a
/// send of it is blocked closes when that send has ended.
pub struct Publisher<P: Payload + ?Sized, M: Threads = OneThread> {
    pub(crate) hold: M::Hold,
    pub(crate) port: sys::Publisher,
    config: PublisherConfig<P>,
}

impl<P: Payload + ?Sized, M: Threads> Publisher<P, M> {
    pub(crate) fn new(hold: M::Hold, port: sys::Publisher, config: PublisherConfig<P>) -> Self {
        Publisher { hold, port, config }
    }

    /// What it was made with.
    #[must_use]
    pub fn config(&self) -> PublisherConfig<P> {
        self.config
    }

    /// The publisher's id, which no other port of the domain has.
    #[must_use]
    pub fn id(&self) -> UniquePublisherId {
        UniquePublisherId::of(self.port.id)
    }

    /// What it does at a full buffer, where there is no overflow.
    #[must_use]
    pub fn backpressure_strategy(&self) -> BackpressureStrategy {
        strategy_of(self.port.backpressure_strategy)
    }

    /// Whether a send waits for a subscriber whose buffer is full. Nothing is lent or sent meanwhile.
    #[must_use]
    pub fn is_blocked(&self) -> bool {
        let mut is_blocked = 0;
        // SAFETY: see `Shared::at`.
        expect(self.hold.call(Brings::NOTHING, |shared| unsafe {
            sys::iox2ps_publisher_is_blocked(shared.at(), &self.port, &mut is_blocked)
        }));
        is_blocked != 0
    }

    /// Makes the connections with new subscribers and drops those with closed ones, as each send does first.
    ///
    /// # Errors
    ///
    /// See [`ConnectionFailure`]. The other connections are made all the same, but with `PublisherIsBlocked`.
    pub fn update_connections(&self) -> Result<(), ConnectionFailure> {
        // SAFETY: see `Shared::at`.
        let code = self.hold.call(Brings::SEND, |shared| unsafe {
            sys::iox2ps_publisher_update_connections(shared.at(), &self.port)
        });
        match code {
            sys::OK => Ok(()),
            code => Err(ConnectionFailure::of(code)),
        }
    }

    #[inline(always)]
    fn lend(&self, bytes: usize) -> Result<LoanUninit<P, M>, LoanError> {
        let mut lent = MaybeUninit::uninit();
        let code = self.hold.call(Brings::NOTHING, |shared| {
            lend(shared, &self.port, bytes, &mut lent)
        });
        taken(&self.hold, code, &lent, bytes)
    }
}

impl<P: Payload + ?Sized, M: Threads> Publisher<P, M> {
    fn lend_until(
        &self,
        bytes: usize,
        until: Option<Instant>,
    ) -> Result<LoanUninit<P, M>, LoanError>
    where
        M: MayWait,
    {
        let mut lent = MaybeUninit::uninit();
        let wait = self.wait_for_loan(until, Brings::NOTHING);
        let code = self.hold.wait(wait, |shared| {
            let code = lend(shared, &self.port, bytes, &mut lent);
            if !update_for_slots(shared, &self.port, code) {
                return code;
            }
            lend(shared, &self.port, bytes, &mut lent)
        });
        taken(&self.hold, code, &lent, bytes)
    }

    fn wait_for_loan(&self, until: Option<Instant>, brings: Brings) -> Wait {
        Wait {
            what: Waits::Loan,
            port: self.port.id,
            until,
            brings,
        }
    }
}

// What a call writes that lends.
pub(crate) struct Lent {
    pub(crate) loan: sys::Loan,
    pub(crate) start: *mut u8,
}

#[inline(always)]
pub(crate) fn lend(
    shared: &mut Shared,
    port: &sys::Publisher,
    bytes: usize,
    lent: &mut MaybeUninit<Lent>,
) -> u32 {
    let lent = lent.as_mut_ptr();
    // SAFETY: see `Shared::at`. The places are fields of what lives through the call.
    unsafe {
        let (loan, start) = (addr_of_mut!((*lent).loan), addr_of_mut!((*lent).start));
        sys::iox2ps_publisher_loan_uninit(shared.at(), port, bytes, loan, start)
    }
}

// A closed subscriber's slots come back by an update of the connections alone, which a loan doesn't make.
// A loan says its own result.
pub(crate) fn update_for_slots(shared: &mut Shared, port: &sys::Publisher, code: u32) -> bool {
    code == sys::LOAN_ERROR_OUT_OF_MEMORY && shared.update_too(port) == sys::OK
}

#[inline(always)]
fn taken<P: Payload + ?Sized, M: Threads>(
    hold: &M::Hold,
    code: u32,
    lent: &MaybeUninit<Lent>,
    bytes: usize,
) -> Result<LoanUninit<P, M>, LoanError> {
    if code != sys::OK {
        return Err(LoanError::of(code));
    }
    // SAFETY: with this code it is written.
    let lent = unsafe { &*lent.as_ptr() };
    Ok(LoanUninit::new(hold.clone(), &lent.loan, lent.start, bytes))
}

impl<T: Copy + 'static, M: Threads> Publisher<T, M> {
    /// Lends a message that isn't written yet.
    ///
    /// # Errors
    ///
    /// See [`LoanError`].
    #[inline(always)]
    pub fn loan_uninit(&self) -> Result<LoanUninit<T, M>, LoanError> {
        self.lend(size_of::<T>())
    }

    /// Lends a message with its default value. A large one may be on the stack first, where it isn't with
    /// [`loan_zeroed`](Publisher::loan_zeroed) and [`write_in_place`](LoanUninit::write_in_place).
    ///
    /// # Errors
    ///
    /// See [`LoanError`].
    #[inline]
    pub fn loan(&self) -> Result<Loan<T, M>, LoanError>
    where
        T: Default,
    {
        Ok(self.loan_uninit()?.write_payload(T::default()))
    }

    /// Lends a message of zeros, nothing of which was on the stack. [`zeroable!`](crate::zeroable!) has an example.
    ///
    /// # Errors
    ///
    /// See [`LoanError`].
    #[inline]
    pub fn loan_zeroed(&self) -> Result<Loan<T, M>, LoanError>
    where
        T: Zeroable,
    {
        Ok(self.loan_uninit()?.write_zeroed())
    }

    /// Sends a copy of the value. The loan, the copy and the send are made with no other call between.
    ///
    /// # Errors
    ///
    /// See [`SendError`].
    #[inline]
    pub fn send_copy(&self, value: T) -> Result<SendOutcome<T, M>, SendError> {
        let (mut receivers, mut blocked) = (0, MaybeUninit::uninit());
        let code = self.hold.call(Brings::SEND, |shared| {
            send_copy(shared, &self.port, value, &mut receivers, &mut blocked)
        });
        outcome(&self.hold, code, receivers, &blocked)
    }
}

#[inline]
fn send_copy<T: Copy + 'static>(
    shared: &mut Shared,
    port: &sys::Publisher,
    value: T,
    receivers: &mut usize,
    blocked: &mut MaybeUninit<sys::Blocked>,
) -> u32 {
    let mut lent = MaybeUninit::uninit();
    let code = lend(shared, port, size_of::<T>(), &mut lent);
    if code != sys::OK {
        return code;
    }
    // SAFETY: with this code it is written.
    let lent = unsafe { &*lent.as_ptr() };
    let payload = T::at(lent.start, size_of::<T>()).expect("a loan has room for its type");
    // SAFETY: the bytes are this loan's alone, which is written; and see `Shared::at`.
    unsafe {
        payload.write(value);
        sys::iox2ps_loan_send(shared.at(), &lent.loan, receivers, blocked.as_mut_ptr())
    }
}

impl<T: Copy + 'static, M: Threads> Publisher<T, M> {
    /// Lends a message that isn't written yet. Waits while an earlier send of the publisher does, while as
    /// many loans are out as it may have, or while no slot is free. Where its memory is to grow and can't,
    /// that is refused at once.
    ///
    /// # Errors
    ///
    /// Those of [`loan_uninit`](Publisher::loan_uninit), those that are waited for only where waits are
    /// stopped (`SharedDomain::stop_waits`).
    pub fn blocking_loan_uninit(&self) -> Result<LoanUninit<T, M>, LoanError>
    where
        M: MayWait,
    {
        self.lend_until(size_of::<T>(), None)
    }

    /// The same, for so long.
    ///
    /// # Errors
    ///
    /// Those of [`loan_uninit`](Publisher::loan_uninit), as they are when the time is up.
    pub fn timed_loan_uninit(&self, timeout: Duration) -> Result<LoanUninit<T, M>, LoanError>
    where
        M: MayWait,
    {
        self.lend_until(size_of::<T>(), after(timeout))
    }

    /// Sends a copy of the value. Waits for its loan as [`blocking_loan_uninit`](Publisher::blocking_loan_uninit)
    /// does, and then until it has reached everybody. Where waits are stopped it is tried once, and what is still blocked
    /// is in what this returns.
    ///
    /// # Errors
    ///
    /// Those of [`send_copy`](Publisher::send_copy), those that are waited for only where waits are stopped.
    pub fn blocking_send_copy(&self, value: T) -> Result<SendOutcome<T, M>, SendError>
    where
        M: MayWait,
    {
        self.send_copy_until(value, None)
    }

    /// The same, for so long. What still waits then is in what this returns.
    ///
    /// # Errors
    ///
    /// Those of [`send_copy`](Publisher::send_copy), as they are when the time is up.
    pub fn timed_send_copy(
        &self,
        value: T,
        timeout: Duration,
    ) -> Result<SendOutcome<T, M>, SendError>
    where
        M: MayWait,
    {
        self.send_copy_until(value, after(timeout))
    }

    fn send_copy_until(
        &self,
        value: T,
        until: Option<Instant>,
    ) -> Result<SendOutcome<T, M>, SendError>
    where
        M: MayWait,
    {
        let (mut receivers, mut blocked) = (0, MaybeUninit::uninit());
        let wait = self.wait_for_loan(until, Brings::SEND);
        let code = self.hold.wait(wait, |shared| {
            let code = send_copy(shared, &self.port, value, &mut receivers, &mut blocked);
            if !update_for_slots(shared, &self.port, code) {
                return code;
            }
            send_copy(shared, &self.port, value, &mut receivers, &mut blocked)
        });
        match code {
            sys::OK => Ok(SendOutcome::Delivered(receivers)),
            _ => self.not_sent_yet(code, &blocked, until),
        }
    }

    // Apart, since a blocked send is large.
    #[cold]
    fn not_sent_yet(
        &self,
        code: u32,
        blocked: &MaybeUninit<sys::Blocked>,
        until: Option<Instant>,
    ) -> Result<SendOutcome<T, M>, SendError>
    where
        M: MayWait,
    {
        outcome(&self.hold, code, 0, blocked)?.wait_until(until)
    }
}

impl<T: Copy + 'static, M: Threads> Publisher<[T], M> {
    /// How many values a message may have, as long as memory isn't to grow.
    #[must_use]
    pub fn initial_max_slice_len(&self) -> usize {
        self.port
            .initial_max_slice_len
            .checked_div(size_of::<T>())
            .unwrap_or(0)
    }

    /// Lends a message of this number of values, none of them written yet.
    ///
    /// # Errors
    ///
    /// See [`LoanError`].
    pub fn loan_slice_uninit(&self, len: usize) -> Result<LoanUninit<[T], M>, LoanError> {
        self.lend(<[T]>::greatest_size(len))
    }

    /// Lends a message of this number of default values.
    ///
    /// # Errors
    ///
    /// See [`LoanError`].
    pub fn loan_slice(&self, len: usize) -> Result<Loan<[T], M>, LoanError>
    where
        T: Default,
    {
        Ok(self.loan_slice_uninit(len)?.write_from_fn(|_| T::default()))
    }

    /// Lends a message of this number of values of zeros.
    ///
    /// # Errors
    ///
    /// See [`LoanError`].
    pub fn loan_slice_zeroed(&self, len: usize) -> Result<Loan<[T], M>, LoanError>
    where
        T: Zeroable,
    {
        Ok(self.loan_slice_uninit(len)?.write_zeroed())
    }

    /// Sends a copy of the values.
    ///
    /// # Errors
    ///
    /// See [`SendError`].
    pub fn send_slice_copy(&self, values: &[T]) -> Result<SendOutcome<[T], M>, SendError> {
        self.loan_slice_uninit(values.len())?
            .write_from_slice(values)
            .send()
    }
}

impl<T: Copy + 'static, M: Threads> Publisher<[T], M> {
    /// Lends a message of this number of values, none of them written yet. Waits while an earlier send of the
    /// publisher does, while as many loans are out as it may have, or while no slot is free.
    ///
    /// # Errors
    ///
    /// Those of [`loan_slice_uninit`](Publisher::loan_slice_uninit), those that are waited for only where
    /// waits are stopped. A message that is too long is refused at once.
    pub fn blocking_loan_slice_uninit(&self, len: usize) -> Result<LoanUninit<[T], M>, LoanError>
    where
        M: MayWait,
    {
        self.lend_until(<[T]>::greatest_size(len), None)
    }

    /// The same, for so long.
    ///
    /// # Errors
    ///
    /// Those of [`loan_slice_uninit`](Publisher::loan_slice_uninit), as they are when the time is up.
    pub fn timed_loan_slice_uninit(
        &self,
        len: usize,
        timeout: Duration,
    ) -> Result<LoanUninit<[T], M>, LoanError>
    where
        M: MayWait,
    {
        self.lend_until(<[T]>::greatest_size(len), after(timeout))
    }
}

impl<P: Payload + ?Sized, M: Threads> fmt::Debug for Publisher<P, M> {
    fn fmt(&self, f: &mut fmt::Formatter<'_>) -> fmt::Result {
        f.debug_struct("Publisher")
            .field("id", &self.id())
            .field("backpressure_strategy", &self.backpressure_strategy())
            .finish_non_exhaustive()
    }
}

impl<P: Payload + ?Sized, M: Threads> Drop for Publisher<P, M> {
    fn drop(&mut self) {
        let close = |shared: &mut Shared| shared.close_publisher(&self.port);
        self.hold.call(Brings::MESSAGE, close);
    }
}
