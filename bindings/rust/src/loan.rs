// SPDX-License-Identifier: Apache-2.0 OR MIT
//! A message that a publisher has lent.

use crate::domain::expect_here;
use crate::errors::SendError;
use crate::ids::{number, ChannelId, ConnectionId, UniquePublisherId};
use crate::in_place::{Unwritten, Written};
use crate::payload::Payload;
use crate::send_outcome::{outcome, SendOutcome};
use crate::shared::Shared;
use crate::sys;
use crate::threads::{Brings, MayWait, OneThread, Place, Threads, Wait, Waits};
use crate::timeout::after;
use crate::zeroable::Zeroable;
use std::error::Error;
use std::fmt;
use std::mem::{size_of_val, ManuallyDrop, MaybeUninit};
use std::ops::{Deref, DerefMut};
use std::ptr;
use std::time::{Duration, Instant};

// A loan in its domain, which gets it back when this is dropped.
#[repr(C)]
struct Lent<M: Threads> {
    hold: M::Hold,
    loan: sys::Loan,
}

impl<M: Threads> Drop for Lent<M> {
    fn drop(&mut self) {
        let discard = |shared: &mut Shared| discard(shared, &self.loan);
        expect_here(self.hold.call(Brings::LOAN, discard));
    }
}

impl<M: Threads> Lent<M> {
    // Leaves the loan in the domain.
    #[inline(always)]
    fn into_hold(self) -> M::Hold {
        let this = ManuallyDrop::new(self);
        // SAFETY: the fields of `this` are never dropped, and this one is moved out once.
        unsafe { ptr::read(&this.hold) }
    }
}

/// A message that was lent and isn't written yet. It is given back when it is dropped.
#[must_use = "a loan that isn't sent is given back"]
#[repr(C)]
pub struct LoanUninit<P: Payload + ?Sized, M: Threads = OneThread> {
    payload: *mut P,
    lent: Lent<M>,
}

// SAFETY: what it has is a part in the domain, which may be given to other threads, and the place of a message that is
// its own alone until a call under the lock sends it or gives it back.
unsafe impl<P: Payload + ?Sized + Send + Sync, M: MayWait> Send for LoanUninit<P, M> {}
// SAFETY: shared, it gives away its number alone.
unsafe impl<P: Payload + ?Sized + Send + Sync, M: MayWait> Sync for LoanUninit<P, M> {}
// SAFETY: as of one that isn't written.
unsafe impl<P: Payload + ?Sized + Send + Sync, M: MayWait> Send for Loan<P, M> {}
// SAFETY: shared, it is read alone, as a `P` that is `Sync`.
unsafe impl<P: Payload + ?Sized + Send + Sync, M: MayWait> Sync for Loan<P, M> {}

impl<P: Payload + ?Sized, M: Threads> LoanUninit<P, M> {
    #[inline(always)]
    pub(crate) fn new(hold: M::Hold, loan: &sys::Loan, start: *mut u8, bytes: usize) -> Self {
        let payload = P::at(start, bytes).expect("a loan has room for its type");
        let lent = Lent { hold, loan: *loan };
        LoanUninit { lent, payload }
    }

    /// Where the message is to be written.
    #[inline(always)]
    pub fn payload_mut(&mut self) -> &mut P::Uninit {
        // SAFETY: the bytes stay where they are, and are this loan's alone until it is consumed.
        unsafe { &mut *P::uninit(self.payload) }
    }

    /// Takes the message as written.
    ///
    /// # Safety
    ///
    /// It is written.
    #[inline(always)]
    pub unsafe fn assume_init(self) -> Loan<P, M> {
        Loan {
            lent: self.lent,
            payload: self.payload,
        }
    }
}

impl<T: Copy + 'static, M: Threads> LoanUninit<T, M> {
    /// Writes the message.
    #[inline(always)]
    pub fn write_payload(mut self, value: T) -> Loan<T, M> {
        self.payload_mut().write(value);
        // SAFETY: it is written.
        unsafe { self.assume_init() }
    }

    /// Lets the function write the message where it lies, as a whole or part by part, so that nothing of it is on the
    /// stack. [`write_fields!`](crate::write_fields!) has an example.
    #[inline]
    pub fn write_in_place(
        mut self,
        write: impl for<'p> FnOnce(Unwritten<'p, T>) -> Written<'p, T>,
    ) -> Loan<T, M> {
        // SAFETY: the place is this loan's alone, and was looked at when it was lent.
        unsafe { Unwritten::fill(self.payload_mut().as_mut_ptr(), write) };
        // SAFETY: it is written.
        unsafe { self.assume_init() }
    }
}

impl<P: Payload + Zeroable + ?Sized, M: Threads> LoanUninit<P, M> {
    /// Writes zeros.
    #[inline]
    pub fn write_zeroed(mut self) -> Loan<P, M> {
        let place = self.payload_mut();
        let bytes = size_of_val(place);
        // SAFETY: these are the bytes of the message, which are this loan's alone, and zeros are a value.
        unsafe {
            (place as *mut P::Uninit).cast::<u8>().write_bytes(0, bytes);
            self.assume_init()
        }
    }
}

impl<T: Copy + 'static, M: Threads> LoanUninit<[T], M> {
    /// Writes into each place what the function returns for its index.
    pub fn write_from_fn(mut self, mut f: impl FnMut(usize) -> T) -> Loan<[T], M> {
        for (index, place) in self.payload_mut().iter_mut().enumerate() {
            place.write(f(index));
        }
        // SAFETY: each place is written.
        unsafe { self.assume_init() }
    }

    /// Writes copies of the values.
    ///
    /// # Panics
    ///
    /// Where there are more or fewer values than the loan has places.
    #[track_caller]
    pub fn write_from_slice(mut self, values: &[T]) -> Loan<[T], M> {
        // SAFETY: a value is also one that may be unwritten.
        let values = unsafe { &*(values as *const [T] as *const [MaybeUninit<T>]) };
        self.payload_mut().copy_from_slice(values);
        // SAFETY: each place is written, since the lengths are equal.
        unsafe { self.assume_init() }
    }
}

impl<P: Payload + ?Sized, M: Threads> fmt::Debug for LoanUninit<P, M> {
    fn fmt(&self, f: &mut fmt::Formatter<'_>) -> fmt::Result {
        f.debug_struct("LoanUninit")
            .field("number", &number(self.lent.loan.number))
            .finish_non_exhaustive()
    }
}

/// A message that was lent and is written: it reads as its payload where that lies, and can be changed
/// there until it is sent. It is given back when it is dropped.
#[must_use = "a loan that isn't sent is given back"]
#[repr(C)]
pub struct Loan<P: Payload + ?Sized, M: Threads = OneThread> {
    payload: *mut P,
    lent: Lent<M>,
}

impl<P: Payload + ?Sized, M: Threads> Loan<P, M> {
    /// The id of the publisher that lent it.
    #[must_use]
    pub fn publisher(&self) -> UniquePublisherId {
        UniquePublisherId::of(self.lent.loan.publisher)
    }

    /// The number that the message has: no other message of the domain has it.
    #[must_use]
    pub fn number(&self) -> u128 {
        number(self.lent.loan.number)
    }

    /// The message itself.
    #[must_use]
    pub fn payload(&self) -> &P {
        self
    }

    /// The message itself, to be changed.
    #[must_use]
    pub fn payload_mut(&mut self) -> &mut P {
        self
    }

    /// Sends the message.
    ///
    /// # Errors
    ///
    /// See [`SendError`]. With `UnableToDeliver` each connected subscriber that had room has taken the message;
    /// with `ConnectionError` and `ConnectionBrokenSinceSenderNoLongerExists` nobody has. The loan is consumed: with
    /// `PublisherIsBlocked` it was given back unsent, which [`send_or_keep`](Loan::send_or_keep) doesn't.
    #[inline(always)]
    pub fn send(self) -> Result<SendOutcome<P, M>, SendError> {
        let (mut receivers, mut blocked) = (0, MaybeUninit::uninit());
        let code = self.lent.hold.call(Brings::SEND, |shared| {
            send(shared, &self.lent.loan, &mut receivers, &mut blocked)
        });
        if code == sys::OK {
            drop(self.lent.into_hold());
            return Ok(SendOutcome::Delivered(receivers));
        }
        if code == sys::PUBLISHER_IS_BLOCKED {
            return Err(SendError::PublisherIsBlocked);
        }
        outcome(&self.lent.into_hold(), code, receivers, &blocked)
    }

    /// Sends the message into one channel of one connection of its publisher, and to nobody else. `connection`
    /// is what [`get_connection_id_of`](crate::Publisher::get_connection_id_of) says. It goes to nobody where
    /// there is no such connection, and where its subscriber or the channel is closed. Connections aren't
    /// updated, and the message enters no history. A message in another channel than 0 can't be received.
    ///
    /// ```
    /// use iox2_pubsub::{ChannelId, Domain};
    ///
    /// # fn main() -> Result<(), Box<dyn std::error::Error>> {
    /// let domain = Domain::<u64>::builder(7).max_subscribers(2).create()?;
    /// let (first, second) = (domain.subscriber()?, domain.subscriber()?);
    /// let publisher = domain.publisher()?;
    /// let to = publisher.get_connection_id_of(second.id()).expect("a connection");
    /// let loan = publisher.loan_uninit()?.write_payload(5);
    /// let sent = loan.deliver_offset_to_connection(ChannelId::default(), to)?;
    /// assert_eq!(sent.delivered(), Some(1));
    /// assert!(first.receive()?.is_none());
    /// assert_eq!(*second.receive()?.expect("a message"), 5);
    /// # Ok(())
    /// # }
    /// ```
    ///
    /// # Errors
    ///
    /// See [`SendError`]; `ConnectionError` isn't one of them. The loan is consumed: with `PublisherIsBlocked` and
    /// `NoSuchChannel` it was given back unsent.
    pub fn deliver_offset_to_connection(
        self,
        channel: ChannelId,
        connection: ConnectionId,
    ) -> Result<SendOutcome<P, M>, SendError> {
        let (mut receivers, mut blocked) = (0, MaybeUninit::uninit());
        // SAFETY: see `Shared::at`.
        let code = self.lent.hold.call(Brings::SEND, |shared| unsafe {
            sys::iox2ps_loan_deliver_offset_to_connection(
                shared.at(),
                &self.lent.loan,
                channel.value(),
                connection.value(),
                &mut receivers,
                blocked.as_mut_ptr(),
            )
        });
        match code {
            sys::PUBLISHER_IS_BLOCKED => Err(SendError::PublisherIsBlocked),
            sys::NO_SUCH_CHANNEL => Err(SendError::NoSuchChannel),
            code => outcome(&self.lent.into_hold(), code, receivers, &blocked),
        }
    }

    /// As [`send`](Loan::send), but where an earlier send of the publisher waits, the loan comes back.
    ///
    /// # Errors
    ///
    /// Those of [`send`](Loan::send), in [`Unsent`].
    pub fn send_or_keep(self) -> Result<SendOutcome<P, M>, Unsent<P, M>> {
        let (mut receivers, mut blocked) = (0, MaybeUninit::uninit());
        let code = self.lent.hold.call(Brings::SEND, |shared| {
            send(shared, &self.lent.loan, &mut receivers, &mut blocked)
        });
        self.sent_or_kept(code, receivers, &blocked)
    }

    fn sent_or_kept(
        self,
        code: u32,
        receivers: usize,
        blocked: &MaybeUninit<sys::Blocked>,
    ) -> Result<SendOutcome<P, M>, Unsent<P, M>> {
        if code == sys::OK {
            drop(self.lent.into_hold());
            return Ok(SendOutcome::Delivered(receivers));
        }
        if code == sys::PUBLISHER_IS_BLOCKED {
            return Err(Unsent {
                error: SendError::PublisherIsBlocked,
                loan: Some(self),
            });
        }
        let sent = outcome(&self.lent.into_hold(), code, receivers, blocked);
        sent.map_err(|error| Unsent { error, loan: None })
    }
}

pub(crate) fn discard(shared: &mut Shared, loan: &sys::Loan) -> u32 {
    // SAFETY: see `Shared::at`.
    unsafe { sys::iox2ps_loan_discard(shared.at(), loan) }
}

#[inline(always)]
pub(crate) fn send(
    shared: &mut Shared,
    loan: &sys::Loan,
    receivers: &mut usize,
    blocked: &mut MaybeUninit<sys::Blocked>,
) -> u32 {
    // SAFETY: see `Shared::at`.
    unsafe { sys::iox2ps_loan_send(shared.at(), loan, receivers, blocked.as_mut_ptr()) }
}

impl<P: Payload + ?Sized, M: Threads> Loan<P, M> {
    /// Sends the message as soon as no earlier send of its publisher waits, and tries until it has reached
    /// everybody. Where waits are stopped (`SharedDomain::stop_waits`) it is tried once, and what is still blocked is in
    /// what this returns.
    ///
    /// # Errors
    ///
    /// Those of [`send`](Loan::send); `PublisherIsBlocked` only where waits are stopped.
    pub fn blocking_send(self) -> Result<SendOutcome<P, M>, SendError>
    where
        M: MayWait,
    {
        Ok(self.send_until(None)?)
    }

    /// The same, for so long. What still waits then is in what this returns.
    ///
    /// # Errors
    ///
    /// Those of [`send`](Loan::send). With `PublisherIsBlocked` the loan comes back in [`Unsent`].
    pub fn timed_send(self, timeout: Duration) -> Result<SendOutcome<P, M>, Unsent<P, M>>
    where
        M: MayWait,
    {
        self.send_until(after(timeout))
    }

    fn send_until(self, until: Option<Instant>) -> Result<SendOutcome<P, M>, Unsent<P, M>>
    where
        M: MayWait,
    {
        let (mut receivers, mut blocked) = (0, MaybeUninit::uninit());
        let wait = Wait {
            what: Waits::Free,
            port: self.lent.loan.publisher,
            until,
            brings: Brings::SEND,
        };
        let code = self.lent.hold.wait(wait, |shared| {
            send(shared, &self.lent.loan, &mut receivers, &mut blocked)
        });
        if code == sys::OK {
            drop(self.lent.into_hold());
            return Ok(SendOutcome::Delivered(receivers));
        }
        self.not_sent_yet(code, &blocked, until)
    }

    // Apart, since a blocked send is large.
    #[cold]
    fn not_sent_yet(
        self,
        code: u32,
        blocked: &MaybeUninit<sys::Blocked>,
        until: Option<Instant>,
    ) -> Result<SendOutcome<P, M>, Unsent<P, M>>
    where
        M: MayWait,
    {
        self.sent_or_kept(code, 0, blocked)?
            .wait_until(until)
            .map_err(|error| Unsent { error, loan: None })
    }
}

impl<P: Payload + ?Sized, M: Threads> Deref for Loan<P, M> {
    type Target = P;

    #[inline]
    fn deref(&self) -> &P {
        // SAFETY: the bytes stay where they are and are this loan's alone until it is consumed, its domain
        // is there, and they are written.
        unsafe { &*self.payload }
    }
}

impl<P: Payload + ?Sized, M: Threads> DerefMut for Loan<P, M> {
    #[inline]
    fn deref_mut(&mut self) -> &mut P {
        // SAFETY: as above.
        unsafe { &mut *self.payload }
    }
}

impl<P: Payload + ?Sized + fmt::Debug, M: Threads> fmt::Debug for Loan<P, M> {
    fn fmt(&self, f: &mut fmt::Formatter<'_>) -> fmt::Result {
        f.debug_struct("Loan")
            .field("number", &self.number())
            .field("payload", &self.payload())
            .finish()
    }
}

/// A send that was refused: why, and the loan, where it isn't consumed.
pub struct Unsent<P: Payload + ?Sized, M: Threads = OneThread> {
    error: SendError,
    loan: Option<Loan<P, M>>,
}

impl<P: Payload + ?Sized, M: Threads> Unsent<P, M> {
    /// Why it was refused.
    #[must_use]
    pub fn error(&self) -> SendError {
        self.error
    }

    /// The loan as it was, where an earlier send of its publisher waits; else it is consumed.
    #[must_use]
    pub fn into_loan(self) -> Option<Loan<P, M>> {
        self.loan
    }
}

impl<P: Payload + ?Sized, M: Threads> From<Unsent<P, M>> for SendError {
    fn from(unsent: Unsent<P, M>) -> SendError {
        unsent.error
    }
}

impl<P: Payload + ?Sized, M: Threads> fmt::Debug for Unsent<P, M> {
    fn fmt(&self, f: &mut fmt::Formatter<'_>) -> fmt::Result {
        f.debug_struct("Unsent")
            .field("error", &self.error)
            .field("loan", &self.loan.as_ref().map(Loan::number))
            .finish()
    }
}

impl<P: Payload + ?Sized, M: Threads> fmt::Display for Unsent<P, M> {
    fn fmt(&self, f: &mut fmt::Formatter<'_>) -> fmt::Result {
        self.error.fmt(f)
    }
}

impl<P: Payload + ?Sized, M: Threads> Error for Unsent<P, M> {}
