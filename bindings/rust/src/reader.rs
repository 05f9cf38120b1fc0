// SPDX-License-Identifier: Apache-2.0 OR MIT
//! Reads one message after the other, and receives several in one hold of the lock.

use crate::desk::{Batch, Desk};
use crate::domain::config;
use crate::errors::ReceiveError;
use crate::payload::Payload;
use crate::shared::Shared;
use crate::subscriber::{wrong_length, Subscriber};
use crate::sys;
use crate::threads::{Brings, MayWait, OneThread, Place, Threads, WaitingPlace};
use crate::timeout::after;
use std::fmt;
use std::sync::Arc;
use std::time::{Duration, Instant};

// How many messages a reader takes at a time, unless it is said.
const CAPACITY: usize = 64;

/// Reads what comes to a subscriber, one message after the other, each where it lies. It takes all messages that wait in
/// one hold of the lock, up to its capacity, and gives them back when it takes the next. While it waits, a thread that
/// sends does this for it. So it costs less for each message than [`Subscriber::receive`], which takes the lock to
/// receive it and once more to give it back.
///
/// ```
/// use iox2_pubsub::Domain;
///
/// # fn main() -> Result<(), Box<dyn std::error::Error>> {
/// let domain = Domain::<u64>::builder(7).create_shared()?;
/// let (publisher, subscriber) = (domain.publisher()?, domain.subscriber()?);
/// let reads = std::thread::spawn(move || {
///     let mut reader = subscriber.reader();
///     let mut sum = 0;
///     while let Some(number) = reader.blocking_receive()? {
///         sum += number; // read where it lies, without the lock
///     }
///     Ok::<u64, iox2_pubsub::ReceiveError>(sum)
/// });
/// let mut writer = publisher.writer();
/// for number in 1..=2 {
///     writer.blocking_send(number)?.delivered();
/// }
/// domain.stop_waits(true);
/// assert_eq!(reads.join().unwrap()?, 3);
/// # Ok(())
/// # }
/// ```
///
/// What it has taken counts against what the subscriber may borrow, and waits no longer for others that share the
/// subscriber. What it hasn't read when it is dropped is given back with the rest, and so lost, as a
/// [`BufReader`](std::io::BufReader) loses its buffer. One of capacity 1 takes only what it reads.
pub struct Reader<'s, P: Payload + ?Sized, M: Threads = OneThread> {
    subscriber: &'s Subscriber<P, M>,
    desk: Arc<Desk>,
    // Whether others may make its turns.
    is_open: bool,
}

impl<P: Payload + ?Sized, M: Threads> Reader<'_, P, M> {
    fn batch(&self) -> &Batch {
        // SAFETY: it asks only within a call that borrows it mutably.
        unsafe { &*self.desk.batch() }
    }

    /// How many messages it has taken and not read yet.
    #[must_use]
    pub fn unread(&self) -> usize {
        self.batch().unread()
    }

    /// The next message, or `None` where none waits. It stays where it is until the next call.
    ///
    /// # Errors
    ///
    /// See [`ReceiveError`].
    pub fn receive(&mut self) -> Result<Option<&P>, ReceiveError> {
        self.next(|reader| {
            let turn = |shared: &mut Shared| reader.desk.turn(shared);
            reader.subscriber.hold.call(Brings::COPY, turn)
        })
    }

    // Reads on, and lets this take more where nothing is left.
    #[inline]
    fn next(&mut self, turn: impl FnOnce(&mut Self) -> u32) -> Result<Option<&P>, ReceiveError> {
        if self.unread() == 0 {
            match turn(self) {
                sys::OK => {}
                sys::NO_SAMPLE => return Ok(None),
                code => return Err(ReceiveError::of(code)),
            }
        }
        // SAFETY: it doesn't ask now.
        let batch = unsafe { &mut *self.desk.batch() };
        let got = &batch.taken[batch.read];
        batch.read += 1;
        match got.payload::<P>() {
            // SAFETY: the bytes were sent as a `P`. They stay where they are and aren't written until the message is given
            // back, by a later call.
            Some(payload) => Ok(Some(unsafe { &*payload })),
            None => Err(wrong_length()),
        }
    }
}

impl<P: Payload + ?Sized, M: Threads> Reader<'_, P, M> {
    /// Waits for a message. `None` where waits are stopped (`SharedDomain::stop_waits`) and none waits.
    ///
    /// # Errors
    ///
    /// See [`ReceiveError`].
    pub fn blocking_receive(&mut self) -> Result<Option<&P>, ReceiveError>
    where
        M: MayWait,
    {
        self.receive_until(|| None)
    }

    /// Waits for a message, for so long. `None` where none came, or waits are stopped.
    ///
    /// # Errors
    ///
    /// See [`ReceiveError`].
    pub fn timed_receive(&mut self, timeout: Duration) -> Result<Option<&P>, ReceiveError>
    where
        M: MayWait,
    {
        self.receive_until(|| after(timeout))
    }

    #[inline]
    fn receive_until(
        &mut self,
        until: impl FnOnce() -> Option<Instant>,
    ) -> Result<Option<&P>, ReceiveError>
    where
        M: MayWait,
    {
        self.next(|reader| reader.turn_until(until()))
    }

    fn turn_until(&mut self, until: Option<Instant>) -> u32
    where
        M: MayWait,
    {
        let (hold, desk) = (&self.subscriber.hold, &self.desk);
        // A message at a time comes sooner by a call of its own.
        let asks = self.batch().capacity > 1;
        if asks && !self.is_open {
            hold.open(desk);
            self.is_open = true;
        }
        if asks && hold.is_served(desk) {
            return sys::OK;
        }
        let wait = self.subscriber.wait_for_message(until, Brings::COPY);
        hold.wait(wait, |shared| desk.turn(shared))
    }
}

impl<P: Payload + ?Sized, M: Threads> Subscriber<P, M> {
    /// Reads one message after the other, and takes the lock once for all that wait: as many as the subscriber may
    /// borrow of one publisher, but not more than 64.
    pub fn reader(&self) -> Reader<'_, P, M> {
        let most = config(&*self.hold).subscriber_max_borrowed_samples;
        self.reader_with_capacity(most.min(CAPACITY))
    }

    /// The same, and takes at most this number at a time; 0 counts as 1. A number above what the subscriber may borrow
    /// of all publishers counts as that, and as 64 where there is no memory for so many.
    pub fn reader_with_capacity(&self, capacity: usize) -> Reader<'_, P, M> {
        let capacity = match capacity {
            0..=CAPACITY => capacity.max(1),
            _ => capacity.min(self.most_borrowed().max(CAPACITY)),
        };
        let desk = Desk::new(self.port, capacity)
            .or_else(|| Desk::new(self.port, CAPACITY))
            .expect("there is memory for a few messages");
        Reader {
            subscriber: self,
            desk: Arc::new(desk),
            is_open: false,
        }
    }

    // As many as it may borrow of each publisher that is open or kept.
    fn most_borrowed(&self) -> usize {
        let config = config(&*self.hold);
        let of_one = config.subscriber_max_borrowed_samples;
        let kept = config.subscriber_expired_connection_buffer.max(of_one);
        let publishers = config.max_publishers.saturating_add(kept);
        of_one.saturating_mul(publishers)
    }
}

// SAFETY: what it has taken are samples, which may go to other threads: see there.
unsafe impl<P: Payload + ?Sized + Send + Sync, M: MayWait> Send for Reader<'_, P, M> {}
// SAFETY: shared, it gives away numbers alone.
unsafe impl<P: Payload + ?Sized + Send + Sync, M: MayWait> Sync for Reader<'_, P, M> {}

impl<P: Payload + ?Sized, M: Threads> Drop for Reader<'_, P, M> {
    fn drop(&mut self) {
        let hold = &self.subscriber.hold;
        if self.is_open {
            hold.close(&self.desk);
        }
        // SAFETY: it doesn't ask, and is the reader's alone from now on.
        let batch = unsafe { &mut *self.desk.batch() };
        if !batch.taken.is_empty() {
            hold.call(Brings::LOAN, |shared| {
                batch.give_back(shared);
                sys::OK
            });
        }
    }
}

impl<P: Payload + ?Sized, M: Threads> fmt::Debug for Reader<'_, P, M> {
    fn fmt(&self, f: &mut fmt::Formatter<'_>) -> fmt::Result {
        f.debug_struct("Reader")
            .field("subscriber", &self.subscriber)
            .field("unread", &self.unread())
            .finish_non_exhaustive()
    }
}
