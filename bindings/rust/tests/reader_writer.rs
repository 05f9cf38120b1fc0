// SPDX-License-Identifier: Apache-2.0 OR MIT
//! Readers and writers, which take the lock once for several calls.

mod turns;

use iox2_pubsub::{
    BackpressureStrategy, Borrowed, Domain, DomainBuilder, LoanError, ManyThreads, MayWait,
    Payload, Publisher, Reader, ReceiveError, SendError, SendOutcome, SharedDomain, Subscriber,
    Threads, Writer,
};
use std::sync::mpsc;
use std::thread::{self, Scope};
use std::time::{Duration, Instant};
use turns::{asleep_after, stopped_after, Watch, Watched, WatchedThreads, TO_SLEEP};

const MOMENT: Duration = Duration::from_millis(20);

// Whose full buffers block.
fn settings(buffer: usize, borrowed: usize) -> DomainBuilder<u64> {
    Domain::<u64>::builder(1)
        .enable_safe_overflow(false)
        .backpressure_strategy(BackpressureStrategy::RetryUntilDelivered)
        .subscriber_max_buffer_size(buffer)
        .subscriber_max_borrowed_samples(borrowed)
}

fn keeping(buffer: usize, borrowed: usize) -> SharedDomain<u64> {
    settings(buffer, borrowed).create_shared().unwrap()
}

fn watched(buffer: usize, borrowed: usize) -> Domain<u64, WatchedThreads> {
    let settings = settings(buffer, borrowed);
    settings.create_with_lock::<Watched>().unwrap()
}

fn is_delivered<P: Payload + ?Sized, M: Threads>(
    sent: Result<SendOutcome<P, M>, SendError>,
) -> bool {
    sent.unwrap().delivered().is_some()
}

fn next<M: Threads>(reader: &mut Reader<'_, u64, M>) -> Option<u64> {
    reader.receive().unwrap().copied()
}

// Two producers and four consumers. Each consumer gets all in order.
fn all_in_order<M: MayWait>(domain: &Domain<u64, M>, capacity: usize, messages: u64)
where
    Publisher<u64, M>: Sync,
    Subscriber<u64, M>: Sync,
{
    let publishers = [domain.publisher().unwrap(), domain.publisher().unwrap()];
    let subscribers: Vec<_> = (0..4).map(|_| domain.subscriber().unwrap()).collect();
    thread::scope(|scope| {
        for (of, publisher) in publishers.iter().enumerate() {
            scope.spawn(move || {
                let mut writer = publisher.writer();
                for number in 0..messages {
                    let sent = writer.blocking_send(number << 1 | of as u64).unwrap();
                    assert_eq!(sent.delivered(), Some(4));
                }
            });
        }
        for subscriber in &subscribers {
            scope.spawn(move || {
                let mut reader = subscriber.reader_with_capacity(capacity);
                let mut next = [0, 0];
                for _ in 0..2 * messages {
                    let value = *reader.blocking_receive().unwrap().unwrap();
                    assert_eq!(value >> 1, next[(value & 1) as usize]);
                    next[(value & 1) as usize] += 1;
                }
                assert_eq!(next, [messages; 2]);
            });
        }
    });
}

#[test]
fn each_reader_gets_all_in_order() {
    for (buffer, borrowed, capacity) in [(1, 1, 1), (2, 2, 2), (8, 3, 64), (64, 64, 64), (4, 8, 0)]
    {
        let domain = keeping(buffer, borrowed);
        // With short buffers the threads wait for each other at each message.
        let messages = if buffer < 8 { 500 } else { 3000 };
        all_in_order(&domain, capacity, messages);
        all_in_order(&domain.borrowed(), capacity, messages);
        assert_eq!((domain.book_count(), domain.connection_count()), (0, 0));
    }
}

#[test]
fn they_go_to_other_threads() {
    fn goes<T: Send + Sync>() {}
    goes::<Reader<'_, u64, ManyThreads>>();
    goes::<Reader<'_, [u8], Borrowed<'_, ManyThreads>>>();
    goes::<Writer<'_, u64, ManyThreads>>();
    goes::<Writer<'_, u64, Borrowed<'_, ManyThreads>>>();
}

#[test]
fn a_reader_takes_what_waits_at_once() {
    let domain = keeping(8, 3);
    let (publisher, subscriber) = (domain.publisher().unwrap(), domain.subscriber().unwrap());
    let mut reader = subscriber.reader();
    assert_eq!(next(&mut reader), None);
    for number in 0..5 {
        assert!(is_delivered(publisher.send_copy(number)));
    }
    let mut unread = Vec::new();
    for number in 0..5 {
        assert_eq!(next(&mut reader), Some(number));
        unread.push(reader.unread());
        assert_eq!(subscriber.has_samples().unwrap(), number < 3);
    }
    assert_eq!(unread, [2, 1, 0, 1, 0]);
    assert_eq!(next(&mut reader), None);
    // One of capacity 1 leaves the others where they are.
    let mut reader = subscriber.reader_with_capacity(1);
    for number in 5..7 {
        assert!(is_delivered(publisher.send_copy(number)));
    }
    assert_eq!(next(&mut reader), Some(5));
    drop(reader);
    assert_eq!(subscriber.receive_copy().unwrap(), Some(6));
}

#[test]
fn a_message_is_read_where_it_lies() {
    let domain = Domain::<[u64]>::slice_builder(1)
        .max_slice_len(3)
        .create()
        .unwrap();
    let (publisher, subscriber) = (domain.publisher().unwrap(), domain.subscriber().unwrap());
    let loan = publisher.loan_slice_uninit(3).unwrap();
    let loan = loan.write_from_slice(&[1, 2, 3]);
    let place = loan.payload().as_ptr();
    assert!(is_delivered(loan.send()));
    let mut reader = subscriber.reader();
    let read = reader.receive().unwrap().unwrap();
    assert_eq!(read, [1, 2, 3]);
    assert_eq!(read.as_ptr(), place);
}

// A publisher of one slot.
fn of_one_slot<M: Threads>(domain: &Domain<u64, M>) -> Publisher<u64, M> {
    let builder = domain.publisher_builder();
    builder
        .override_sample_preallocation(|_| 1)
        .create()
        .unwrap()
}

#[test]
fn what_was_read_is_given_back_by_the_next_call() {
    let domain = settings(2, 2).create().unwrap();
    let (publisher, subscriber) = (of_one_slot(&domain), domain.subscriber().unwrap());
    let mut reader = subscriber.reader();
    for number in 0..3 {
        assert!(is_delivered(publisher.send_copy(number)));
        assert_eq!(next(&mut reader), Some(number));
        assert_eq!(publisher.loan().unwrap_err(), LoanError::OutOfMemory);
        assert_eq!(next(&mut reader), None);
        assert!(publisher.loan().is_ok());
    }
}

#[test]
fn a_reader_that_is_dropped_gives_all_back() {
    let domain = watched(4, 4);
    let (publisher, subscriber) = (domain.publisher().unwrap(), domain.subscriber().unwrap());
    for number in 0..4 {
        assert!(is_delivered(publisher.send_copy(number)));
    }
    let mut reader = subscriber.reader();
    assert_eq!(next(&mut reader), Some(0));
    assert_eq!(reader.unread(), 3);
    drop(publisher);
    assert_eq!(domain.book_count(), 1);
    drop(reader);
    assert_eq!(domain.book_count(), 0);
    // Also where a thread panics, and a loan that waits for the slot goes on.
    let publisher = of_one_slot(&domain);
    assert!(is_delivered(publisher.send_copy(4)));
    let mut reader = subscriber.reader();
    assert_eq!(next(&mut reader), Some(4));
    thread::scope(|scope| {
        let lends = asleep_after(scope, TO_SLEEP, || {
            publisher.blocking_loan_uninit().map(drop)
        });
        let panics = scope.spawn(move || {
            let _reader = reader;
            panic!("as this test wants it");
        });
        assert!(panics.join().is_err());
        assert_eq!(lends.join(), Ok(()));
    });
}

#[test]
fn samples_that_are_kept_count_against_a_reader() {
    let domain = settings(8, 3).create().unwrap();
    let (publisher, subscriber) = (domain.publisher().unwrap(), domain.subscriber().unwrap());
    for number in 0..8 {
        assert!(is_delivered(publisher.send_copy(number)));
    }
    let mut kept: Vec<_> = (0..2)
        .map(|_| subscriber.receive().unwrap().unwrap())
        .collect();
    let mut reader = subscriber.reader();
    assert_eq!(next(&mut reader), Some(2));
    assert_eq!(reader.unread(), 0);
    let refused = subscriber.receive().unwrap_err();
    assert_eq!(refused, ReceiveError::ExceedsMaxBorrows);
    assert_eq!(next(&mut reader), Some(3));
    drop(reader);
    kept.push(subscriber.receive().unwrap().unwrap());
    let mut reader = subscriber.reader();
    for _ in 0..2 {
        let refused = reader.receive().unwrap_err();
        assert_eq!(refused, ReceiveError::ExceedsMaxBorrows);
    }
    kept.clear();
    for number in 5..8 {
        assert_eq!(next(&mut reader), Some(number));
    }
}

#[test]
fn a_reader_waits_for_so_long_and_until_waits_are_stopped() {
    let domain = keeping(4, 2);
    let (publisher, subscriber) = (domain.publisher().unwrap(), domain.subscriber().unwrap());
    let mut reader = subscriber.reader();
    let started = Instant::now();
    assert_eq!(reader.timed_receive(MOMENT).unwrap(), None);
    assert!(started.elapsed() >= MOMENT);
    assert_eq!(reader.timed_receive(Duration::ZERO).unwrap(), None);
    thread::scope(|scope| {
        let reads = scope.spawn(move || {
            let mut all = Vec::new();
            while let Some(number) = reader.blocking_receive().unwrap() {
                all.push(*number);
            }
            (all, reader)
        });
        for number in 0..3 {
            assert!(is_delivered(publisher.send_copy(number)));
        }
        domain.stop_waits(true);
        let (all, mut reader) = reads.join().unwrap();
        assert_eq!(all, [0, 1, 2]);
        // What waits is read all the same.
        for number in 3..6 {
            assert!(is_delivered(publisher.send_copy(number)));
        }
        for number in 3..6 {
            assert_eq!(reader.blocking_receive().unwrap(), Some(&number));
        }
        assert_eq!(reader.blocking_receive().unwrap(), None);
        domain.stop_waits(false);
        assert!(is_delivered(publisher.send_copy(6)));
        assert_eq!(reader.timed_receive(Duration::MAX).unwrap(), Some(&6));
    });
}

#[test]
fn a_slot_that_a_waiting_reader_gives_back_frees_a_loan() {
    let domain = watched(1, 1);
    let (publisher, subscriber) = (of_one_slot(&domain), domain.subscriber().unwrap());
    let mut reader = subscriber.reader();
    assert!(is_delivered(publisher.send_copy(0)));
    assert_eq!(reader.blocking_receive().unwrap(), Some(&0));
    for number in 1..3 {
        thread::scope(|scope| {
            let send = || is_delivered(publisher.writer().blocking_send(number));
            let sends = asleep_after(scope, TO_SLEEP, send);
            assert_eq!(reader.blocking_receive().unwrap(), Some(&number));
            assert!(sends.join());
        });
    }
}

// ---- what another thread does for a reader that asks: each reader here has asked, and waits before the lock

// How often a reader's first wait takes the lock before it asks: that others may serve it.
const TO_ASK: usize = 1;

// A thread that reads `N` messages, and stops after that many turns.
fn stopped_reader<'s, const N: usize>(
    scope: &'s Scope<'s, '_>,
    turns: usize,
    subscriber: &'s Subscriber<u64, WatchedThreads>,
) -> Watch<'s, [Option<u64>; N]> {
    let mut reader = subscriber.reader();
    let mut read = move || reader.blocking_receive().unwrap().copied();
    stopped_after(scope, turns, move || [(); N].map(|()| read()))
}

#[test]
fn what_a_reader_has_stays_when_it_does_not_ask() {
    let domain = keeping(4, 4);
    let (publisher, subscriber) = (domain.publisher().unwrap(), domain.subscriber().unwrap());
    let mut reader = subscriber.reader();
    assert_eq!(reader.timed_receive(Duration::ZERO).unwrap(), None);
    for number in 0..2 {
        assert!(is_delivered(publisher.send_copy(number)));
    }
    assert_eq!(reader.blocking_receive().unwrap(), Some(&0));
    assert_eq!(reader.unread(), 1);
    assert!(is_delivered(publisher.send_copy(2)));
    assert_eq!(reader.unread(), 1);
    for number in 1..3 {
        assert_eq!(reader.blocking_receive().unwrap(), Some(&number));
    }
}

#[test]
fn what_a_reader_is_served_before_it_has_the_lock_is_read_once() {
    let domain = watched(2, 2);
    let (publisher, subscriber) = (domain.publisher().unwrap(), domain.subscriber().unwrap());
    thread::scope(|scope| {
        let reads = stopped_reader(scope, TO_ASK, &subscriber);
        // The first is served, and the second waits in the buffer.
        for number in 0..2 {
            assert!(is_delivered(publisher.send_copy(number)));
            assert_eq!(subscriber.has_samples().unwrap(), number == 1);
        }
        reads.go_on();
        assert_eq!(reads.join(), [Some(0), Some(1)]);
    });
}

// The retry that finds the buffer full takes what waits there for the reader. It goes on then, though the reader takes no more.
#[test]
fn a_blocked_send_goes_on_when_it_has_made_room() {
    let domain = watched(1, 2);
    let (publisher, subscriber) = (domain.publisher().unwrap(), domain.subscriber().unwrap());
    assert!(is_delivered(publisher.send_copy(0)));
    thread::scope(|scope| {
        // It has lent and is blocked, and waits before the retry.
        let send = || is_delivered(publisher.writer().blocking_send(1));
        let sends = stopped_after(scope, 2, send);
        let reads = stopped_reader(scope, TO_ASK, &subscriber);
        sends.go_on();
        assert!(sends.join());
        reads.go_on();
        assert_eq!(reads.join(), [Some(0), Some(1)]);
    });
}

#[test]
fn a_blocked_send_goes_on_when_another_has_made_room() {
    let domain = watched(1, 2);
    let (publisher, subscriber) = (domain.publisher().unwrap(), domain.subscriber().unwrap());
    let other = domain.publisher().unwrap();
    assert!(is_delivered(publisher.send_copy(0)));
    thread::scope(|scope| {
        let send = || is_delivered(publisher.writer().blocking_send(1));
        let sends = asleep_after(scope, 2 + TO_SLEEP, send);
        let reads = stopped_reader(scope, TO_ASK, &subscriber);
        assert!(is_delivered(other.send_copy(2)));
        assert!(sends.join());
        reads.go_on();
        assert_eq!(reads.join(), [Some(0), Some(2), Some(1)]);
    });
}

// What it has read is given back by the loan that finds no slot, which serves the reader.
#[test]
fn a_loan_goes_on_when_it_has_freed_its_slot() {
    let domain = watched(2, 2);
    let (publisher, subscriber) = (of_one_slot(&domain), domain.subscriber().unwrap());
    assert!(is_delivered(publisher.send_copy(0)));
    thread::scope(|scope| {
        // It asks for the first one too, and takes it itself.
        let reads = stopped_reader(scope, TO_ASK + 1, &subscriber);
        assert!(is_delivered(publisher.writer().blocking_send(1)));
        reads.go_on();
        assert_eq!(reads.join(), [Some(0), Some(1)]);
    });
}

#[test]
fn the_loan_that_is_ready_counts() {
    let domain = settings(8, 2).create().unwrap();
    let builder = domain.publisher_builder().max_loaned_samples(1);
    let (publisher, subscriber) = (builder.create().unwrap(), domain.subscriber().unwrap());
    let mut writer = publisher.writer();
    let out = publisher.loan().unwrap();
    for _ in 0..2 {
        let refused = writer.send(7).unwrap_err();
        assert_eq!(refused, SendError::LoanError(LoanError::ExceedsMaxLoans));
    }
    drop(out);
    for number in 0..3 {
        assert!(is_delivered(writer.send(number)));
        assert_eq!(publisher.loan().unwrap_err(), LoanError::ExceedsMaxLoans);
    }
    drop(writer);
    assert!(publisher.loan().is_ok());
    let received: Vec<u64> = subscriber.iter().map(|sample| *sample.unwrap()).collect();
    assert_eq!(received, [0, 1, 2]);
}

#[test]
fn a_writer_is_blocked_by_a_full_buffer() {
    let domain = keeping(1, 2);
    let (publisher, subscriber) = (domain.publisher().unwrap(), domain.subscriber().unwrap());
    let mut writer = publisher.writer();
    assert!(is_delivered(writer.send(0)));
    let blocked = writer.send(1).unwrap().blocked().unwrap();
    for _ in 0..2 {
        assert_eq!(writer.send(2).unwrap_err(), SendError::PublisherIsBlocked);
    }
    let refused = writer.timed_send(2, MOMENT).unwrap_err();
    assert_eq!(refused, SendError::PublisherIsBlocked);
    assert_eq!(subscriber.receive_copy().unwrap(), Some(0));
    assert!(is_delivered(blocked.retry(Duration::ZERO)));
    assert_eq!(subscriber.receive_copy().unwrap(), Some(1));
    assert!(is_delivered(writer.send(3)));
    // A loan that is ready stays so while another send waits.
    let blocked = publisher.send_copy(4).unwrap().blocked().unwrap();
    for _ in 0..2 {
        assert_eq!(writer.send(5).unwrap_err(), SendError::PublisherIsBlocked);
    }
    let refused = writer.timed_send(5, MOMENT).unwrap_err();
    assert_eq!(refused, SendError::PublisherIsBlocked);
    assert_eq!(subscriber.receive_copy().unwrap(), Some(3));
    assert!(is_delivered(blocked.retry(Duration::ZERO)));
    assert_eq!(subscriber.receive_copy().unwrap(), Some(4));
    assert!(is_delivered(writer.send(6)));
    // What waits when the time is up is in what it returns.
    let still = writer.timed_send(7, MOMENT).unwrap().blocked().unwrap();
    assert_eq!(still.give_up().unwrap().delivered(), Some(0));
    assert_eq!(subscriber.receive_copy().unwrap(), Some(6));
    // None of its loans is out any longer.
    drop(writer);
    let _two = [publisher.loan().unwrap(), publisher.loan().unwrap()];
}

#[test]
fn a_writer_waits_for_room_for_a_loan_and_for_an_earlier_send() {
    let domain = watched(1, 2);
    let builder = domain.publisher_builder().max_loaned_samples(1);
    let (publisher, subscriber) = (builder.create().unwrap(), domain.subscriber().unwrap());
    let send = |number| is_delivered(publisher.writer().blocking_send(number));
    let receive = |number| assert_eq!(subscriber.receive_copy().unwrap(), Some(number));
    assert!(send(0));
    thread::scope(|scope| {
        // It lends, and is blocked.
        let sends = asleep_after(scope, 2 + TO_SLEEP, || send(1));
        receive(0);
        assert!(sends.join());
    });
    receive(1);
    let out = publisher.loan().unwrap();
    thread::scope(|scope| {
        let sends = asleep_after(scope, TO_SLEEP, || send(2));
        drop(out);
        assert!(sends.join());
    });
    // It waits for the earlier send to end, and then for room.
    let blocked = publisher.send_copy(3).unwrap().blocked().unwrap();
    thread::scope(|scope| {
        let sends = asleep_after(scope, TO_SLEEP, || send(4));
        receive(2); // which may have freed a slot
        sends.has_had(2 * TO_SLEEP);
        assert!(is_delivered(blocked.retry(Duration::ZERO)));
        sends.has_had(2 * TO_SLEEP + 2 + TO_SLEEP);
        assert!(!sends.is_finished());
        receive(3);
        assert!(sends.join());
    });
    receive(4);
}

#[test]
fn a_message_of_a_writer_wakes_a_reader() {
    let domain = watched(2, 2);
    let (publisher, subscriber) = (domain.publisher().unwrap(), domain.subscriber().unwrap());
    let (tell, told) = mpsc::channel();
    thread::scope(|scope| {
        let mut reader = subscriber.reader();
        let reads = asleep_after(scope, TO_ASK + TO_SLEEP, move || {
            while let Some(number) = reader.blocking_receive().unwrap() {
                tell.send(*number).unwrap();
            }
        });
        let mut writer = publisher.writer();
        for number in 0..9 {
            let sent = match number % 3 {
                0 => writer.send(number),
                1 => writer.blocking_send(number),
                _ => writer.timed_send(number, MOMENT),
            };
            assert!(is_delivered(sent));
            assert_eq!(told.recv(), Ok(number));
            // It has taken the message, and sleeps again.
            let turns = TO_SLEEP + (number as usize + 1) * (1 + TO_SLEEP);
            reads.has_had(TO_ASK + turns);
        }
        domain.stop_waits(true);
    });
}

#[test]
fn a_stop_ends_the_waits_of_a_writer() {
    let domain = watched(1, 2);
    let (publisher, subscriber) = (domain.publisher().unwrap(), domain.subscriber().unwrap());
    let mut writer = publisher.writer();
    assert!(is_delivered(writer.send(0)));
    thread::scope(|scope| {
        let sends = asleep_after(scope, 1 + TO_SLEEP, move || {
            let waits = writer.blocking_send(1).unwrap().blocked().is_some();
            (waits, writer)
        });
        domain.stop_waits(true);
        let (waits, mut writer) = sends.join();
        assert!(waits);
        assert_eq!(subscriber.receive_copy().unwrap(), Some(0));
        assert!(is_delivered(writer.blocking_send(2)));
        assert_eq!(subscriber.receive_copy().unwrap(), Some(2));
    });
}

#[test]
fn messages_of_no_bytes() {
    let domain = Domain::<()>::builder(1).create_shared().unwrap();
    let (publisher, subscriber) = (domain.publisher().unwrap(), domain.subscriber().unwrap());
    let (mut writer, mut reader) = (publisher.writer(), subscriber.reader());
    for _ in 0..3 {
        assert!(is_delivered(writer.blocking_send(())));
        assert_eq!(reader.blocking_receive().unwrap(), Some(&()));
    }
    assert_eq!(reader.receive().unwrap(), None);
}
