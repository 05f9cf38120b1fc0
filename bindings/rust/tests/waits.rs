// SPDX-License-Identifier: Apache-2.0 OR MIT
//! Calls that wait for loans, waits that are stopped, times of all lengths, and domains that go meanwhile.

mod turns;

use iox2_pubsub::{
    BackpressureStrategy, Domain, DomainBuilder, LoanError, Publisher, SendError, SharedDomain,
    Subscriber,
};
use std::ops::ControlFlow;
use std::sync::atomic::{AtomicUsize, Ordering};
use std::sync::mpsc;
use std::thread;
use std::time::Duration;
use turns::{asleep_after, turns_of, Watched, WatchedThreads, TO_SLEEP};

const MOMENT: Duration = Duration::from_millis(20);

// Whose full buffers block.
fn settings(buffer: usize) -> DomainBuilder<u64> {
    Domain::<u64>::builder(1)
        .enable_safe_overflow(false)
        .backpressure_strategy(BackpressureStrategy::RetryUntilDelivered)
        .subscriber_max_buffer_size(buffer)
        .subscriber_max_borrowed_samples(8)
}

fn keeping(buffer: usize) -> SharedDomain<u64> {
    settings(buffer).create_shared().unwrap()
}

fn watched(buffer: usize) -> Domain<u64, WatchedThreads> {
    settings(buffer).create_with_lock::<Watched>().unwrap()
}

// A publisher of one slot.
fn of_one_slot(domain: &Domain<u64, WatchedThreads>) -> Publisher<u64, WatchedThreads> {
    let builder = domain.publisher_builder();
    builder
        .override_sample_preallocation(|_| 1)
        .create()
        .unwrap()
}

// A thread waits for a loan, and has it once `ends` has been called.
fn lends_after(publisher: &Publisher<u64, WatchedThreads>, ends: impl FnOnce()) {
    thread::scope(|scope| {
        let lend = || publisher.blocking_loan_uninit().map(drop);
        let lends = asleep_after(scope, TO_SLEEP, lend);
        ends();
        assert_eq!(lends.join(), Ok(()));
    });
}

#[test]
fn a_loan_waits_for_a_loan_that_is_given_back_or_sent() {
    let domain = watched(2);
    let publisher = domain.publisher().unwrap();
    let mut out = vec![publisher.loan().unwrap(), publisher.loan().unwrap()];
    assert_eq!(
        publisher.timed_loan_uninit(MOMENT).unwrap_err(),
        LoanError::ExceedsMaxLoans
    );
    lends_after(&publisher, || drop(out.pop()));
    out.push(publisher.loan().unwrap());
    let sent = out.pop().unwrap();
    lends_after(&publisher, || {
        assert_eq!(sent.send().unwrap().delivered(), Some(0));
    });
}

#[test]
fn a_loan_waits_for_a_slot_that_is_released() {
    let domain = watched(2);
    let publisher = of_one_slot(&domain);
    let subscriber = domain.subscriber().unwrap();
    publisher.send_copy(1).unwrap().delivered();
    let sample = subscriber.receive().unwrap().unwrap();
    assert_eq!(
        publisher.timed_loan_uninit(MOMENT).unwrap_err(),
        LoanError::OutOfMemory
    );
    assert_eq!(
        publisher.timed_send_copy(2, MOMENT).unwrap_err(),
        SendError::LoanError(LoanError::OutOfMemory)
    );
    lends_after(&publisher, || drop(sample));
    publisher.send_copy(3).unwrap().delivered();
    lends_after(&publisher, || {
        assert_eq!(subscriber.receive_copy().unwrap(), Some(3));
    });
    publisher.send_copy(4).unwrap().delivered();
    lends_after(&publisher, || drop(subscriber));
}

// What is read where it lies is given back in the call that waits for the next: so a loan that waits for its slot goes on.
#[test]
fn a_loan_waits_for_a_slot_that_comes_back_while_the_next_message_is_waited_for() {
    let domain = watched(1);
    let publisher = of_one_slot(&domain);
    let subscriber = domain.subscriber().unwrap();
    publisher.send_copy(0).unwrap().delivered();
    let mut next = 0;
    thread::scope(|scope| {
        let publisher = &publisher;
        let read = |number: &u64| {
            assert_eq!(*number, next);
            next += 1;
            if next == 3 {
                return ControlFlow::Break(());
            }
            let number = next;
            asleep_after(scope, TO_SLEEP, move || {
                let sent = publisher.blocking_send_copy(number).unwrap();
                assert_eq!(sent.delivered(), Some(1));
            });
            ControlFlow::Continue(())
        };
        subscriber.blocking_for_each(read).unwrap();
    });
    assert_eq!(next, 3);
}

#[test]
fn a_loan_waits_for_the_end_of_a_send() {
    let domain = watched(1);
    let publisher = domain.publisher().unwrap();
    let subscriber = domain.subscriber().unwrap();
    publisher.send_copy(1).unwrap().delivered();
    let blocked = publisher.send_copy(2).unwrap().blocked().unwrap();
    assert_eq!(
        publisher.timed_loan_uninit(MOMENT).unwrap_err(),
        LoanError::PublisherIsBlocked
    );
    lends_after(&publisher, || {
        assert_eq!(blocked.give_up().unwrap().delivered(), Some(0));
    });
    let blocked = publisher.send_copy(3).unwrap().blocked().unwrap();
    lends_after(&publisher, || {
        assert_eq!(subscriber.receive_copy().unwrap(), Some(1));
        let retried = blocked.retry(Duration::ZERO).unwrap();
        assert_eq!(retried.delivered(), Some(1));
    });
    let blocked = publisher.send_copy(4).unwrap().blocked().unwrap();
    lends_after(&publisher, || drop(blocked));
}

#[test]
fn a_loan_of_a_slice_waits_and_one_that_is_too_long_does_not() {
    let domain = Domain::<[u8]>::slice_builder(1)
        .max_slice_len(4)
        .create_shared()
        .unwrap();
    let publisher = domain.publisher().unwrap();
    let _out = [
        publisher.loan_slice(4).unwrap(),
        publisher.loan_slice(4).unwrap(),
    ];
    assert_eq!(
        publisher.blocking_loan_slice_uninit(5).unwrap_err(),
        LoanError::ExceedsMaxLoanSize
    );
    assert_eq!(
        publisher.timed_loan_slice_uninit(4, MOMENT).unwrap_err(),
        LoanError::ExceedsMaxLoans
    );
    domain.stop_waits(true);
    assert_eq!(
        publisher.blocking_loan_slice_uninit(4).unwrap_err(),
        LoanError::ExceedsMaxLoans
    );
}

#[test]
fn many_threads_lend_and_send_by_one_publisher() {
    const EACH: u64 = 500;
    let domain = keeping(2);
    let publisher = domain
        .publisher_builder()
        .max_loaned_samples(1)
        .create()
        .unwrap();
    let subscriber = domain.subscriber().unwrap();
    thread::scope(|scope| {
        for of in 0..8 {
            let publisher = &publisher;
            scope.spawn(move || {
                for number in 0..EACH {
                    let loan = publisher.blocking_loan_uninit().unwrap();
                    let loan = loan.write_payload(of * EACH + number);
                    let sent = loan.blocking_send().unwrap();
                    assert_eq!(sent.delivered(), Some(1));
                }
            });
        }
        let mut all: Vec<u64> = (0..8 * EACH)
            .map(|_| subscriber.blocking_receive_copy().unwrap().unwrap())
            .collect();
        all.sort_unstable();
        assert!(all.into_iter().eq(0..8 * EACH));
    });
}

#[test]
fn each_of_sixteen_that_wait_is_woken() {
    let settings = Domain::<u64>::builder(1).max_subscribers(16);
    let domain = settings.create_with_lock::<Watched>().unwrap();
    let publisher = domain.publisher().unwrap();
    let subscribers: Vec<_> = (0..16).map(|_| domain.subscriber().unwrap()).collect();
    for round in 0..20 {
        thread::scope(|scope| {
            let receive = |subscriber| {
                asleep_after(scope, TO_SLEEP, move || {
                    let subscriber: &Subscriber<u64, _> = subscriber;
                    subscriber.blocking_receive_copy().unwrap()
                })
            };
            let receives: Vec<_> = subscribers.iter().map(receive).collect();
            assert_eq!(publisher.send_copy(round).unwrap().delivered(), Some(16));
            for one in receives {
                assert_eq!(one.join(), Some(round));
            }
        });
    }
}

#[test]
fn threads_of_one_subscriber_get_each_message_once_though_their_time_is_up() {
    const MESSAGES: usize = 800;
    let domain = keeping(4);
    let publisher = domain.publisher().unwrap();
    let subscriber = domain.subscriber().unwrap();
    let received = AtomicUsize::new(0);
    thread::scope(|scope| {
        for thread in 0..6 {
            let (received, subscriber) = (&received, &subscriber);
            scope.spawn(move || {
                while received.load(Ordering::SeqCst) < MESSAGES {
                    let time = Duration::from_micros(30 * thread);
                    if subscriber.timed_receive(time).unwrap().is_some() {
                        received.fetch_add(1, Ordering::SeqCst);
                    }
                }
            });
        }
        for number in 0..MESSAGES as u64 {
            publisher.blocking_send_copy(number).unwrap().delivered();
        }
    });
    assert_eq!(received.load(Ordering::SeqCst), MESSAGES);
}

#[test]
fn one_message_wakes_no_thread_for_good() {
    let domain = watched(4);
    let publisher = domain.publisher().unwrap();
    let subscriber = domain.subscriber().unwrap();
    let (tell, told) = mpsc::channel();
    thread::scope(|scope| {
        for _ in 0..3 {
            let (tell, subscriber) = (tell.clone(), &subscriber);
            asleep_after(scope, TO_SLEEP, move || {
                while let Some(number) = subscriber.blocking_receive_copy().unwrap() {
                    tell.send(number).unwrap();
                }
            });
        }
        for number in 0..100 {
            publisher.send_copy(number).unwrap().delivered();
            assert_eq!(told.recv(), Ok(number));
        }
        domain.stop_waits(true);
    });
}

#[test]
fn waits_are_stopped_twice_and_taken_back() {
    let domain = watched(1);
    let subscriber = domain.subscriber().unwrap();
    let publisher = domain.publisher().unwrap();
    for _ in 0..2 {
        domain.stop_waits(true);
        domain.stop_waits(true);
        assert_eq!(subscriber.blocking_receive_copy().unwrap(), None);
        domain.stop_waits(false);
        domain.stop_waits(false);
        thread::scope(|scope| {
            let receive = || subscriber.blocking_receive_copy().unwrap();
            let receives = asleep_after(scope, TO_SLEEP, receive);
            publisher.send_copy(7).unwrap().delivered();
            assert_eq!(receives.join(), Some(7));
        });
    }
    // Many waits at a time are stopped, and taken back at once: each ends or goes on.
    thread::scope(|scope| {
        let receive = || subscriber.blocking_receive_copy().unwrap();
        let waits: Vec<_> = (0..8)
            .map(|_| asleep_after(scope, TO_SLEEP, receive))
            .collect();
        domain.stop_waits(true);
        domain.stop_waits(false);
        // Each has tried again, and returned or sleeps again.
        for wait in &waits {
            wait.has_had(TO_SLEEP + 1);
        }
        domain.stop_waits(true);
        for wait in waits {
            assert_eq!(wait.join(), None);
        }
    });
}

#[test]
fn times_of_zero_and_of_the_greatest_length() {
    let domain = watched(1);
    let subscriber = domain.subscriber().unwrap();
    let publisher = domain.publisher().unwrap();
    let zero = Duration::ZERO;
    // With a time of zero each call takes the lock once.
    assert_eq!(
        turns_of(|| subscriber.timed_receive_copy(zero)),
        (Ok(None), 1)
    );
    let (received, turns) = turns_of(|| subscriber.timed_receive(zero));
    assert_eq!((received.unwrap().is_none(), turns), (true, 1));
    let (first, turns) = turns_of(|| publisher.timed_send_copy(1, zero));
    assert_eq!((first.unwrap().delivered(), turns), (Some(1), 1));
    let loan = publisher.timed_loan_uninit(zero).unwrap().write_payload(2);
    let (second, turns) = turns_of(|| loan.timed_send(zero).unwrap().timed_wait(zero).unwrap());
    // The send, and two retries.
    assert_eq!(turns, 3);
    let (blocked, turns) = turns_of(|| second.blocked().unwrap().timed_retry(zero).unwrap());
    assert_eq!(turns, 1);
    let blocked = blocked.blocked().unwrap();
    let (refused, turns) = turns_of(|| publisher.timed_loan_uninit(zero).unwrap_err());
    assert_eq!((refused, turns), (LoanError::PublisherIsBlocked, 1));
    let greatest = Duration::MAX;
    thread::scope(|scope| {
        let retries = scope.spawn(|| blocked.timed_retry(greatest).unwrap().delivered());
        let sends = scope.spawn(|| {
            let loan = publisher.timed_loan_uninit(greatest).unwrap();
            let sent = loan.write_payload(3).timed_send(greatest).unwrap();
            sent.delivered()
        });
        for number in 1..4 {
            let received = subscriber.timed_receive_copy(greatest).unwrap();
            assert_eq!(received, Some(number));
        }
        assert_eq!(retries.join().unwrap(), Some(1));
        assert_eq!(sends.join().unwrap(), Some(1));
    });
}

#[test]
fn a_loan_comes_back_where_the_time_is_up() {
    let domain = keeping(1);
    let publisher = domain.publisher().unwrap();
    let subscriber = domain.subscriber().unwrap();
    let loan = publisher.loan_uninit().unwrap().write_payload(3);
    publisher.send_copy(1).unwrap().delivered();
    let blocked = publisher.send_copy(2).unwrap().blocked().unwrap();
    let unsent = loan.timed_send(MOMENT).unwrap_err();
    assert_eq!(unsent.error(), SendError::PublisherIsBlocked);
    assert_eq!(
        unsent.to_string(),
        SendError::PublisherIsBlocked.to_string()
    );
    let loan = unsent.into_loan().unwrap();
    domain.stop_waits(true);
    assert_eq!(
        loan.blocking_send().unwrap_err(),
        SendError::PublisherIsBlocked
    );
    drop(blocked);
    // That loan is consumed, so that two may be lent.
    let _two = [publisher.loan().unwrap(), publisher.loan().unwrap()];
    assert_eq!(subscriber.receive_copy().unwrap(), Some(1));
}

#[test]
fn a_domain_that_is_dropped_while_others_wait_stays_for_them() {
    let domain = watched(1);
    let publisher = domain.publisher().unwrap();
    let subscriber = domain.subscriber().unwrap();
    thread::scope(|scope| {
        let receives = asleep_after(scope, TO_SLEEP, move || {
            let first = subscriber.blocking_receive_copy().unwrap();
            let second = subscriber.blocking_receive().unwrap();
            (first, second.map(|sample| *sample))
        });
        drop(domain);
        assert!(!receives.is_finished());
        publisher.send_copy(1).unwrap().delivered();
        publisher.blocking_send_copy(2).unwrap().delivered();
        drop(publisher);
        assert_eq!(receives.join(), (Some(1), Some(2)));
    });
}
