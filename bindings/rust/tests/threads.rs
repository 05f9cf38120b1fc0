// SPDX-License-Identifier: Apache-2.0 OR MIT
//! Domains that several threads use, by safe Rust alone.

mod turns;

use iox2_pubsub::{
    BackpressureStrategy, BlockedSend, Domain, DomainBuilder, Loan, LoanUninit, ManyThreads,
    OneThread, Publisher, Sample, SendOutcome, SharedDomain, Subscriber, Threads,
};
use std::ops::ControlFlow;
use std::sync::mpsc;
use std::thread;
use std::time::{Duration, Instant};
use turns::{asleep_after, stopped_after, Watched, WatchedThreads, TO_SLEEP};

type Message = [u64; 8];

const MOMENT: Duration = Duration::from_millis(20);

fn message(number: u64) -> Message {
    [number; 8]
}

fn read(message: &Message) -> u64 {
    assert!(message.iter().all(|word| *word == message[0]));
    message[0]
}

fn domain() -> DomainBuilder<Message> {
    Domain::<Message>::builder(1)
}

// Whose full buffers block.
fn settings(buffer: usize) -> DomainBuilder<Message> {
    domain()
        .enable_safe_overflow(false)
        .backpressure_strategy(BackpressureStrategy::RetryUntilDelivered)
        .subscriber_max_buffer_size(buffer)
}

fn keeping(buffer: usize) -> SharedDomain<Message> {
    settings(buffer).create_shared().unwrap()
}

fn watched(buffer: usize) -> Domain<Message, WatchedThreads> {
    settings(buffer).create_with_lock::<Watched>().unwrap()
}

fn blocked<M: Threads>(sent: SendOutcome<Message, M>) -> BlockedSend<Message, M> {
    match sent {
        SendOutcome::Blocked(blocked) => blocked,
        other => panic!("{other:?}"),
    }
}

#[test]
fn handles_go_to_other_threads() {
    fn goes<T: Send + Sync>() {}
    goes::<SharedDomain<Message>>();
    goes::<Publisher<Message, ManyThreads>>();
    goes::<Subscriber<[u8], ManyThreads>>();
    goes::<Loan<Message, ManyThreads>>();
    goes::<LoanUninit<[u8], ManyThreads>>();
    goes::<Sample<Message, ManyThreads>>();
    goes::<BlockedSend<Message, ManyThreads>>();
    goes::<SendOutcome<[u8], ManyThreads>>();
    // OneThread is the default, and the old name of the type.
    let _: Option<Domain<u8>> = None::<Domain<u8, OneThread>>;
}

#[test]
fn a_loan_and_a_sample_cross_threads_in_place() {
    let domain = domain().create_shared().unwrap();
    let subscriber = domain.subscriber().unwrap();
    let publisher = domain.publisher().unwrap();
    let loan = publisher.loan_uninit().unwrap();
    let written = thread::spawn(move || {
        let loan = loan.write_payload(message(7));
        let place = loan.payload() as *const Message as usize;
        assert_eq!(loan.send().unwrap().delivered(), Some(1));
        place
    });
    let written = written.join().unwrap();
    let sample = subscriber.receive().unwrap().unwrap();
    assert_eq!(&*sample as *const Message as usize, written);
    // Several threads read one sample, while this one sends on in other slots.
    thread::scope(|scope| {
        for _ in 0..3 {
            scope.spawn(|| (0..1000).for_each(|_| assert_eq!(read(&sample), 7)));
        }
        for number in 8..200 {
            publisher.send_copy(message(number)).unwrap().delivered();
        }
    });
    // It outlives its ports, and goes on another thread.
    drop((publisher, subscriber));
    let observer = domain.clone();
    assert_eq!(observer.book_count(), 1);
    thread::spawn(move || assert_eq!(read(&sample), 7))
        .join()
        .unwrap();
    assert_eq!(observer.book_count(), 0);
}

#[test]
fn a_receive_waits_for_a_message() {
    let domain = watched(2);
    let subscriber = domain.subscriber().unwrap();
    let publisher = domain.publisher().unwrap();
    thread::scope(|scope| {
        let receives = asleep_after(scope, TO_SLEEP, || {
            let sample = subscriber.blocking_receive().unwrap().unwrap();
            let copy = subscriber.blocking_receive_copy().unwrap().unwrap();
            (read(&sample), read(&copy))
        });
        publisher.send_copy(message(1)).unwrap().delivered();
        // It has received the first, and sleeps again.
        receives.has_had(TO_SLEEP + 1 + TO_SLEEP);
        let loan = publisher.loan_uninit().unwrap().write_payload(message(2));
        loan.send().unwrap().delivered();
        assert_eq!(receives.join(), (1, 2));
    });
}

#[test]
fn what_comes_while_a_thread_falls_asleep_is_not_missed() {
    let domain = watched(1);
    let subscriber = domain.subscriber().unwrap();
    let publisher = domain.publisher().unwrap();
    thread::scope(|scope| {
        // It has tried, and isn't in the list of those who wait.
        let receive = || subscriber.blocking_receive_copy().unwrap();
        let receives = stopped_after(scope, 1, receive);
        publisher.send_copy(message(1)).unwrap().delivered();
        receives.go_on();
        assert_eq!(receives.join(), Some(message(1)));
    });
    publisher.send_copy(message(2)).unwrap().delivered();
    thread::scope(|scope| {
        // It is blocked, has tried again, and isn't in the list.
        let send = || publisher.blocking_send_copy(message(3)).unwrap();
        let sends = stopped_after(scope, 2, send);
        assert_eq!(subscriber.receive_copy().unwrap(), Some(message(2)));
        sends.go_on();
        assert_eq!(sends.join().delivered(), Some(1));
    });
}

#[test]
fn a_receive_waits_for_so_long() {
    let domain = domain().create_shared().unwrap();
    let subscriber = domain.subscriber().unwrap();
    let started = Instant::now();
    assert!(subscriber.timed_receive(MOMENT).unwrap().is_none());
    assert!(started.elapsed() >= MOMENT);
    assert!(subscriber
        .timed_receive_copy(Duration::ZERO)
        .unwrap()
        .is_none());
    let publisher = domain.publisher().unwrap();
    publisher.send_copy(message(3)).unwrap().delivered();
    // What waits already is given at once, whatever the time.
    assert_eq!(
        subscriber
            .timed_receive_copy(Duration::ZERO)
            .unwrap()
            .map(|m| read(&m)),
        Some(3)
    );
    publisher.send_copy(message(4)).unwrap().delivered();
    let sample = subscriber.timed_receive(Duration::MAX).unwrap().unwrap();
    assert_eq!(read(&sample), 4);
}

#[test]
fn stopping_ends_all_waits() {
    let domain = watched(1);
    let publisher = domain.publisher().unwrap();
    let full = domain.subscriber().unwrap();
    publisher.send_copy(message(1)).unwrap().delivered();
    let waiting_send = blocked(publisher.send_copy(message(2)).unwrap());
    let idle = domain.publisher().unwrap();
    let subscriber = domain.subscriber().unwrap();
    assert!(subscriber.receive().unwrap().is_none());
    thread::scope(|scope| {
        let receives = asleep_after(scope, TO_SLEEP, || subscriber.blocking_iter().count());
        let sends = asleep_after(scope, TO_SLEEP, || waiting_send.blocking_retry().unwrap());
        domain.stop_waits(true);
        assert_eq!(receives.join(), 0);
        drop(blocked(sends.join()));
    });
    // Nothing waits now, and what is there is found all the same.
    assert!(subscriber.blocking_receive().unwrap().is_none());
    idle.send_copy(message(5)).unwrap().delivered();
    assert_eq!(read(&subscriber.blocking_receive().unwrap().unwrap()), 5);
    domain.stop_waits(false);
    assert!(subscriber.timed_receive(MOMENT).unwrap().is_none());
    drop(full);
}

#[test]
fn a_send_waits_for_room() {
    let domain = watched(1);
    let publisher = domain.publisher().unwrap();
    let subscriber = domain.subscriber().unwrap();
    publisher.send_copy(message(1)).unwrap().delivered();
    let started = Instant::now();
    let sent = publisher.timed_send_copy(message(2), MOMENT).unwrap();
    assert!(started.elapsed() >= MOMENT);
    let waits = blocked(sent);
    thread::scope(|scope| {
        let retry = || waits.blocking_retry().unwrap().delivered();
        let sends = asleep_after(scope, TO_SLEEP, retry);
        assert_eq!(read(&subscriber.receive().unwrap().unwrap()), 1);
        assert_eq!(sends.join(), Some(1));
    });
    assert_eq!(read(&subscriber.receive().unwrap().unwrap()), 2);
}

#[test]
fn a_send_waits_no_longer_for_a_subscriber_that_goes() {
    let domain = watched(1);
    let publisher = domain.publisher().unwrap();
    let subscriber = domain.subscriber().unwrap();
    publisher.send_copy(message(1)).unwrap().delivered();
    thread::scope(|scope| {
        // It is blocked first.
        let send = || publisher.blocking_send_copy(message(2)).unwrap();
        let sends = asleep_after(scope, 1 + TO_SLEEP, send);
        drop(subscriber);
        assert_eq!(sends.join().delivered(), Some(0));
    });
}

#[test]
fn a_send_that_waits_again_has_reached_those_before() {
    let domain = watched(1);
    let publisher = domain.publisher().unwrap();
    let subscribers: Vec<_> = (0..3).map(|_| domain.subscriber().unwrap()).collect();
    publisher.send_copy(message(1)).unwrap().delivered();
    assert_eq!(read(&subscribers[1].receive().unwrap().unwrap()), 1);
    let waits = blocked(publisher.send_copy(message(2)).unwrap());
    thread::scope(|scope| {
        let receive = || subscribers[1].blocking_receive_copy().unwrap();
        let reads = asleep_after(scope, TO_SLEEP, receive);
        let retry = || waits.blocking_retry().unwrap().delivered();
        let sends = asleep_after(scope, TO_SLEEP, retry);
        assert_eq!(read(&subscribers[0].receive().unwrap().unwrap()), 1);
        assert_eq!(reads.join().map(|m| read(&m)), Some(2));
        assert!(!sends.is_finished());
        assert_eq!(read(&subscribers[2].receive().unwrap().unwrap()), 1);
        assert_eq!(sends.join(), Some(3));
    });
}

#[test]
fn a_send_that_ends_lets_the_next_of_its_publisher_go() {
    for _ in 0..50 {
        let domain = watched(1);
        let publisher = domain.publisher().unwrap();
        let subscriber = domain.subscriber().unwrap();
        publisher.send_copy(message(1)).unwrap().delivered();
        let first = blocked(publisher.send_copy(message(2)).unwrap());
        thread::scope(|scope| {
            let send = || publisher.blocking_send_copy(message(3)).unwrap();
            let second = asleep_after(scope, TO_SLEEP, send);
            let retry = || first.blocking_retry().unwrap().delivered();
            let first = asleep_after(scope, TO_SLEEP, retry);
            drop(subscriber);
            assert_eq!(first.join(), Some(0));
            assert_eq!(second.join().delivered(), Some(0));
        });
    }
}

#[test]
fn sends_of_one_publisher_wait_for_each_other() {
    let domain = watched(1);
    let publisher = domain.publisher().unwrap();
    let subscriber = domain.subscriber().unwrap();
    let loan = publisher.loan_uninit().unwrap().write_payload(message(3));
    publisher.send_copy(message(1)).unwrap().delivered();
    let first = blocked(publisher.send_copy(message(2)).unwrap());
    let loan = loan.send_or_keep().unwrap_err().into_loan().unwrap();
    thread::scope(|scope| {
        let send = || loan.blocking_send().unwrap().delivered();
        let second = asleep_after(scope, TO_SLEEP, send);
        let third = asleep_after(scope, TO_SLEEP, || {
            let sent = publisher.blocking_send_copy(message(4)).unwrap();
            sent.delivered()
        });
        let retry = || first.blocking_retry().unwrap().delivered();
        let first = asleep_after(scope, TO_SLEEP, retry);
        let mut received = Vec::new();
        while received.len() < 4 {
            received.push(
                subscriber
                    .blocking_receive_copy()
                    .unwrap()
                    .map(|m| read(&m))
                    .unwrap(),
            );
        }
        assert_eq!(received[..2], [1, 2]);
        received.sort_unstable();
        assert_eq!(received, [1, 2, 3, 4]);
        for send in [first, second, third] {
            assert_eq!(send.join(), Some(1));
        }
    });
}

#[test]
fn a_publisher_that_goes_while_its_send_waits_closes_then() {
    let domain = keeping(1);
    let publisher = domain.publisher().unwrap();
    let subscriber = domain.subscriber().unwrap();
    publisher.send_copy(message(1)).unwrap().delivered();
    let waits = blocked(publisher.send_copy(message(2)).unwrap());
    thread::spawn(move || drop(publisher)).join().unwrap();
    let sends = thread::spawn(move || waits.blocking_retry().unwrap().delivered());
    assert_eq!(read(&subscriber.blocking_receive().unwrap().unwrap()), 1);
    assert_eq!(sends.join().unwrap(), Some(1));
    assert_eq!(read(&subscriber.blocking_receive().unwrap().unwrap()), 2);
    assert!(subscriber.receive().unwrap().is_none());
    assert_eq!(domain.book_count(), 0);
}

#[test]
fn a_thread_that_panics_gives_back_what_it_has() {
    let domain = keeping(1);
    let publisher = domain.publisher().unwrap();
    let subscriber = domain.subscriber().unwrap();
    publisher.send_copy(message(1)).unwrap().delivered();
    let sample = subscriber.receive().unwrap().unwrap();
    let loan = publisher.loan_uninit().unwrap();
    publisher.send_copy(message(2)).unwrap().delivered();
    let waits = blocked(publisher.send_copy(message(3)).unwrap());
    let panics = thread::spawn(move || {
        let _all = (sample, loan, waits);
        panic!("as this test wants it");
    });
    assert!(panics.join().is_err());
    // The send was given up, the loan and the sample are back, and the lock isn't poisoned.
    assert!(!publisher.is_blocked());
    assert_eq!(read(&subscriber.receive().unwrap().unwrap()), 2);
    let loans = [
        publisher.loan_uninit().unwrap(),
        publisher.loan_uninit().unwrap(),
    ];
    assert!(publisher.loan_uninit().is_err());
    drop(loans);
    publisher.send_copy(message(4)).unwrap().delivered();
    assert_eq!(read(&subscriber.receive().unwrap().unwrap()), 4);
}

#[test]
fn each_of_four_threads_gets_all_in_order() {
    const MESSAGES: u64 = 2000;
    let domain = keeping(2);
    let publishers = [domain.publisher().unwrap(), domain.publisher().unwrap()];
    let subscribers: Vec<_> = (0..4).map(|_| domain.subscriber().unwrap()).collect();
    thread::scope(|scope| {
        for (of, publisher) in publishers.iter().enumerate() {
            scope.spawn(move || {
                for number in 0..MESSAGES {
                    let mut loan = publisher.loan_uninit().unwrap().write_payload(message(0));
                    loan.fill(number << 1 | of as u64);
                    let sent = loan.send().unwrap().blocking_wait().unwrap();
                    assert_eq!(sent.delivered(), Some(4));
                }
            });
        }
        for subscriber in &subscribers {
            scope.spawn(move || {
                let mut next = [0, 0];
                for sample in subscriber.blocking_iter().take(2 * MESSAGES as usize) {
                    let value = read(&sample.unwrap());
                    let of = (value & 1) as usize;
                    assert_eq!(value >> 1, next[of]);
                    next[of] += 1;
                }
                assert_eq!(next, [MESSAGES; 2]);
            });
        }
    });
}

#[test]
fn threads_share_the_messages_of_one_subscriber() {
    const MESSAGES: u64 = 2000;
    let domain = keeping(4);
    let publisher = domain.publisher().unwrap();
    let subscriber = domain.subscriber().unwrap();
    let (tell, told) = mpsc::channel();
    thread::scope(|scope| {
        for _ in 0..3 {
            let (tell, subscriber) = (tell.clone(), &subscriber);
            scope.spawn(move || {
                while let Some(copy) = subscriber.blocking_receive_copy().unwrap() {
                    tell.send(read(&copy)).unwrap();
                }
            });
        }
        for number in 0..MESSAGES {
            publisher
                .blocking_send_copy(message(number))
                .unwrap()
                .delivered();
        }
        let mut all: Vec<u64> = told.iter().take(MESSAGES as usize).collect();
        domain.stop_waits(true);
        all.sort_unstable();
        assert!(all.into_iter().eq(0..MESSAGES));
    });
}

#[test]
fn each_message_is_given_back_when_the_next_is_asked_for() {
    let domain = keeping(4);
    let publisher = domain.publisher().unwrap();
    let subscriber = domain.subscriber().unwrap();
    thread::scope(|scope| {
        let reads = scope.spawn(|| {
            let mut all = Vec::new();
            let ended = subscriber.blocking_for_each(|message| {
                all.push(read(message));
                ControlFlow::Continue(())
            });
            ended.map(|()| all)
        });
        for number in 0..100 {
            publisher
                .blocking_send_copy(message(number))
                .unwrap()
                .delivered();
        }
        while subscriber.has_samples().unwrap() {
            thread::yield_now();
        }
        domain.stop_waits(true);
        assert_eq!(reads.join().unwrap(), Ok((0..100).collect()));
    });
    // Where the function panics, the message is given back too.
    publisher.send_copy(message(100)).unwrap().delivered();
    let panics = thread::scope(|scope| {
        scope
            .spawn(|| subscriber.blocking_for_each(|_| panic!("as this test wants it")))
            .join()
            .is_err()
    });
    assert!(panics);
    for number in 0..3 {
        publisher.send_copy(message(number)).unwrap().delivered();
    }
    let samples: Vec<_> = (0..2)
        .map(|_| subscriber.receive().unwrap().unwrap())
        .collect();
    assert_eq!(
        samples
            .iter()
            .map(|sample| read(sample))
            .collect::<Vec<_>>(),
        [0, 1]
    );
}
