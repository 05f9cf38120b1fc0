// SPDX-License-Identifier: Apache-2.0 OR MIT
//! Whom a call wakes. A thread that was woken for nothing stops before the lock here: then the next that is due isn't woken, since
//! another is about to come back. So no test has to see that something doesn't happen.

mod turns;

use iox2_pubsub::{
    ChannelError, ChannelId, ConnectionFailure, ConnectionId, Domain, LoanError, Publisher,
    PublisherCreateError, ReceiveError, SendError, Subscriber, SubscriberCreateError,
    CHANNEL_STATE_OPEN,
};
use std::sync::atomic::{AtomicUsize, Ordering};
use std::sync::Arc;
use std::thread;
use std::time::Duration;
use turns::{asleep_after, asleep_and_stopped, Watched, WatchedThreads, TO_SLEEP};

type Watching<T> = Domain<T, WatchedThreads>;

// Whose full buffers of one message block.
fn watched(publishers: usize, subscribers: usize) -> Watching<u64> {
    let settings = Domain::<u64>::builder(1)
        .enable_safe_overflow(false)
        .subscriber_max_buffer_size(1)
        .subscriber_max_borrowed_samples(1)
        .max_publishers(publishers)
        .max_subscribers(subscribers);
    settings.create_with_lock::<Watched>().unwrap()
}

// How often a message may have come for the subscriber.
fn heard_by(subscriber: &Subscriber<u64, WatchedThreads>) -> Arc<AtomicUsize> {
    let heard = Arc::new(AtomicUsize::new(0));
    let counted = heard.clone();
    subscriber.set_listener(move || {
        counted.fetch_add(1, Ordering::SeqCst);
    });
    heard
}

// Two threads wait for a loan that doesn't come, and a message wakes the one that waits for it.
fn two_wait_for_a_loan(of_one_slot: bool) {
    let domain = watched(2, 1);
    let other = domain.publisher().unwrap();
    let builder = domain.publisher_builder();
    let publisher = match of_one_slot {
        true => builder.override_sample_preallocation(|_| 1).create(),
        false => builder.create(),
    };
    let publisher = publisher.unwrap();
    let subscriber = domain.subscriber().unwrap();
    let heard = heard_by(&subscriber);
    let mut out = Vec::new();
    while let Ok(loan) = publisher.loan() {
        out.push(loan);
    }
    thread::scope(|scope| {
        let receive = || subscriber.blocking_receive_copy().unwrap();
        let receives = asleep_after(scope, TO_SLEEP, receive);
        let lend = || publisher.blocking_loan_uninit().map(drop).unwrap();
        let send = || publisher.blocking_send_copy(8).map(drop).unwrap();
        let two = [
            asleep_and_stopped(scope, lend),
            asleep_and_stopped(scope, send),
        ];
        assert_eq!(heard.load(Ordering::SeqCst), 0);
        assert_eq!(other.send_copy(7).unwrap().delivered(), Some(1));
        assert_eq!(receives.join(), Some(7));
        out.clear();
        for one in two {
            one.go_on();
            one.join();
        }
    });
    assert_eq!(heard.load(Ordering::SeqCst), 2);
}

#[test]
fn threads_that_wait_for_a_loan_do_not_wake_each_other() {
    two_wait_for_a_loan(false);
    two_wait_for_a_loan(true);
}

// A send waits for two subscribers one after the other. A retry that goes on from the first to the second is blocked still, and wakes
// who waits at a subscriber between them.
#[test]
fn a_retry_wakes_whom_it_reaches() {
    let domain = watched(1, 3);
    let publisher = domain.publisher().unwrap();
    let subscribers = [0; 3].map(|_| domain.subscriber().unwrap());
    let [first, between, last] = &subscribers;
    assert_eq!(publisher.send_copy(1).unwrap().delivered(), Some(3));
    assert_eq!(between.receive_copy(), Ok(Some(1)));
    let blocked = publisher.send_copy(2).unwrap().blocked().unwrap();
    assert_eq!(blocked.subscriber(), first.id());
    thread::scope(|scope| {
        let receive = || between.blocking_receive_copy().unwrap();
        let receives = asleep_after(scope, TO_SLEEP, receive);
        assert_eq!(first.receive_copy(), Ok(Some(1)));
        let blocked = blocked.retry(Duration::ZERO).unwrap().blocked().unwrap();
        assert_eq!(blocked.subscriber(), last.id());
        assert_eq!(receives.join(), Some(2));
        assert_eq!(last.receive_copy(), Ok(Some(1)));
        assert_eq!(blocked.retry(Duration::ZERO).unwrap().delivered(), Some(3));
    });
}

// Of each sort one call that is refused.
fn are_refused(
    domain: &Watching<u64>,
    (full, lends): (
        &Publisher<u64, WatchedThreads>,
        &Publisher<u64, WatchedThreads>,
    ),
    (held, empty): (
        &Subscriber<u64, WatchedThreads>,
        &Subscriber<u64, WatchedThreads>,
    ),
) {
    let made = domain.publisher().map(drop);
    let too_many = PublisherCreateError::ExceedsMaxSupportedPublishers;
    assert_eq!(made, Err(too_many));
    let made = domain.subscriber().map(drop);
    let too_many = SubscriberCreateError::ExceedsMaxSupportedSubscribers;
    assert_eq!(made, Err(too_many));
    let too_many = LoanError::ExceedsMaxLoans;
    assert_eq!(lends.loan().map(drop), Err(too_many));
    let lent = lends.timed_loan_uninit(Duration::ZERO).map(drop);
    assert_eq!(lent, Err(too_many));
    let sent = lends.send_copy(1).map(|sent| sent.delivered());
    assert_eq!(sent, Err(SendError::LoanError(too_many)));
    let sent = full.send_copy(1).map(|sent| sent.delivered());
    assert_eq!(sent, Err(SendError::PublisherIsBlocked));
    assert_eq!(full.loan().map(drop), Err(LoanError::PublisherIsBlocked));
    let updated = full.update_connections();
    assert_eq!(updated, Err(ConnectionFailure::PublisherIsBlocked));
    let too_many = ReceiveError::ExceedsMaxBorrows;
    assert_eq!(held.receive().map(drop), Err(too_many));
    assert_eq!(held.receive_copy(), Err(too_many));
    assert_eq!(held.reader().receive(), Err(too_many));
    assert_eq!(empty.receive_copy(), Ok(None));
    assert_eq!(empty.timed_receive_copy(Duration::ZERO), Ok(None));
    assert_eq!(empty.reader().receive(), Ok(None));
    let closed = held.close_channel(ChannelId::new(9), CHANNEL_STATE_OPEN);
    assert_eq!(closed, Err(ChannelError::NoSuchChannel));
    let closed = full.close_channel(ChannelId::new(9), ConnectionId::new(0), CHANNEL_STATE_OPEN);
    assert_eq!(closed, Err(ChannelError::NoSuchChannel));
}

#[test]
fn a_refused_call_wakes_nobody() {
    let domain = watched(3, 2);
    let publishers = [0; 3].map(|_| domain.publisher().unwrap());
    let [first, full, lends] = &publishers;
    let held = domain.subscriber().unwrap();
    let samples = [full, first].map(|publisher| {
        assert_eq!(publisher.send_copy(1).unwrap().delivered(), Some(1));
        let sample = held.receive().unwrap().unwrap();
        assert_eq!(publisher.send_copy(2).unwrap().delivered(), Some(1));
        sample
    });
    let unsent = full.loan_uninit().unwrap().write_payload(4);
    let waits = full.send_copy(3).unwrap().blocked().unwrap();
    let woken = first.send_copy(3).unwrap().blocked().unwrap();
    let _out = [lends.loan().unwrap(), lends.loan().unwrap()];
    let empty = domain.subscriber().unwrap();
    let heard = heard_by(&empty);
    thread::scope(|scope| {
        // The first that waits goes on where another is woken only after it.
        let next = asleep_after(scope, TO_SLEEP, || woken.blocking_retry().map(drop));
        let receives = asleep_and_stopped(scope, || empty.blocking_receive_copy().map(drop));
        let retries = asleep_and_stopped(scope, || waits.blocking_retry().map(drop));
        let sends = asleep_and_stopped(scope, || unsent.blocking_send().map(drop));
        let loans = asleep_and_stopped(scope, || lends.blocking_loan_uninit().map(drop));
        are_refused(&domain, (full, lends), (&held, &empty));
        assert_eq!(heard.load(Ordering::SeqCst), 0);
        held.close_channel(ChannelId::default(), CHANNEL_STATE_OPEN)
            .unwrap();
        next.has_had(TO_SLEEP + 1);
        domain.stop_waits(true);
        receives.go_on();
        retries.go_on();
        sends.go_on();
        loans.go_on();
        assert_eq!(receives.join(), Ok(()));
        retries.join().unwrap();
        assert_eq!(loans.join(), Err(LoanError::ExceedsMaxLoans));
        let _ = sends.join();
        next.join().unwrap();
    });
    drop(samples);
}
