// SPDX-License-Identifier: Apache-2.0 OR MIT
//! Where threads share a domain, a subscriber that comes late gets what its publishers keep at once.

mod turns;

use iox2_pubsub::{DegradationAction, Domain, DomainBuilder};
use std::sync::atomic::{AtomicUsize, Ordering};
use std::sync::Arc;
use std::thread;
use std::time::Duration;
use turns::{asleep_after, Watched, TO_SLEEP};

fn latching(history: usize) -> DomainBuilder<u64> {
    Domain::<u64>::builder(1)
        .history_size(history)
        .subscriber_max_buffer_size(history + 1)
}

// What the newcomers' program did: its publisher sends once, and then says nothing.
#[test]
fn a_latched_message_comes_to_who_waits() {
    let domain = latching(1).create_shared().unwrap();
    let publisher = domain.publisher().unwrap();
    publisher.send_copy(7).unwrap().delivered();
    let late = domain.subscriber().unwrap();
    assert_eq!(late.receive_copy().unwrap(), Some(7));
    thread::scope(|scope| {
        let waits = scope.spawn(|| {
            let later = domain.subscriber().unwrap();
            later.blocking_receive_copy()
        });
        assert_eq!(waits.join().unwrap(), Ok(Some(7)));
    });
}

#[test]
fn it_comes_from_each_publisher_and_by_borrowed_handles() {
    let domain = latching(2).create_shared().unwrap();
    let (first, borrowed) = (domain.publisher().unwrap(), domain.borrowed());
    let second = borrowed.publisher().unwrap();
    for number in 0..3 {
        first.send_copy(10 + number).unwrap().delivered();
        second.send_copy(20 + number).unwrap().delivered();
    }
    let late = borrowed.subscriber().unwrap();
    let mut got: Vec<u64> = late.iter().map(|sample| *sample.unwrap()).collect();
    got.sort_unstable();
    assert_eq!(got, [11, 12, 21, 22]);
    drop(second);
    let later = domain.subscriber().unwrap();
    let got: Vec<u64> = later.iter().map(|sample| *sample.unwrap()).collect();
    assert_eq!(got, [11, 12]);
}

// A domain of one thread stays as iceoryx2 is.
#[test]
fn in_a_domain_of_one_thread_it_comes_with_the_next_update() {
    let domain = latching(1).create().unwrap();
    let publisher = domain.publisher().unwrap();
    publisher.send_copy(7).unwrap().delivered();
    let late = domain.subscriber().unwrap();
    assert_eq!(late.receive_copy().unwrap(), None);
    publisher.update_connections().unwrap();
    assert_eq!(late.receive_copy().unwrap(), Some(7));
}

// Listeners are told of what the update brings.
#[test]
fn those_who_wait_are_woken() {
    let domain = latching(1).create_shared().unwrap();
    let publisher = domain.publisher().unwrap();
    let listens = domain.subscriber().unwrap();
    let calls = Arc::new(AtomicUsize::new(0));
    let counted = calls.clone();
    listens.set_listener(move || {
        counted.fetch_add(1, Ordering::SeqCst);
    });
    publisher.send_copy(1).unwrap().delivered();
    let before = calls.load(Ordering::SeqCst);
    let late = domain.subscriber().unwrap();
    assert_eq!(calls.load(Ordering::SeqCst), before + 1);
    assert_eq!(late.receive_copy().unwrap(), Some(1));
}

// A send waits for room, and ends later.
#[test]
fn a_publisher_whose_send_waits_refuses_no_subscriber() {
    let domain = latching(1).enable_safe_overflow(false);
    let domain = domain.create_shared().unwrap();
    let publisher = domain.publisher().unwrap();
    let first = domain.subscriber().unwrap();
    for number in 1..3 {
        publisher.send_copy(number).unwrap().delivered();
    }
    let blocked = publisher.send_copy(3).unwrap().blocked().unwrap();
    let late = domain.subscriber().unwrap();
    assert_eq!(late.receive_copy().unwrap(), None);
    assert_eq!(first.receive_copy().unwrap(), Some(1));
    assert_eq!(blocked.retry(Duration::ZERO).unwrap().delivered(), Some(1));
    publisher.update_connections().unwrap();
    assert_eq!(late.receive_copy().unwrap(), Some(3));
}

// A publisher that couldn't connect to a late subscriber does so where a loan of it waits for a slot. The loan doesn't get one, and
// who waits gets the history.
#[test]
fn an_update_for_a_loan_wakes_who_waits() {
    let domain = latching(1).enable_safe_overflow(false);
    let domain = domain.subscriber_max_buffer_size(1);
    let domain = domain.create_with_lock::<Watched>().unwrap();
    let two_slots = domain.publisher_builder();
    let two_slots = two_slots.override_sample_preallocation(|_| 2);
    let publisher = two_slots.create().unwrap();
    let first = domain.subscriber().unwrap();
    publisher.send_copy(1).unwrap().delivered();
    let blocked = publisher.send_copy(2).unwrap().blocked().unwrap();
    let late = domain.subscriber().unwrap();
    let sample = first.receive().unwrap().unwrap();
    assert_eq!(blocked.retry(Duration::ZERO).unwrap().delivered(), Some(1));
    thread::scope(|scope| {
        let receive = || late.blocking_receive_copy().unwrap();
        let receives = asleep_after(scope, TO_SLEEP, receive);
        let lends = asleep_after(scope, TO_SLEEP, || {
            publisher.blocking_loan_uninit().map(drop)
        });
        assert_eq!(receives.join(), Some(2));
        drop(sample);
        assert_eq!(lends.join(), Ok(()));
    });
}

// A connection with a buffer of this length needs more memory than there are addresses.
const TOO_LONG: usize = 1 << 50;

#[test]
fn an_update_that_fails_refuses_no_subscriber() {
    let settings = latching(1).subscriber_max_buffer_size(TOO_LONG);
    let domain = settings.create_shared().unwrap();
    let publisher = domain
        .publisher_builder()
        .override_sample_preallocation(|_| 4)
        .set_degradation_handler(DegradationAction::DegradeAndFail)
        .create()
        .unwrap();
    let long = domain.subscriber().unwrap();
    // Once by its own update, and once by the publisher's.
    assert_eq!(domain.refused_connections(), 2);
    drop(long);
    publisher.send_copy(1).unwrap().delivered();
    let late = domain.subscriber_builder().buffer_size(2).create().unwrap();
    assert_eq!(late.receive_copy().unwrap(), Some(1));
}
