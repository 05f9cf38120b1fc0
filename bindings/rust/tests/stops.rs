// SPDX-License-Identifier: Apache-2.0 OR MIT
//! Whether waits are stopped, which the result of a call that found nothing doesn't tell.

mod turns;

use iox2_pubsub::{Domain, SendOutcome};
use std::thread;
use std::time::Duration;
use turns::{asleep_after, turns_of, Watched, TO_SLEEP};

#[test]
fn a_domain_says_what_was_said_last() {
    let domain = Domain::<u64>::builder(1).create_shared().unwrap();
    let clone = domain.clone();
    assert!(!domain.waits_are_stopped());
    for is_stopped in [true, true, false, true, false] {
        domain.stop_waits(is_stopped);
        assert_eq!(domain.waits_are_stopped(), is_stopped);
        assert_eq!(clone.borrowed().waits_are_stopped(), is_stopped);
    }
}

#[test]
fn a_loop_of_timed_calls_ends_without_spinning() {
    let domain = Domain::<u64>::builder(1);
    let domain = domain.create_with_lock::<Watched>().unwrap();
    let subscriber = domain.subscriber().unwrap();
    let calls = thread::scope(|scope| {
        let loops = asleep_after(scope, 1 + TO_SLEEP, || {
            let mut calls = 0;
            while !domain.waits_are_stopped() {
                calls += 1;
                let found = subscriber.timed_receive(Duration::from_secs(3600));
                assert!(found.unwrap().is_none());
            }
            calls
        });
        domain.stop_waits(true);
        loops.join()
    });
    assert_eq!(calls, 1);
}

#[test]
fn a_send_that_is_blocked_comes_back_at_once_where_waits_are_stopped() {
    let domain = Domain::<u64>::builder(1)
        .subscriber_max_buffer_size(1)
        .enable_safe_overflow(false)
        .create_with_lock::<Watched>()
        .unwrap();
    let (publisher, subscriber) = (domain.publisher().unwrap(), domain.subscriber().unwrap());
    publisher.send_copy(1).unwrap().delivered();
    domain.stop_waits(true);
    // The send and a retry, and a retry.
    let (sent, turns) = turns_of(|| publisher.blocking_send_copy(2).unwrap());
    assert_eq!(turns, 2);
    let (waited, turns) = turns_of(|| sent.blocking_wait().unwrap());
    assert_eq!(turns, 1);
    assert!(matches!(waited, SendOutcome::Blocked(_)));
    assert_eq!(subscriber.receive_copy().unwrap(), Some(1));
    assert_eq!(waited.blocking_wait().unwrap().delivered(), Some(1));
}
