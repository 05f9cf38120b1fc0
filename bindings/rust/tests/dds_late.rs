// SPDX-License-Identifier: Apache-2.0 OR MIT
//! Whoever comes late to a domain with a gateway misses nothing. `bindings/dds/tests/near_gateway.c` stands in for the gateway, so
//! that a test says what comes when.
#![cfg(feature = "dds")]

mod turns;

use iox2_pubsub::dds::{Gateway, Settings};
use iox2_pubsub::Domain;
use std::thread;
use turns::{asleep_after, stopped_after, Watched, WatchedThreads, TO_SLEEP};

fn with_history() -> Domain<u64, WatchedThreads> {
    let settings = Domain::<u64>::builder(7).history_size(1).max_publishers(3);
    settings.create_with_lock::<Watched>().unwrap()
}

#[test]
#[ignore = "wants near_gateway.c in place of the gateway"]
fn a_late_subscriber_has_what_came_before() {
    let domain = with_history();
    let _own = domain.publisher().unwrap();
    let gateway = Gateway::open(&domain, Settings::default()).unwrap();
    assert_eq!(gateway.forward().received, 1);
    let late = domain.subscriber().unwrap();
    assert_eq!(late.receive_copy(), Ok(Some(1)));
    assert_eq!(gateway.forward().received, 1);
    thread::scope(|scope| {
        let receive = || domain.subscriber().unwrap().blocking_receive_copy();
        assert_eq!(scope.spawn(receive).join().unwrap(), Ok(Some(2)));
    });
}

#[test]
#[ignore = "wants near_gateway.c in place of the gateway"]
fn a_late_gateway_has_what_came_before() {
    let domain = with_history();
    let publisher = domain.publisher().unwrap();
    assert_eq!(publisher.send_copy(50).unwrap().delivered(), Some(0));
    let gateway = Gateway::open(&domain, Settings::default()).unwrap();
    assert_eq!(gateway.forward().sent, 1);
    assert_eq!(gateway.counts().sent, 50);
}

#[test]
#[ignore = "wants near_gateway.c in place of the gateway"]
fn a_thread_that_falls_asleep_misses_nothing() {
    let domain = with_history();
    let subscriber = domain.subscriber().unwrap();
    let gateway = Gateway::open(&domain, Settings::default()).unwrap();
    thread::scope(|scope| {
        let receive = || subscriber.blocking_receive_copy().unwrap();
        // It has tried, and isn't in the list of those who wait; and it is in the list.
        let late = stopped_after(scope, 1, receive);
        assert_eq!(gateway.forward().received, 1);
        late.go_on();
        assert_eq!(late.join(), Some(1));
        let sleeps = asleep_after(scope, TO_SLEEP, receive);
        assert_eq!(gateway.forward().received, 1);
        assert_eq!(sleeps.join(), Some(2));
    });
}

#[test]
#[ignore = "wants near_gateway.c in place of the gateway"]
fn a_gateway_that_goes_is_forgotten() {
    let domain = with_history();
    for _ in 0..4 {
        let gateway = Gateway::open(&domain, Settings::default()).unwrap();
        assert_eq!(gateway.forward().received, 1);
        drop(gateway);
        let late = domain.subscriber().unwrap();
        assert_eq!(late.receive_copy(), Ok(None));
    }
}
