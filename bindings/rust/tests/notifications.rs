// SPDX-License-Identifier: Apache-2.0 OR MIT
//! Events of a domain that processes share: each listener hears of each id that came, in whichever process, and whoever dies.
#![cfg(feature = "processes")]

mod children;

use children::{in_child, name_of, say, wait_for_parent, Process};
use iox2_pubsub::{
    CallbackProgression, Domain, EventId, Listener, ListenerCreateError, NamedDomainBuilder,
    NotifierCreateError, NotifierNotifyError, SharedDomain, Threads, WaitSet, WaitSetRunResult,
};
use std::collections::BTreeSet;
use std::sync::mpsc::channel;
use std::thread::{scope, spawn};
use std::time::Duration;

// Only what has failed takes so long.
const LONG: Duration = Duration::from_secs(600);
// Nobody looks for the dead, so that only a notification ends a sleep.
const HOUR: Duration = Duration::from_secs(3600);

fn numbers(name: &str) -> NamedDomainBuilder<u64> {
    let builder = Domain::<u64>::builder(7).subscriber_max_buffer_size(4);
    builder.name(name).reap_every(HOUR)
}

fn shared(name: &str) -> SharedDomain<u64> {
    numbers(name).open_or_create_shared().unwrap()
}

fn all_of<M: Threads>(listener: &Listener<M>) -> Vec<usize> {
    let mut ids = Vec::new();
    let looked = listener.try_wait_all(|id| ids.push(id.value()));
    looked.unwrap();
    ids
}

#[test]
#[ignore = "a process of other tests"]
fn notifies_when_told() {
    let domain = numbers(&in_child()).open().unwrap();
    let (publisher, notifier) = (domain.publisher().unwrap(), domain.notifier().unwrap());
    say("is here");
    for id in 1.. {
        wait_for_parent();
        publisher.send_copy(id as u64).unwrap().delivered();
        let notified = notifier.notify_with_custom_event_id(EventId::new(id));
        say(&notified.unwrap().to_string());
    }
}

fn started(name: &str) -> Process {
    let mut child = Process::start("notifies_when_told", name);
    child.hear();
    child
}

// ---- one process

#[test]
fn each_listener_hears_of_each_id_once() {
    let name = name_of("sets");
    let domain = numbers(&name).create().unwrap();
    let builder = domain.notifier_builder();
    let notifier = builder.default_event_id(EventId::new(42)).create().unwrap();
    let by = |id| notifier.notify_with_custom_event_id(EventId::new(id));
    assert_eq!(by(3), Ok(0));
    let (one, other) = (domain.listener().unwrap(), domain.listener().unwrap());
    assert_eq!(one.try_wait_one(), Ok(None));
    assert_eq!(one.timed_wait_one(Duration::from_millis(1)), Ok(None));
    for id in [255, 0, 64, 255] {
        assert_eq!(by(id), Ok(2));
    }
    assert_eq!(notifier.notify(), Ok(2));
    assert_eq!(all_of(&one), [0, 42, 64, 255]);
    assert!(all_of(&one).is_empty());
    assert_eq!(by(1), Ok(2));
    drop(one);
    let late = domain.listener().unwrap();
    assert_eq!(by(5), Ok(2));
    for id in [0, 1, 5, 42, 64, 255] {
        assert_eq!(other.blocking_wait_one(), Ok(Some(EventId::new(id))));
    }
    assert_eq!(all_of(&late), [5]);
}

// ---- between processes

#[test]
fn a_wait_ends_by_the_event_of_another_process_behind_its_message() {
    let name = name_of("comes");
    let domain = shared(&name);
    let (subscriber, listener) = (domain.subscriber().unwrap(), domain.listener().unwrap());
    let mut child = started(&name);
    for turn in 1..=20 {
        child.go_on();
        let mut ids = Vec::new();
        listener.blocking_wait_all(|id| ids.push(id.value())).unwrap();
        assert_eq!((ids, child.hear()), (vec![turn], "1".into()));
        assert_eq!(subscriber.receive_copy(), Ok(Some(turn as u64)));
    }
}

#[test]
fn a_domain_of_one_thread_waits_too() {
    let name = name_of("one_thread");
    let domain = numbers(&name).create().unwrap();
    let listener = domain.listener().unwrap();
    let mut child = started(&name);
    for id in 1..=20 {
        child.go_on();
        assert_eq!(listener.timed_wait_one(LONG), Ok(Some(EventId::new(id))));
    }
    child.kill();
    assert_eq!(listener.try_wait_one(), Ok(None));
}

#[test]
fn no_event_of_a_process_that_died_is_lost() {
    let name = name_of("killed");
    let domain = shared(&name);
    let listener = domain.listener().unwrap();
    for _ in 0..3 {
        let mut child = Process::start("notifies_by_many_ids", &name);
        child.hear();
        child.kill();
        let mut came = BTreeSet::new();
        let noted = listener.try_wait_all(|id| {
            came.insert(id.value());
        });
        assert_eq!(noted, Ok(()));
        assert_eq!(came, (10..210).collect());
    }
}

#[test]
#[ignore = "a process of other tests"]
fn notifies_by_many_ids() {
    let domain = numbers(&in_child()).open().unwrap();
    let notifier = domain.notifier().unwrap();
    for id in 10..210 {
        let listeners = notifier.notify_with_custom_event_id(EventId::new(id));
        assert_eq!(listeners, Ok(1));
    }
    say("has notified");
    wait_for_parent();
}

// ---- threads

#[test]
fn threads_of_one_process_notify_each_other() {
    let name = name_of("threads");
    let domain = shared(&name);
    let notifier = domain.notifier().unwrap();
    let listeners: Vec<_> = (0..3).map(|_| domain.listener().unwrap()).collect();
    let back = domain.subscriber().unwrap();
    let publisher = domain.publisher().unwrap();
    scope(|threads| {
        for listener in &listeners {
            let (publisher, domain) = (&publisher, &domain);
            threads.spawn(move || {
                for turn in 0..50 {
                    let id = listener.timed_wait_one(LONG);
                    assert_eq!(id, Ok(Some(EventId::new(turn))), "{domain:?}");
                    let sent = publisher.blocking_send_copy(turn as u64).unwrap();
                    assert!(sent.delivered().is_some());
                }
            });
        }
        for turn in 0..50 {
            let notified = notifier.notify_with_custom_event_id(EventId::new(turn));
            assert_eq!(notified, Ok(3));
            for _ in &listeners {
                assert_eq!(back.timed_receive_copy(LONG), Ok(Some(turn as u64)));
            }
        }
    });
}

#[test]
fn a_wait_ends_when_waits_are_stopped() {
    let name = name_of("stopped");
    let domain = shared(&name);
    let listener = domain.listener().unwrap();
    let (tells, told) = channel();
    let waits = spawn(move || {
        tells.send(()).unwrap();
        listener.blocking_wait_one()
    });
    told.recv().unwrap();
    domain.stop_waits(true);
    assert_eq!(waits.join().unwrap(), Ok(None));
}

#[test]
fn a_wait_set_is_told() {
    let name = name_of("wait_set");
    let domain = shared(&name);
    let (subscriber, listener) = (domain.subscriber().unwrap(), domain.listener().unwrap());
    let set = WaitSet::new();
    let guard = set.attach_notification(&listener).unwrap();
    let of_messages = set.attach_notification(&subscriber).unwrap();
    let mut child = started(&name);
    for turn in 1..=5 {
        child.go_on();
        let (mut ids, mut numbers) = (Vec::new(), Vec::new());
        while ids.is_empty() || numbers.is_empty() {
            let ended = set.wait_and_process_once_with_timeout(
                |id| {
                    if id.has_event_from(&guard) {
                        ids.extend(all_of(&listener));
                    }
                    if id.has_event_from(&of_messages) {
                        numbers.extend(subscriber.receive_copy().unwrap());
                    }
                    CallbackProgression::Continue
                },
                LONG,
            );
            assert_eq!(ended, Ok(WaitSetRunResult::AllEventsHandled));
        }
        assert_eq!((ids, numbers), (vec![turn], vec![turn as u64]));
    }
}

#[test]
fn a_descriptor_is_readable() {
    use std::os::unix::io::AsRawFd;
    #[repr(C)]
    struct Poll(i32, i16, i16);
    extern "C" {
        fn poll(descriptors: *mut Poll, count: std::os::raw::c_ulong, timeout: i32) -> i32;
    }
    const READABLE: i16 = 1;
    let polled = |descriptor: i32, milliseconds| {
        let mut one = Poll(descriptor, READABLE, 0);
        // SAFETY: it is one.
        unsafe { poll(&mut one, 1, milliseconds) }
    };
    let name = name_of("descriptor");
    let domain = shared(&name);
    let listener = domain.listener().unwrap();
    let descriptor = listener.event_fd().unwrap();
    let mut child = started(&name);
    // It begins readable. Who looks now, and so before an event, is woken by each that comes.
    assert_eq!(polled(descriptor.as_raw_fd(), 0), 1);
    descriptor.reset().unwrap();
    assert!(all_of(&listener).is_empty());
    for turn in 1..=5 {
        assert_eq!(polled(descriptor.as_raw_fd(), 0), 0);
        child.go_on();
        assert_eq!(polled(descriptor.as_raw_fd(), LONG.as_millis() as i32), 1);
        descriptor.reset().unwrap();
        assert_eq!(all_of(&listener), [turn]);
        assert_eq!(polled(descriptor.as_raw_fd(), 0), 0);
    }
}

// ---- what is refused

#[test]
fn what_cannot_be_is_refused() {
    let name = name_of("refused");
    let domain = numbers(&name).create().unwrap();
    let (listener, notifier) = (domain.listener().unwrap(), domain.notifier().unwrap());
    let too_large = EventId::new(EventId::MAX_VALUE + 1);
    let refused = NotifierNotifyError::EventIdOutOfBounds;
    assert_eq!(notifier.notify_with_custom_event_id(too_large), Err(refused));
    assert_eq!(refused.code(), 225);
    let builder = domain.notifier_builder().default_event_id(too_large);
    assert_eq!(builder.create().err(), Some(NotifierCreateError::EventIdOutOfBounds));
    assert_eq!(listener.try_wait_one(), Ok(None));

    let domain = Domain::<u64>::builder(7).create_shared().unwrap();
    assert_eq!(domain.notifier().err(), Some(NotifierCreateError::NotShared));
    assert_eq!(domain.listener().err(), Some(ListenerCreateError::NotShared));
}
