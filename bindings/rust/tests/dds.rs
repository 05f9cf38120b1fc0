// SPDX-License-Identifier: Apache-2.0 OR MIT
//! A gateway to DDS between two processes over loopback: this one, and the same executable once more.
#![cfg(feature = "dds")]

use iox2_pubsub::dds::{AnyBytes, Gateway, Gateways, Settings};
use iox2_pubsub::{BackpressureStrategy, Domain, DomainBuilder};
use std::env;
use std::process::{id, Child, Command, Stdio};
use std::sync::mpsc;
use std::thread;
use std::time::Duration;

const LOOPBACK: &str = "<CycloneDDS><Domain Id='any'><General><Interfaces><NetworkInterface name='lo'/></Interfaces>\
    <AllowMulticast>false</AllowMulticast></General><Discovery><ParticipantIndex>auto</ParticipantIndex><Peers>\
    <Peer Address='127.0.0.1'/></Peers><LeaseDuration>60s</LeaseDuration><SPDPInterval>2s</SPDPInterval></Discovery></Domain>\
    </CycloneDDS>";
const COUNT: u64 = 200;

#[derive(Clone, Copy, Debug, PartialEq)]
#[repr(C)]
struct Reading {
    celsius: f64,
    number: u64,
}

// SAFETY: any bytes are two numbers.
unsafe impl AnyBytes for Reading {}

// Of the same size.
#[derive(Clone, Copy)]
#[repr(C)]
#[allow(dead_code)]
struct Voltage {
    volts: f64,
    number: u64,
}

// SAFETY: as above.
unsafe impl AnyBytes for Voltage {}

fn settings() -> DomainBuilder<Reading> {
    Domain::<Reading>::builder(7)
        .node_id(u128::from(id()))
        .subscriber_max_buffer_size(16)
        .enable_safe_overflow(false)
        .backpressure_strategy(BackpressureStrategy::RetryUntilDelivered)
}

// This executable's test of this name, as another process.
fn other_process(test: &str, topic: &str) -> Child {
    Command::new(env::current_exe().unwrap())
        .args(["--exact", test, "--ignored", "--test-threads=1"])
        .env("IOX2PS_DDS_TOPIC", topic)
        .env("CYCLONEDDS_URI", LOOPBACK)
        .stdout(Stdio::null())
        .spawn()
        .unwrap()
}

fn topic(name: &str) -> String {
    env::var("IOX2PS_DDS_TOPIC").unwrap_or_else(|_| format!("rust/{name}/{}", id()))
}

fn use_loopback() {
    env::set_var("CYCLONEDDS_URI", LOOPBACK);
}

fn both(test: &str, side: fn(&str)) {
    use_loopback();
    let topic = topic(test);
    let mut other = other_process(test, &topic);
    side(&topic);
    assert!(other.wait().unwrap().success());
}

fn reading(number: u64) -> Reading {
    Reading {
        celsius: number as f64 / 2.0,
        number,
    }
}

// Sends that many, and receives as many of the other process, each once and in order.
fn polled(topic: &str) {
    let domain = settings().create().unwrap();
    let gateway = Gateway::open(&domain, Settings::topic(topic)).unwrap();
    let publisher = domain.publisher().unwrap();
    let subscriber = domain.subscriber().unwrap();
    while gateway.peers().readers == 0 || gateway.peers().writers == 0 {
        gateway.wait(Duration::from_millis(20));
    }
    let (mut sent, mut got) = (0, 0);
    while sent < COUNT || got < COUNT {
        if sent < COUNT && gateway.forward().held == 0 {
            sent += 1;
            let _ = publisher.send_copy(reading(sent)).unwrap();
        }
        gateway.wait(Duration::from_millis(1));
        while let Some(sample) = subscriber.receive().unwrap() {
            let origin = match gateway.origin(&sample) {
                Some(origin) => origin,
                None => continue,
            };
            got += 1;
            assert_eq!(*sample, reading(got));
            assert!(origin.node != 0 && origin.node != u128::from(id()));
            assert_eq!(sample.origin(), gateway.publisher());
        }
    }
    gateway.flush(Duration::MAX).unwrap();
    assert_eq!(gateway.counts().sent, COUNT);
    assert_eq!(gateway.counts().received, COUNT);
}

// The same with the gateway's own threads, over a domain that threads share.
fn with_threads(topic: &str) {
    let domain = settings().create_shared().unwrap();
    let subscriber = domain.subscriber().unwrap();
    let publisher = domain.publisher().unwrap();
    let gateway = Gateway::open(&domain, Settings::topic(topic)).unwrap();
    while gateway.peers().readers == 0 || gateway.peers().writers == 0 {
        gateway.wait(Duration::from_millis(20));
    }
    assert!(gateway.start());
    assert!(!gateway.start());
    let sender = thread::spawn(move || {
        for number in 1..=COUNT {
            let loan = publisher
                .loan_uninit()
                .unwrap()
                .write_payload(reading(number));
            let _ = loan.blocking_send().unwrap();
        }
        publisher
    });
    let mut got = 0;
    while got < COUNT {
        let sample = subscriber.blocking_receive().unwrap().unwrap();
        if gateway.origin(&sample).is_some() {
            got += 1;
            assert_eq!(*sample, reading(got));
        }
    }
    drop(subscriber); // its own messages still came
    drop(sender.join().unwrap());
    gateway.flush(Duration::MAX).unwrap();
    gateway.stop();
    assert_eq!(gateway.counts().sent, COUNT);
}

#[test]
fn between_processes() {
    both("other_polled", polled);
}

#[test]
#[ignore = "a part of between_processes"]
fn other_polled() {
    polled(&topic("")); // the topic is the first process's
}

#[test]
fn between_processes_with_threads() {
    both("other_with_threads", with_threads);
}

#[test]
#[ignore = "a part of between_processes_with_threads"]
fn other_with_threads() {
    with_threads(&topic(""));
}

#[test]
fn second_gateways_are_refused() {
    use_loopback();
    let topic = topic("second");
    let (one, other) = (settings().create().unwrap(), settings().create().unwrap());
    let bytes = Domain::<[u8]>::slice_builder(9)
        .max_slice_len(100)
        .create()
        .unwrap();
    let all = Gateways::open(0, 100).unwrap();
    let first = all.add(&one, Settings::topic(&topic)).unwrap();
    let why = all.add(&one, Settings::topic("other")).unwrap_err();
    assert!(why.to_string().contains("for the domain"), "{why}");
    let why = all.add(&other, Settings::topic(&topic)).unwrap_err();
    assert!(why.to_string().contains("for the topic"), "{why}");
    let why = all.add(&other, Settings::topic("with\0zero")).unwrap_err();
    assert!(why.to_string().contains("zero byte"), "{why}");
    let slices = all
        .add(&bytes, Settings::topic(&format!("{topic}/bytes")))
        .unwrap();
    drop(first);
    let first = all.add(&other, Settings::topic(&topic)).unwrap();
    let publisher = bytes.publisher().unwrap();
    let _ = publisher.send_slice_copy(b"abc").unwrap();
    assert_eq!(all.forward().sent, 1);
    assert_eq!((slices.counts().sent, first.counts().sent), (1, 0));
}

#[test]
fn a_wait_is_ended_by_another_thread() {
    use_loopback();
    let domain = settings().create().unwrap();
    let gateway = Gateway::open(&domain, Settings::topic(&topic("waker"))).unwrap();
    let waker = gateway.waker();
    // Each ends one wait, whichever of the two comes first.
    let (tell, told) = mpsc::channel();
    let other = thread::spawn(move || {
        for () in told {
            waker.wake();
        }
    });
    for _ in 0..20 {
        tell.send(()).unwrap();
        gateway.wait(Duration::MAX);
    }
    drop(tell);
    other.join().unwrap();
}

// The struct of C++ that bindings/dds/tests/cases.cpp has, and one of the same size with another name.
#[test]
fn a_struct_of_cpp_comes_and_another_does_not() {
    let cases = match env::var_os("IOX2PS_DDS_CASES") {
        Some(cases) => cases,
        None => return,
    };
    use_loopback();
    for (role, expected) in [("values", 50), ("voltages", 0)] {
        let topic = topic(role);
        let domain = settings().subscriber_max_buffer_size(64).create().unwrap();
        let gateway = Gateway::open(&domain, Settings::topic(&topic)).unwrap();
        let subscriber = domain.subscriber().unwrap();
        let mut other = Command::new(&cases)
            .args([
                role, "topic", &topic, "count", "50", "mode", "retry", "buffer", "64",
            ])
            .stdout(Stdio::null())
            .spawn()
            .unwrap();
        let mut got = 0;
        while gateway.counts().received + gateway.counts().other_type < 50 {
            gateway.wait(Duration::from_millis(10));
            while let Some(sample) = subscriber.receive().unwrap() {
                got += 1;
                assert_eq!(*sample, reading(got));
            }
        }
        while subscriber.receive().unwrap().is_some() {
            got += 1;
        }
        assert_eq!(got, expected);
        assert!(other.wait().unwrap().success());
    }
}
