// SPDX-License-Identifier: Apache-2.0 OR MIT
//! The settings of the gateway, each by what reaches C: `bindings/dds/tests/noted_settings.c` stands in for the
//! gateway, and says it.
#![cfg(feature = "dds")]

use iox2_pubsub::dds::{AnyBytes, Gateway, Settings};
use iox2_pubsub::Domain;

#[derive(Clone, Copy)]
#[repr(C)]
#[allow(dead_code)]
struct Reading {
    celsius: f64,
    number: u64,
}

// SAFETY: any bytes are two numbers.
unsafe impl AnyBytes for Reading {}

// What reached C.
fn noted(settings: Settings) -> String {
    let domain = Domain::<Reading>::builder(7).create().unwrap();
    let refused = Gateway::open(&domain, settings).err().unwrap();
    refused.to_string()
}

#[test]
#[ignore = "wants noted_settings.c in place of the gateway"]
fn unset_settings_are_the_defaults() {
    assert_eq!(
        noted(Settings::default()),
        "topic none, type Reading of 16, reliability 0, volatile 0, known 0, limit 64, domain 0, longest 16"
    );
    let domain = Domain::<[u16]>::slice_builder(7).max_slice_len(4);
    let domain = domain.create().unwrap();
    let refused = Gateway::open(&domain, Settings::default()).err().unwrap();
    assert_eq!(
        refused.to_string(),
        "topic none, type u16 of 2 in slices, reliability 0, volatile 0, known 0, limit 64, domain 0, longest 8"
    );
}

#[test]
#[ignore = "wants noted_settings.c in place of the gateway"]
fn names_reach_c() {
    assert_eq!(
        noted(Settings::topic("a/topic")),
        "topic a/topic, type Reading of 16, reliability 0, volatile 0, known 0, limit 64, domain 0, longest 16"
    );
    assert_eq!(
        noted(Settings::topic("a/topic").type_name("Other")),
        "topic a/topic, type Other of 16, reliability 0, volatile 0, known 0, limit 64, domain 0, longest 16"
    );
}

#[test]
#[ignore = "wants noted_settings.c in place of the gateway"]
fn qualities_reach_c() {
    assert_eq!(
        noted(Settings::default().best_effort(true)),
        "topic none, type Reading of 16, reliability 1, volatile 0, known 0, limit 64, domain 0, longest 16"
    );
    assert_eq!(
        noted(Settings::default().best_effort(false).volatile_reader(true)),
        "topic none, type Reading of 16, reliability 0, volatile 1, known 0, limit 64, domain 0, longest 16"
    );
    assert_eq!(
        noted(Settings::default().volatile_reader(false).only_known(true)),
        "topic none, type Reading of 16, reliability 0, volatile 0, known 1, limit 64, domain 0, longest 16"
    );
}

#[test]
#[ignore = "wants noted_settings.c in place of the gateway"]
fn numbers_reach_c() {
    let settings = Settings::default().reader_limit(5).dds_domain(3);
    assert_eq!(
        noted(settings.clone().max_message_size(40)),
        "topic none, type Reading of 16, reliability 0, volatile 0, known 0, limit 5, domain 3, longest 40"
    );
    // One that is shorter than a message of the domain.
    assert_eq!(
        noted(settings.max_message_size(15)),
        "topic none, type Reading of 16, reliability 0, volatile 0, known 0, limit 5, domain 3, longest 16"
    );
}
