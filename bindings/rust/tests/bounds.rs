// SPDX-License-Identifier: Apache-2.0 OR MIT
//! What the types ask of a message: no more than that it is one.

use iox2_pubsub::Domain;
use std::fmt::Debug;

#[derive(Clone, Copy, PartialEq)]
struct Bare(u8);

fn text(shown: &impl Debug) -> String {
    format!("{shown:?}")
}

#[test]
fn settings_of_slices_are_cloned() {
    let settings = Domain::<[u16]>::slice_builder(7).max_slice_len(3);
    let other = settings.clone().max_slice_len(1).create().unwrap();
    let domain = settings.create().unwrap();
    let lens = [domain, other].map(|domain| domain.publisher().unwrap().initial_max_slice_len());
    assert_eq!(lens, [3, 1]);
}

#[test]
fn a_message_that_cannot_be_shown_has_settings_and_handles_that_can() {
    let settings = Domain::<Bare>::builder(7).record(3, 5);
    let shown = text(&settings);
    assert!(shown.starts_with("DomainBuilder"), "{shown}");
    assert!(shown.contains("commands: 3"), "{shown}");
    let domain = settings.create().unwrap();
    let (publisher, subscriber) = (domain.publisher().unwrap(), domain.subscriber().unwrap());
    let shown = (text(&domain), text(&publisher), text(&subscriber));
    assert!(shown.0.contains("service_id: 7"), "{}", shown.0);
    publisher.send_copy(Bare(1)).unwrap().delivered();
    assert!(subscriber.receive_copy().unwrap() == Some(Bare(1)));
}
