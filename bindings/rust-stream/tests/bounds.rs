// SPDX-License-Identifier: Apache-2.0 OR MIT
//! What a stream asks of a message: no more than that it is one.

use iox2_pubsub::Domain;
use iox2_pubsub_stream::SubscriberStream;

#[derive(Clone, Copy)]
struct Bare(#[allow(dead_code)] u8);

#[test]
fn a_stream_of_messages_that_cannot_be_shown_can() {
    let domain = Domain::<Bare>::builder(1).create_shared().unwrap();
    let stream = SubscriberStream::new(domain.subscriber().unwrap());
    let shown = format!("{stream:?}");
    assert!(shown.starts_with("SubscriberStream"), "{shown}");
}
