// SPDX-License-Identifier: Apache-2.0 OR MIT
//! Records what it calls, and prints the recording, which `tools/replay` runs again.
use iox2_pubsub::{Domain, Publisher, SendOutcome, Subscriber};
use std::error::Error;
use std::mem::size_of;
use std::time::Duration;

#[derive(Clone, Copy, Default)]
struct Reading {
    number: u32,
    millidegrees: u32,
}

// Sends two readings. The second waits for a subscriber that is full.
fn send(
    publisher: &Publisher<Reading>,
    subscriber: &Subscriber<Reading>,
) -> Result<(), Box<dyn Error>> {
    let mut loan = publisher.loan()?;
    loan.number = 1;
    loan.millidegrees = 20500;
    drop(loan.send()?);
    let sent = publisher.send_copy(Reading {
        number: 2,
        millidegrees: 21000,
    })?;
    drop(subscriber.receive()?);
    if let SendOutcome::Blocked(blocked) = sent {
        drop(blocked.retry(Duration::ZERO)?);
    }
    Ok(())
}

fn main() -> Result<(), Box<dyn Error>> {
    let domain = Domain::<Reading>::builder(7)
        .subscriber_max_buffer_size(1)
        .enable_safe_overflow(false)
        .record(200, size_of::<Reading>())
        .create()?;
    let (subscriber, publisher) = (domain.subscriber()?, domain.publisher()?);
    send(&publisher, &subscriber)?;
    let _late = domain.subscriber()?;
    publisher.update_connections()?;
    let recording = domain.recording()?;
    assert_eq!(recording.missed, 0);
    print!("{}", recording.text);
    Ok(())
}
