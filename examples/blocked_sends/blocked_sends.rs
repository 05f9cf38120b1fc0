// SPDX-License-Identifier: Apache-2.0 OR MIT
//! Where nothing may be lost, a send waits for a subscriber whose buffer is full. It is retried, or given up.
use iox2_pubsub::{Domain, SendOutcome, Subscriber};
use std::time::Duration;

fn say(number: i32, sent: &SendOutcome<i32>, subscriber: &Subscriber<i32>) {
    match sent {
        SendOutcome::Delivered(receivers) => println!("{number} reached {receivers}"),
        SendOutcome::Blocked(blocked) if blocked.subscriber() == subscriber.id() => {
            println!("{number} waits for the subscriber");
        }
        SendOutcome::Blocked(_) => println!("{number} waits for another"),
    }
}

fn main() -> Result<(), Box<dyn std::error::Error>> {
    let domain = Domain::<i32>::builder(7)
        .enable_safe_overflow(false)
        .subscriber_max_buffer_size(1)
        .create()?;
    let (publisher, subscriber) = (domain.publisher()?, domain.subscriber()?);
    say(1, &publisher.send_copy(1)?, &subscriber);
    let sent = publisher.send_copy(2)?;
    say(2, &sent, &subscriber);
    let blocked = sent.blocked().ok_or("2 reached all")?;
    let sent = blocked.retry(Duration::ZERO)?;
    let blocked = sent.blocked().ok_or("2 reached all")?;
    println!("2 still waits");
    println!("read {}", subscriber.receive_copy()?.ok_or("no message")?);
    say(2, &blocked.retry(Duration::ZERO)?, &subscriber);
    let sent = publisher.send_copy(3)?;
    say(3, &sent, &subscriber);
    let blocked = sent.blocked().ok_or("3 reached all")?;
    let receivers = blocked.give_up()?.delivered().ok_or("3 still waits")?;
    println!("3 was given up, and reached {receivers}");
    println!("read {}", subscriber.receive_copy()?.ok_or("no message")?);
    Ok(())
}
