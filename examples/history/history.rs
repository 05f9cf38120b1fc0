// SPDX-License-Identifier: Apache-2.0 OR MIT
//! A publisher keeps its last 3 messages for subscribers that come later.
use iox2_pubsub::{Domain, ReceiveError, Subscriber};

fn show(who: &str, subscriber: &Subscriber<f64>) -> Result<(), ReceiveError> {
    print!("{who} reads");
    while let Some(metres) = subscriber.receive_copy()? {
        print!(" {metres:.1}");
    }
    println!();
    Ok(())
}

fn main() -> Result<(), Box<dyn std::error::Error>> {
    let domain = Domain::<f64>::builder(7)
        .history_size(3)
        .subscriber_max_buffer_size(8)
        .create()?;
    let publisher = domain.publisher()?;
    for metres in 1..=5 {
        drop(publisher.send_copy(f64::from(metres))?);
    }
    let late = domain.subscriber()?;
    let short_of_room = domain.subscriber_builder().buffer_size(2).create()?;
    publisher.update_connections()?; // which hands it over; so does the next send
    show("a late subscriber", &late)?;
    show("one with a buffer of 2", &short_of_room)?;
    Ok(())
}
