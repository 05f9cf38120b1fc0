// SPDX-License-Identifier: Apache-2.0 OR MIT
//! Twelve readings, and the last one is kept: what waits for a subscriber is the newest, since its buffer is 1.
use iox2_pubsub::Domain;

fn main() -> Result<(), Box<dyn std::error::Error>> {
    let domain = Domain::<u32>::builder(7)
        .subscriber_max_buffer_size(1)
        .create()?;
    let (publisher, subscriber) = (domain.publisher()?, domain.subscriber()?);
    for reading in 0..12 {
        let mut loan = publisher.loan()?;
        *loan = reading;
        drop(loan.send()?);
    }
    for sample in &subscriber {
        println!(
            "{}: 12 readings, the last is {}",
            std::env::consts::ARCH,
            *sample?
        );
    }
    Ok(())
}
