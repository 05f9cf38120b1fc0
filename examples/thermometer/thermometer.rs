// SPDX-License-Identifier: Apache-2.0 OR MIT
//! Sends readings to two subscribers, and prints what each reads.

use iox2_pubsub::Domain;
use std::error::Error;

#[derive(Clone, Copy)]
struct Reading {
    number: u32,
    celsius: f64,
}

fn main() -> Result<(), Box<dyn Error>> {
    let domain = Domain::<Reading>::builder(7).create()?;
    let publisher = domain.publisher()?;
    let subscribers = [domain.subscriber()?, domain.subscriber()?];
    for number in 1..=3 {
        let mut loan = publisher.loan_uninit()?.write_payload(Reading {
            number,
            celsius: 20.0,
        });
        loan.celsius += f64::from(number) / 2.0;
        let receivers = loan.send()?.delivered().unwrap_or(0);
        println!("sent reading {number} to {receivers}");
        for (index, subscriber) in subscribers.iter().enumerate() {
            for sample in subscriber {
                let sample = sample?;
                println!(
                    "subscriber {index} read {}: {:.1} °C",
                    sample.number, sample.celsius
                );
            }
        }
    }
    Ok(())
}
