// SPDX-License-Identifier: Apache-2.0 OR MIT
//! Two threads share a domain: one sends readings, and the other prints them.
use iox2_pubsub::Domain;
use std::thread;

#[derive(Clone, Copy)]
struct Reading {
    celsius: f64,
}

fn main() -> Result<(), Box<dyn std::error::Error>> {
    let settings = Domain::<Reading>::builder(7).enable_safe_overflow(false); // loses nothing
    let domain = settings.create_shared()?;
    let (publisher, subscriber) = (domain.publisher()?, domain.subscriber()?);
    let printing = thread::spawn(move || {
        let mut reader = subscriber.reader();
        while let Some(reading) = reader.blocking_receive().unwrap() {
            println!("{:.1} °C", reading.celsius); // read without the lock
        }
    });
    let mut writer = publisher.writer();
    for tick in 0..5 {
        let celsius = 20.0 + f64::from(tick);
        let _ = writer.blocking_send(Reading { celsius })?; // written without the lock
    }
    domain.stop_waits(true); // so that the reader ends when nothing waits any more
    printing.join().unwrap();
    Ok(())
}
