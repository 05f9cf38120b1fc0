// SPDX-License-Identifier: Apache-2.0 OR MIT
//! subscriber [NAME]: prints five readings. It sleeps until one is there.
use iox2_pubsub::{BackpressureStrategy, Domain};
use std::env;

fn main() -> Result<(), Box<dyn std::error::Error>> {
    let name = env::args().nth(1).unwrap_or_else(|| "thermometer".into());
    let domain = Domain::<f64>::builder(7)
        .enable_safe_overflow(false) // all processes of a domain have the same settings
        .backpressure_strategy(BackpressureStrategy::DiscardData)
        .name(&name)
        .type_name("celsius")
        .open_or_create_shared()?; // whose calls may wait
    let subscriber = domain.subscriber()?;
    for celsius in subscriber.blocking_iter().take(5) {
        println!("{:.1} °C", *celsius?); // read there
    }
    Ok(())
}
