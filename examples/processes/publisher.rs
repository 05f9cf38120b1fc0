// SPDX-License-Identifier: Apache-2.0 OR MIT
//! publisher [NAME]: sends readings to who runs in other terminals, until it is ended.
use iox2_pubsub::{BackpressureStrategy, Domain};
use std::{env, thread::sleep, time::Duration};

fn main() -> Result<(), Box<dyn std::error::Error>> {
    let name = env::args().nth(1).unwrap_or_else(|| "thermometer".into());
    let domain = Domain::<f64>::builder(7)
        .enable_safe_overflow(false) // loses nothing: what finds no room is sent anew
        .backpressure_strategy(BackpressureStrategy::DiscardData)
        .name(&name)
        .type_name("celsius")
        .open_or_create()?;
    let publisher = domain.publisher()?;
    let mut celsius = 20.0;
    loop {
        let loan = publisher.loan_uninit()?.write_payload(celsius); // written in its slot, where the subscriber reads it
        if loan.send()?.delivered() > Some(0) {
            celsius += 1.0;
        }
        sleep(Duration::from_millis(100));
    }
}
