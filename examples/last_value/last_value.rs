// SPDX-License-Identifier: Apache-2.0 OR MIT
//! A board of last values: each publisher keeps one, and whoever comes reads them. What was read stays as it was.
use iox2_pubsub::{Domain, SharedDomain};
use std::error::Error;

#[derive(Clone, Copy)]
struct Speed {
    wheel: u32,
    rpm: u32,
}

const LEFT: u32 = 0;
const RIGHT: u32 = 1;

fn main() -> Result<(), Box<dyn Error>> {
    let domain: SharedDomain<Speed> = Domain::builder(7).history_size(1).create_shared()?;
    let (left, right) = (domain.publisher()?, domain.publisher()?);
    for (publisher, wheel, rpm) in [(&left, LEFT, 12), (&left, LEFT, 31), (&right, RIGHT, 42)] {
        drop(publisher.send_copy(Speed { wheel, rpm })?);
    }
    // The last value of each wheel, where it lies. A subscriber of a shared domain has them at once.
    let read_all = || -> Result<_, Box<dyn Error>> {
        let mut speeds = domain
            .subscriber()?
            .iter()
            .collect::<Result<Vec<_>, _>>()?;
        speeds.sort_by_key(|speed| speed.wheel);
        Ok(speeds)
    };
    let before = read_all()?;
    println!("left {} rpm, right {} rpm", before[0].rpm, before[1].rpm);
    drop(left.send_copy(Speed {
        wheel: LEFT,
        rpm: 99,
    })?);
    let now = read_all()?;
    println!(
        "left {} rpm now, and {} where it was read before",
        now[0].rpm, before[0].rpm
    );
    Ok(())
}
