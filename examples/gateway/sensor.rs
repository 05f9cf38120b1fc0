// SPDX-License-Identifier: Apache-2.0 OR MIT
//! sensor [TOPIC]: sends five readings by DDS to a display in another process, and ends when that has answered.
mod station;
use station::{Station, MOST_SECONDS, READINGS};

fn main() -> Result<(), Box<dyn std::error::Error>> {
    let station = Station::open()?;
    for number in 0..READINGS {
        station.send(20.0 + number as f64)?;
    }
    for _ in 0..MOST_SECONDS {
        station.wait_a_second();
        if let Some(answer) = station.receive()? {
            println!("the display has {answer:.1} °C");
            return Ok(());
        }
    }
    Err("no display has answered".into())
}
