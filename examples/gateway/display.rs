// SPDX-License-Identifier: Apache-2.0 OR MIT
//! display [TOPIC]: prints five readings that a sensor in another process sends by DDS, and answers it.
mod station;
use station::{Station, MOST_SECONDS, READINGS};

/// Prints them, as long as not all are there, and returns the last.
fn read(station: &Station) -> Result<f64, Box<dyn std::error::Error>> {
    let mut read_so_far = 0;
    for _ in 0..MOST_SECONDS {
        station.wait_a_second();
        while let Some(celsius) = station.receive()? {
            println!("{celsius:.1} °C");
            read_so_far += 1;
            if read_so_far == READINGS {
                return Ok(celsius);
            }
        }
    }
    Err("no sensor has sent all".into())
}

fn main() -> Result<(), Box<dyn std::error::Error>> {
    let station = Station::open()?;
    station.send(read(&station)?)?;
    // The sensor ends when it has the answer.
    for _ in 0..MOST_SECONDS {
        if !station.has_writer() {
            break;
        }
        station.wait_a_second();
    }
    Ok(())
}
