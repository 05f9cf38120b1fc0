// SPDX-License-Identifier: Apache-2.0 OR MIT
use iox2_pubsub::Domain;
fn main() -> Result<(), Box<dyn std::error::Error>> {
    let domain = Domain::<f64>::builder(7).create()?;
    let (publisher, subscriber) = (domain.publisher()?, domain.subscriber()?);
    let mut loan = publisher.loan()?;
    *loan = 21.5; // written in its slot
    let receivers = loan.send()?.delivered().unwrap_or(0);
    for sample in &subscriber {
        println!("{:.1} °C, read by {receivers}", *sample?); // read there
    }
    Ok(())
}
