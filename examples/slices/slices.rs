// SPDX-License-Identifier: Apache-2.0 OR MIT
//! Messages of different lengths: a scan has up to 4 ranges. A publisher whose memory grows lends longer ones, too.
use iox2_pubsub::{AllocationStrategy, Domain, LoanError, Publisher, Subscriber};
use std::error::Error;

fn scan(publisher: &Publisher<[f32]>, count: usize) -> Result<(), Box<dyn Error>> {
    match publisher.loan_slice_uninit(count) {
        Ok(loan) => {
            let ranges = loan.write_from_fn(|at| 0.5 * (at + 1) as f32);
            drop(ranges.send()?);
        }
        Err(LoanError::ExceedsMaxLoanSize) => println!("{count} ranges are too many"),
        Err(error) => return Err(error.into()),
    }
    Ok(())
}

fn show(subscriber: &Subscriber<[f32]>) -> Result<(), Box<dyn Error>> {
    for ranges in subscriber {
        let ranges = ranges?;
        let last = ranges[ranges.len() - 1];
        println!("read {} ranges, the last is {last:.1} m", ranges.len());
    }
    Ok(())
}

fn main() -> Result<(), Box<dyn Error>> {
    let domain = Domain::<[f32]>::slice_builder(7).max_slice_len(4).create()?;
    let (publisher, subscriber) = (domain.publisher()?, domain.subscriber()?);
    for count in [3, 1, 1000] {
        scan(&publisher, count)?;
    }
    show(&subscriber)?;
    let growing = domain
        .publisher_builder()
        .allocation_strategy(AllocationStrategy::PowerOfTwo)
        .create()?;
    scan(&growing, 1000)?;
    show(&subscriber)
}
