// SPDX-License-Identifier: Apache-2.0 OR MIT
//! Passes messages from a publisher to a subscriber, as tools/length_cost.c does by the calls for C: `length MESSAGES BYTES KIND`, where KIND
//! is `uninit` (a loan in which one byte is written), `zeros` (a loan of zeros) or `copy` (a copy on both
//! sides). Beside each it fills and copies as many bytes without a domain.

use iox2_pubsub::{Domain, Loan, Publisher, SendOutcome, Subscriber};
use std::error::Error;

type Done<T> = Result<T, Box<dyn Error>>;

struct Passing {
    publisher: Publisher<[u8]>,
    subscriber: Subscriber<[u8]>,
    source: Vec<u8>,
    target: Vec<u8>,
}

// Each of these stays a function of its own in the program, so that its instructions can be counted.

#[no_mangle]
#[inline(never)]
fn fill_memory(all: &mut Passing) {
    all.target.fill(0);
}

#[no_mangle]
#[inline(never)]
fn copy_memory(all: &mut Passing) {
    all.target.copy_from_slice(&all.source);
}

#[no_mangle]
#[inline(never)]
fn pass_uninit(all: &mut Passing) -> Done<bool> {
    let mut loan = all.publisher.loan_slice_uninit(all.source.len())?;
    loan.payload_mut()[0].write(7);
    // SAFETY: the other bytes are those of an earlier message, or 0, which is what this counts.
    send(all, unsafe { loan.assume_init() })
}

#[no_mangle]
#[inline(never)]
fn pass_zeros(all: &mut Passing) -> Done<bool> {
    let mut loan = all.publisher.loan_slice(all.source.len())?;
    loan[0] = 7;
    send(all, loan)
}

#[no_mangle]
#[inline(never)]
fn pass_copy(all: &mut Passing) -> Done<bool> {
    let sent = all.publisher.send_slice_copy(&all.source)?;
    let sample = all.subscriber.receive()?.ok_or("no message came")?;
    all.target.copy_from_slice(&sample);
    Ok(is_to_one(sent) && all.target[0] == 7)
}

fn send(all: &Passing, loan: Loan<[u8]>) -> Done<bool> {
    let sent = loan.send()?;
    let sample = all.subscriber.receive()?.ok_or("no message came")?;
    Ok(is_to_one(sent) && sample[0] == 7 && sample.len() == all.source.len())
}

fn is_to_one(sent: SendOutcome<[u8]>) -> bool {
    sent.delivered() == Some(1)
}

fn main() -> Done<()> {
    let words: Vec<String> = std::env::args().collect();
    let (messages, bytes, kind) = match &words[..] {
        [_, messages, bytes, kind] => (messages.parse::<u64>()?, bytes.parse()?, kind.as_str()),
        _ => return Err("usage: length MESSAGES BYTES KIND".into()),
    };
    let builder = Domain::<[u8]>::slice_builder(1).max_slice_len(bytes);
    let domain = builder.create()?;
    let mut all = Passing {
        publisher: domain.publisher()?,
        subscriber: domain.subscriber()?,
        source: vec![7; bytes],
        target: vec![0; bytes],
    };
    for _ in 0..messages {
        fill_memory(&mut all);
        copy_memory(&mut all);
        let is_there = match kind {
            "uninit" => pass_uninit(&mut all)?,
            "zeros" => pass_zeros(&mut all)?,
            "copy" => pass_copy(&mut all)?,
            _ => return Err("there is no such kind".into()),
        };
        if !is_there {
            return Err("a message is missing".into());
        }
    }
    Ok(())
}
