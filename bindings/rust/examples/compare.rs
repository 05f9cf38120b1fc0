// SPDX-License-Identifier: Apache-2.0 OR MIT
//! Passes messages of 64 bytes to subscribers that read each at once: `compare WHAT SUBSCRIBERS MESSAGES`, where
//! WHAT is `domain` (this crate), `borrowed` (its handles that borrow their domain), `mpsc` (channels of `Arc`s) or `queues` (`VecDeque`s of `Rc`s). Prints the
//! nanoseconds that a message took.

use iox2_pubsub::{Domain, DomainCreateError, Threads};
use std::collections::VecDeque;
use std::error::Error;
use std::rc::Rc;
use std::sync::{mpsc, Arc};
use std::time::Instant;

type Message = [u64; 8];

fn message(number: u64) -> Message {
    [number; 8]
}

// Each returns the sum of what was read.

fn domain(subscribers: usize) -> Result<Domain<Message>, DomainCreateError> {
    Domain::builder(1).max_subscribers(subscribers).create()
}

fn by_domain<M: Threads>(
    domain: &Domain<Message, M>,
    subscribers: usize,
    messages: u64,
) -> Result<u64, Box<dyn Error>> {
    let publisher = domain.publisher()?;
    let subscribers = (0..subscribers)
        .map(|_| domain.subscriber())
        .collect::<Result<Vec<_>, _>>()?;
    let mut sum = 0;
    for number in 0..messages {
        publisher
            .loan_uninit()?
            .write_payload(message(number))
            .send()?
            .delivered();
        for subscriber in &subscribers {
            while let Some(sample) = subscriber.receive()? {
                sum += sample[0];
            }
        }
    }
    Ok(sum)
}

fn by_mpsc(subscribers: usize, messages: u64) -> Result<u64, Box<dyn Error>> {
    let (senders, receivers): (Vec<_>, Vec<_>) =
        (0..subscribers).map(|_| mpsc::sync_channel(2)).unzip();
    let mut sum = 0;
    for number in 0..messages {
        let sent = Arc::new(message(number));
        for sender in &senders {
            sender.try_send(sent.clone())?;
        }
        drop(sent);
        for receiver in &receivers {
            while let Ok(received) = receiver.try_recv() {
                sum += received[0];
            }
        }
    }
    Ok(sum)
}

fn by_queues(subscribers: usize, messages: u64) -> u64 {
    let mut queues: Vec<VecDeque<Rc<Message>>> = vec![VecDeque::with_capacity(2); subscribers];
    let mut sum = 0;
    for number in 0..messages {
        let sent = Rc::new(message(number));
        for queue in &mut queues {
            if queue.len() == 2 {
                queue.pop_front();
            }
            queue.push_back(sent.clone());
        }
        drop(sent);
        for queue in &mut queues {
            while let Some(received) = queue.pop_front() {
                sum += received[0];
            }
        }
    }
    sum
}

fn main() -> Result<(), Box<dyn Error>> {
    let words: Vec<String> = std::env::args().collect();
    let (what, subscribers, messages) = match &words[..] {
        [_, what, subscribers, messages] => (what, subscribers.parse()?, messages.parse()?),
        _ => return Err("usage: compare domain|borrowed|mpsc|queues SUBSCRIBERS MESSAGES".into()),
    };
    let started = Instant::now();
    let sum = match what.as_str() {
        "domain" => by_domain(&domain(subscribers)?, subscribers, messages)?,
        "borrowed" => by_domain(&domain(subscribers)?.borrowed(), subscribers, messages)?,
        "mpsc" => by_mpsc(subscribers, messages)?,
        "queues" => by_queues(subscribers, messages),
        _ => return Err("there is no such kind".into()),
    };
    let elapsed = started.elapsed().as_nanos();
    if sum != (0..messages).sum::<u64>() * subscribers as u64 {
        return Err("a message is missing".into());
    }
    println!("{}", elapsed / u128::from(messages));
    Ok(())
}
