// SPDX-License-Identifier: Apache-2.0 OR MIT
//! Passes messages of 64 bytes between threads: `compare_threads WHAT CONSUMERS MESSAGES BUFFER`. One
//! producer sends all messages, and each consumer gets them all. Prints the nanoseconds of a message by the
//! clock and by the processors of all threads.
//!
//! WHAT is `in-place` (a loan, written without the lock, and a send; a receive, read without the lock, and a release), `each` (the
//! same, where a message is released in the call that receives the next), `reader` (in place too, by a writer and by readers, which
//! may borrow as many messages as their buffer has), `copy` (one call on each side), each also as `borrowed-in-place` and so on (by
//! handles that borrow their domain), `mpsc` or, where it is compiled with `--cfg crossbeam`, `crossbeam` (bounded channels of
//! `Arc`s, one for each consumer), `mpsc-values` (of the messages themselves, a copy for each consumer); `alone-one-thread` and
//! `alone-shared` (one thread passes to itself, in place).

use iox2_pubsub::*;
use std::ops::ControlFlow;
use std::sync::{mpsc, Arc, Barrier};
use std::thread;
use std::time::Instant;

type Message = [u64; 8];

fn message(number: u64) -> Message {
    [number; 8]
}

struct Sizes {
    consumers: usize,
    messages: u64,
    buffer: usize,
}

impl Sizes {
    fn domain(&self) -> DomainBuilder<Message> {
        Domain::<Message>::builder(1)
            .max_subscribers(self.consumers)
            .subscriber_max_buffer_size(self.buffer)
            .enable_safe_overflow(false)
    }

    // For readers, which take at once what waits.
    fn domain_for_readers(&self) -> DomainBuilder<Message> {
        self.domain().subscriber_max_borrowed_samples(self.buffer)
    }

    // What a consumer has to have read in sum.
    fn sum(&self) -> u64 {
        (0..self.messages).sum()
    }
}

// The nanoseconds of processors that the program has used, by all its threads.
fn used() -> u64 {
    #[repr(C)]
    struct Timespec(i64, i64);
    extern "C" {
        fn clock_gettime(clock: i32, time: *mut Timespec) -> i32;
    }
    let mut time = Timespec(0, 0);
    // SAFETY: the pointer is of a local; 2 is CLOCK_PROCESS_CPUTIME_ID.
    unsafe { clock_gettime(2, &mut time) };
    (time.0 * 1_000_000_000 + time.1) as u64
}

type Job<'a> = Box<dyn FnOnce() + Send + 'a>;

// Runs these at a time, and returns the nanoseconds that they took.
fn timed(jobs: Vec<Job<'_>>) -> u128 {
    let barrier = Barrier::new(jobs.len() + 1);
    thread::scope(|scope| {
        let threads: Vec<_> = jobs
            .into_iter()
            .map(|job| {
                let barrier = &barrier;
                scope.spawn(move || {
                    barrier.wait();
                    job();
                })
            })
            .collect();
        barrier.wait();
        let started = Instant::now();
        threads
            .into_iter()
            .for_each(|thread| thread.join().unwrap());
        started.elapsed().as_nanos()
    })
}

#[derive(Clone, Copy)]
enum By {
    InPlace,
    Each,
    Readers,
    Copies,
}

fn receive<M: MayWait>(from: &Subscriber<Message, M>, by: By, messages: u64) -> u64 {
    let (mut sum, mut left) = (0, messages);
    match by {
        By::InPlace => {
            let all = from.blocking_iter().take(messages as usize);
            return all.map(|sample| sample.unwrap()[0]).sum();
        }
        By::Copies => {
            return (0..messages)
                .map(|_| from.blocking_receive_copy().unwrap().unwrap()[0])
                .sum();
        }
        By::Readers => {
            let mut reader = from.reader();
            return (0..messages)
                .map(|_| reader.blocking_receive().unwrap().unwrap()[0])
                .sum();
        }
        By::Each => from.blocking_for_each(|message| {
            sum += message[0];
            left -= 1;
            if left == 0 {
                ControlFlow::Break(())
            } else {
                ControlFlow::Continue(())
            }
        }),
    }
    .unwrap();
    sum
}

fn send<M: MayWait>(to: &Publisher<Message, M>, by: By, messages: u64) {
    let mut writer = to.writer();
    for number in 0..messages {
        let sent = match by {
            By::Readers => writer.blocking_send(message(number)),
            By::Copies => to.blocking_send_copy(message(number)),
            _ => {
                let loan = to.loan_uninit().unwrap();
                loan.write_payload(message(number)).blocking_send()
            }
        };
        sent.unwrap().delivered();
    }
}

fn by_domain<M: MayWait>(domain: &Domain<Message, M>, sizes: &Sizes, by: By) -> u128
where
    Publisher<Message, M>: Send,
    Subscriber<Message, M>: Send,
{
    let publisher = domain.publisher().unwrap();
    let mut jobs: Vec<Job> = Vec::new();
    for _ in 0..sizes.consumers {
        let subscriber = domain.subscriber().unwrap();
        jobs.push(Box::new(move || {
            assert_eq!(receive(&subscriber, by, sizes.messages), sizes.sum())
        }));
    }
    jobs.push(Box::new(move || send(&publisher, by, sizes.messages)));
    timed(jobs)
}

// What a channel passes: one message for all its consumers, or a copy for each.
trait Passed: Clone + Send {
    fn of(message: Message) -> Self;
    fn number(&self) -> u64;
}

impl Passed for Arc<Message> {
    fn of(message: Message) -> Self {
        Arc::new(message)
    }

    fn number(&self) -> u64 {
        self[0]
    }
}

impl Passed for Message {
    fn of(message: Message) -> Self {
        message
    }

    fn number(&self) -> u64 {
        self[0]
    }
}

fn by_mpsc<T: Passed>(sizes: &Sizes) -> u128 {
    let (senders, receivers): (Vec<_>, Vec<_>) = (0..sizes.consumers)
        .map(|_| mpsc::sync_channel::<T>(sizes.buffer))
        .unzip();
    let mut jobs: Vec<Job> = Vec::new();
    for receiver in receivers {
        jobs.push(Box::new(move || {
            let sum: u64 = receiver.iter().map(|message| message.number()).sum();
            assert_eq!(sum, sizes.sum());
        }));
    }
    jobs.push(Box::new(move || {
        for number in 0..sizes.messages {
            let sent = T::of(message(number));
            senders
                .iter()
                .for_each(|sender| sender.send(sent.clone()).unwrap());
        }
    }));
    timed(jobs)
}

#[cfg(crossbeam)]
fn by_crossbeam(sizes: &Sizes) -> u128 {
    let (senders, receivers): (Vec<_>, Vec<_>) = (0..sizes.consumers)
        .map(|_| crossbeam_channel::bounded::<Arc<Message>>(sizes.buffer))
        .unzip();
    let mut jobs: Vec<Job> = Vec::new();
    for receiver in receivers {
        jobs.push(Box::new(move || {
            assert_eq!(
                receiver.iter().map(|message| message[0]).sum::<u64>(),
                sizes.sum()
            );
        }));
    }
    jobs.push(Box::new(move || {
        for number in 0..sizes.messages {
            let sent = Arc::new(message(number));
            senders
                .iter()
                .for_each(|sender| sender.send(sent.clone()).unwrap());
        }
    }));
    timed(jobs)
}

#[cfg(not(crossbeam))]
fn by_crossbeam(_: &Sizes) -> u128 {
    panic!("compiled without crossbeam-channel");
}

// What a message costs that one thread passes to itself.
fn alone<M: Threads>(domain: &Domain<Message, M>, sizes: &Sizes) -> u128 {
    let publisher = domain.publisher().unwrap();
    let subscribers: Vec<_> = (0..sizes.consumers)
        .map(|_| domain.subscriber().unwrap())
        .collect();
    let started = Instant::now();
    let mut sum = 0;
    for number in 0..sizes.messages {
        let loan = publisher
            .loan_uninit()
            .unwrap()
            .write_payload(message(number));
        loan.send().unwrap().delivered();
        for subscriber in &subscribers {
            while let Some(sample) = subscriber.receive().unwrap() {
                sum += sample[0];
            }
        }
    }
    assert_eq!(sum, sizes.sum() * sizes.consumers as u64);
    started.elapsed().as_nanos()
}

fn run(what: &str, sizes: &Sizes) -> u128 {
    let shared = || sizes.domain().create_shared().unwrap();
    let readers = || sizes.domain_for_readers().create_shared().unwrap();
    match what {
        "in-place" => by_domain(&shared(), sizes, By::InPlace),
        "each" => by_domain(&shared(), sizes, By::Each),
        "reader" => by_domain(&readers(), sizes, By::Readers),
        "copy" => by_domain(&shared(), sizes, By::Copies),
        "borrowed-in-place" => by_domain(&shared().borrowed(), sizes, By::InPlace),
        "borrowed-each" => by_domain(&shared().borrowed(), sizes, By::Each),
        "borrowed-reader" => by_domain(&readers().borrowed(), sizes, By::Readers),
        "borrowed-copy" => by_domain(&shared().borrowed(), sizes, By::Copies),
        "mpsc" => by_mpsc::<Arc<Message>>(sizes),
        "mpsc-values" => by_mpsc::<Message>(sizes),
        "crossbeam" => by_crossbeam(sizes),
        "alone-one-thread" => alone(&sizes.domain().create().unwrap(), sizes),
        "alone-shared" => alone(&shared(), sizes),
        "alone-borrowed" => alone(&shared().borrowed(), sizes),
        _ => panic!("there is no {what}"),
    }
}

fn main() {
    let words: Vec<String> = std::env::args().collect();
    let [_, what, consumers, messages, buffer] = &words[..] else {
        panic!("usage: compare_threads WHAT CONSUMERS MESSAGES BUFFER");
    };
    let sizes = Sizes {
        consumers: consumers.parse().unwrap(),
        messages: messages.parse().unwrap(),
        buffer: buffer.parse().unwrap(),
    };
    let before = used();
    let took = run(what, &sizes);
    let of = sizes.messages as f64;
    println!(
        "{:.0} {:.0}",
        took as f64 / of,
        (used() - before) as f64 / of
    );
}
