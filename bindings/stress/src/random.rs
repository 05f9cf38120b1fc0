// SPDX-License-Identifier: Apache-2.0 OR MIT
//! Makes random calls on one domain from several threads: `random SEED CALLS THREADS SCRIPT REPLIES`. What is
//! between this and the archive (lock_order.c) writes down the calls in the order of the lock.
//!
//! Handles are made by one thread and used, sent or dropped by another: each thread has some of its own, and some lie
//! where all take from. Loans are written and samples read without the lock, while the others call.

mod numbers;

use iox2_pubsub::*;
use numbers::Random;
use std::cell::Cell;
use std::ffi::CString;
use std::os::raw::c_char;
use std::sync::{Arc, Mutex};
use std::task::{Context, Poll, Wake, Waker};
use std::time::Duration;

#[cfg(pthread_lock)]
mod pthread_lock;
#[cfg(pthread_lock)]
type Lock = pthread_lock::PthreadLock;
#[cfg(not(pthread_lock))]
type Lock = StdLock;

type Message = [u64; 8];
type M = ManyThreads<Lock>;

extern "C" {
    fn lock_order_begin(script: *const c_char, replies: *const c_char);
    fn lock_order_end();
}

const TIME: Duration = Duration::from_micros(200);

// A task that nobody wakes.
struct Nobody;

impl Wake for Nobody {
    fn wake(self: Arc<Self>) {}
}

thread_local! {
    static CALLED: Cell<u64> = const { Cell::new(0) };
}

#[derive(Default)]
struct Things {
    publishers: Vec<Arc<Publisher<Message, M>>>,
    subscribers: Vec<Arc<Subscriber<Message, M>>>,
    loans: Vec<Loan<Message, M>>,
    blocked: Vec<BlockedSend<Message, M>>,
    samples: Vec<(Sample<Message, M>, u64)>,
}

struct Worker<'p> {
    random: Random,
    domain: SharedDomain<Message, Lock>,
    own: Things,
    pool: &'p Mutex<Things>,
    value: u64,
    reads: u64,
}

fn read(message: &Message) -> u64 {
    assert!(message.iter().all(|word| *word == message[0]), "torn");
    message[0]
}

impl Worker<'_> {
    fn next_value(&mut self) -> u64 {
        self.value += 1;
        self.value
    }

    fn sent(&mut self, sent: Result<SendOutcome<Message, M>, SendError>) {
        let waits = self.random.below(4) == 0;
        let sent = match sent {
            Ok(outcome) if waits => outcome.timed_wait(TIME),
            outcome => outcome,
        };
        if let Ok(SendOutcome::Blocked(blocked)) = sent {
            self.own.blocked.push(blocked);
        }
    }

    fn send(&mut self, loan: Loan<Message, M>) {
        let sent = match self.random.below(4) {
            0 => loan.timed_send(TIME),
            _ => loan.send_or_keep(),
        };
        match sent {
            Ok(sent) => self.sent(Ok(sent)),
            Err(unsent) => self.own.loans.extend(unsent.into_loan()),
        }
    }

    fn lend(&mut self, publisher: &Publisher<Message, M>) {
        let lent = match self.random.below(6) {
            0 => publisher.timed_loan_uninit(TIME),
            _ => publisher.loan_uninit(),
        };
        if let Ok(loan) = lent {
            let value = self.next_value();
            self.own.loans.push(loan.write_payload([value; 8]));
        }
    }

    fn receive(&mut self, subscriber: &Subscriber<Message, M>) {
        let received = match self.random.below(12) {
            0 => subscriber.timed_receive(TIME),
            1 => {
                if let Ok(Some(message)) = subscriber.receive_copy() {
                    read(&message);
                }
                return;
            }
            2 => {
                if let Ok(Some(message)) = subscriber.timed_receive_copy(TIME) {
                    read(&message);
                }
                return;
            }
            3 => {
                let waker = Waker::from(Arc::new(Nobody));
                match subscriber.poll_receive(&mut Context::from_waker(&waker)) {
                    Poll::Ready(received) => received,
                    Poll::Pending => return,
                }
            }
            4 => {
                subscriber.set_listener(|| CALLED.with(|called| called.set(called.get() + 1)));
                return;
            }
            5 => return subscriber.clear_listener(),
            _ => subscriber.receive(),
        };
        if let Ok(Some(sample)) = received {
            let value = read(&sample);
            self.own.samples.push((sample, value));
        }
    }

    // By a reader, which may have some messages when it goes that it hasn't read.
    fn read_on(&mut self, subscriber: &Subscriber<Message, M>) {
        let mut reader = subscriber.reader_with_capacity(self.random.below(5));
        for _ in 0..self.random.below(7) {
            let received = match self.random.below(6) {
                0 => reader.timed_receive(TIME),
                _ => reader.receive(),
            };
            match received {
                Ok(Some(message)) => drop(read(message)),
                _ => return,
            }
            self.reads += 1;
        }
    }

    // By a writer, whose loan is written without the lock.
    fn write_on(&mut self, publisher: &Publisher<Message, M>) {
        let mut writer = publisher.writer();
        for _ in 0..self.random.below(4) {
            let value = self.next_value();
            let sent = match self.random.below(4) {
                0 => writer.timed_send([value; 8], TIME),
                _ => writer.send([value; 8]),
            };
            self.sent(sent);
        }
    }

    // Reads all messages that it has, without the lock.
    fn read_all(&mut self) {
        for (sample, value) in &self.own.samples {
            assert_eq!(read(sample), *value, "a sample has changed");
            self.reads += 1;
        }
    }

    fn exchange(&mut self) {
        let random = &mut self.random;
        // Helgrind knows no lock of the standard library.
        if cfg!(no_pool) {
            return;
        }
        // Never waits: the standard library's code for a lock that is taken isn't seen by the thread sanitizer.
        let Ok(mut pool) = self.pool.try_lock() else {
            return;
        };
        match random.below(6) {
            0 => self.own.samples.extend(random.take(&mut pool.samples)),
            1 => pool.samples.extend(random.take(&mut self.own.samples)),
            2 => {
                self.own.loans.extend(random.take(&mut pool.loans));
                pool.blocked.extend(random.take(&mut self.own.blocked));
            }
            3 => {
                pool.loans.extend(random.take(&mut self.own.loans));
                self.own.blocked.extend(random.take(&mut pool.blocked));
            }
            4 => {
                let shared = random.of(&self.own.publishers).cloned();
                pool.publishers.extend(shared);
                self.own
                    .publishers
                    .extend(random.take(&mut pool.publishers));
            }
            _ => {
                let shared = random.of(&self.own.subscribers).cloned();
                pool.subscribers.extend(shared);
                self.own
                    .subscribers
                    .extend(random.take(&mut pool.subscribers));
            }
        }
    }

    fn call(&mut self) {
        let which = self.random.below(106);
        let random = &mut self.random;
        match which {
            0..=3 => {
                let strategy = match random.below(2) {
                    0 => BackpressureStrategy::DiscardData,
                    _ => BackpressureStrategy::RetryUntilDelivered,
                };
                let factory = self.domain.publisher_builder();
                let factory = factory
                    .max_loaned_samples(random.below(4))
                    .backpressure_strategy(strategy);
                self.own
                    .publishers
                    .extend(factory.create().ok().map(Arc::new));
            }
            4..=7 => {
                let factory = self
                    .domain
                    .subscriber_builder()
                    .buffer_size(random.below(5));
                self.own
                    .subscribers
                    .extend(factory.create().ok().map(Arc::new));
            }
            8..=19 => {
                let Some(publisher) = random.of(&self.own.publishers).cloned() else {
                    return;
                };
                self.lend(&publisher);
            }
            20..=31 => {
                let Some(mut loan) = random.take(&mut self.own.loans) else {
                    return;
                };
                // Once more, in place. What a blocked publisher hands back is as it was: the script writes once.
                if read(&loan) % 2 == 0 {
                    let value = read(&loan);
                    for word in loan.iter_mut() {
                        *word = value;
                    }
                }
                self.send(loan);
            }
            32..=41 => {
                let Some(publisher) = random.of(&self.own.publishers).cloned() else {
                    return;
                };
                let waits = random.below(4) == 0;
                let value = self.next_value();
                let sent = if waits {
                    publisher.timed_send_copy([value; 8], TIME)
                } else {
                    publisher.send_copy([value; 8])
                };
                self.sent(sent);
            }
            42..=44 => drop(random.take(&mut self.own.loans)),
            45..=52 => {
                let Some(blocked) = random.take(&mut self.own.blocked) else {
                    return;
                };
                let sent = match random.below(4) {
                    0 => blocked.retry(Duration::ZERO),
                    1 => blocked.give_up(),
                    2 => blocked.timed_retry(TIME),
                    _ => return drop(blocked),
                };
                self.sent(sent);
            }
            53..=72 => {
                let Some(subscriber) = random.of(&self.own.subscribers).cloned() else {
                    return;
                };
                self.receive(&subscriber);
            }
            73..=75 => {
                if let Some(subscriber) = random.of(&self.own.subscribers) {
                    let _ = subscriber.has_samples();
                }
            }
            76..=78 => match random.below(2) {
                0 => {
                    if let Some(publisher) = random.of(&self.own.publishers) {
                        let _ = publisher.update_connections();
                    }
                }
                _ => {
                    if let Some(subscriber) = random.of(&self.own.subscribers) {
                        let _ = subscriber.update_connections();
                    }
                }
            },
            79..=83 => self.exchange(),
            84..=96 => drop(random.take(&mut self.own.samples)),
            97..=99 => {
                if let Some(subscriber) = random.of(&self.own.subscribers).cloned() {
                    self.read_on(&subscriber);
                }
            }
            100..=102 => {
                if let Some(publisher) = random.of(&self.own.publishers).cloned() {
                    self.write_on(&publisher);
                }
            }
            _ => match random.below(2) {
                0 => drop(random.take(&mut self.own.publishers)),
                _ => drop(random.take(&mut self.own.subscribers)),
            },
        }
    }
}

fn main() {
    let words: Vec<String> = std::env::args().collect();
    let [_, seed, calls, threads, script, replies] = &words[..] else {
        panic!("usage: stress SEED CALLS THREADS SCRIPT REPLIES");
    };
    let (seed, calls, threads): (u64, usize, u64) = (
        seed.parse().unwrap(),
        calls.parse().unwrap(),
        threads.parse().unwrap(),
    );
    let mut random = Random(seed);
    let (script, replies) = (
        CString::new(script.as_str()).unwrap(),
        CString::new(replies.as_str()).unwrap(),
    );
    unsafe { lock_order_begin(script.as_ptr(), replies.as_ptr()) };

    let domain = Domain::<Message>::builder(1)
        .max_publishers(1 + random.below(4))
        .max_subscribers(2 + random.below(4))
        .subscriber_max_buffer_size(random.below(4))
        .subscriber_max_borrowed_samples(1 + random.below(3))
        .history_size(random.below(4))
        .subscriber_expired_connection_buffer(random.below(4))
        .enable_safe_overflow(random.below(3) == 0)
        .create_with_lock::<Lock>()
        .unwrap();
    let pool = Mutex::new(Things::default());
    let (mut reads, mut left) = (0, Vec::new());
    std::thread::scope(|scope| {
        let workers: Vec<_> = (0..threads)
            .map(|thread| {
                let mut worker = Worker {
                    random: Random(seed * 1000 + thread),
                    domain: domain.clone(),
                    own: Things::default(),
                    pool: &pool,
                    value: (thread + 1) << 40,
                    reads: 0,
                };
                scope.spawn(move || {
                    for _ in 0..calls / threads as usize {
                        worker.call();
                        if worker.random.below(4) == 0 {
                            std::thread::yield_now();
                        }
                        worker.read_all();
                    }
                    let all = std::mem::take(&mut worker.own);
                    (worker.reads, all)
                })
            })
            .collect();
        for worker in workers {
            let (read, all) = worker.join().unwrap();
            reads += read;
            left.push(all);
        }
    });
    drop((left, pool));
    drop(domain);
    unsafe { lock_order_end() };
    eprintln!("{reads} reads without the lock");
}
