// SPDX-License-Identifier: Apache-2.0 OR MIT
//! Sixteen threads make, use, hand over and drop everything, for SECONDS seconds: `soak SECONDS SEED`. Each
//! message is accounted for: a subscriber gets those of each publisher one after the other from the first
//! that it gets, and in the end the last of each that was sent while it was connected. Only what was given up
//! may be missing. Ends with a line of counts.

mod numbers;

use iox2_pubsub::*;
use numbers::Random;
use std::collections::{HashMap, HashSet};
use std::panic::{catch_unwind, AssertUnwindSafe};
use std::sync::atomic::{AtomicU64, Ordering};
use std::sync::{Arc, Mutex, MutexGuard, PoisonError};
use std::task::{Context, Poll, Wake, Waker};
use std::thread;
use std::time::{Duration, Instant};

const THREADS: u64 = 16;
const TIME: Duration = Duration::from_micros(300);

/// The publisher's name, the message's number among its messages, and their sum, in all the rest.
type Message = [u64; 8];

fn lock<T>(mutex: &Mutex<T>) -> MutexGuard<'_, T> {
    mutex.lock().unwrap_or_else(PoisonError::into_inner)
}

fn message(publisher: u64, number: u64) -> Message {
    let mut message = [publisher.wrapping_add(number); 8];
    message[0] = publisher;
    message[1] = number;
    message
}

fn read(message: &Message) -> (u64, u64) {
    let [publisher, number, rest @ ..] = *message;
    assert_eq!(
        rest,
        [publisher.wrapping_add(number); 6],
        "a message is torn"
    );
    (publisher, number)
}

/// Sends in the order of its numbers: they are given under its lock, in which the send is made.
struct Source {
    publisher: Publisher<Message, ManyThreads>,
    name: u64,
    sent: Mutex<u64>,
}

/// What a subscriber has got, which is looked at in the order of its receives.
struct Reader {
    subscriber: Subscriber<Message, ManyThreads>,
    last: Mutex<HashMap<u64, u64>>,
}

#[derive(Default)]
struct Counts {
    sent: AtomicU64,
    received: AtomicU64,
    blocked: AtomicU64,
    given_up: AtomicU64,
    panics: AtomicU64,
    made: AtomicU64,
    called: AtomicU64,
}

fn add(count: &AtomicU64) {
    count.fetch_add(1, Ordering::Relaxed);
}

#[derive(Default)]
struct Things {
    sources: Vec<Arc<Source>>,
    readers: Vec<Arc<Reader>>,
    samples: Vec<(Sample<Message, ManyThreads>, (u64, u64))>,
    blocked: Vec<Waiting>,
}

/// A send that waits, of this message.
struct Waiting(BlockedSend<Message, ManyThreads>, (u64, u64));

/// What all threads of one domain share.
struct Round {
    domain: SharedDomain<Message>,
    pool: Mutex<Things>,
    // Messages that may not have reached everybody.
    given_up: Mutex<HashSet<(u64, u64)>>,
    names: AtomicU64,
    counts: Arc<Counts>,
}

struct Worker<'r> {
    random: Random,
    round: &'r Round,
    own: Things,
}

impl Reader {
    /// Receives by this, and looks whether the message is the next of its publisher.
    fn receive<R>(
        &self,
        round: &Round,
        by: impl FnOnce(&Subscriber<Message, ManyThreads>) -> Result<Option<R>, ReceiveError>,
        read: impl FnOnce(&R) -> (u64, u64),
    ) -> Option<R> {
        let mut last = lock(&self.last);
        let received = match by(&self.subscriber) {
            Ok(received) => received?,
            Err(ReceiveError::ExceedsMaxBorrows) => return None,
            Err(error) => panic!("{error}"),
        };
        account(&mut last, round, read(&received));
        Some(received)
    }

    /// The same of all that a reader takes at once. Meanwhile no other thread may receive a later message.
    fn read_all(&self, round: &Round, capacity: usize, wait: Option<Duration>) {
        let mut last = lock(&self.last);
        let mut reader = self.subscriber.reader_with_capacity(capacity);
        loop {
            let received = match wait {
                Some(time) => reader.timed_receive(time),
                None => reader.receive(),
            };
            match received {
                Ok(Some(message)) => account(&mut last, round, read(message)),
                Ok(None) | Err(ReceiveError::ExceedsMaxBorrows) => return,
                Err(error) => panic!("{error}"),
            }
            if reader.unread() == 0 {
                return;
            }
        }
    }
}

// Of a subscriber that has got these last, the next.
fn account(last: &mut HashMap<u64, u64>, round: &Round, (publisher, number): (u64, u64)) {
    if let Some(before) = last.insert(publisher, number) {
        let given_up = lock(&round.given_up);
        let missing = (before + 1..number).filter(|it| !given_up.contains(&(publisher, *it)));
        assert_eq!(
            missing.count(),
            0,
            "messages are missing between {before} and {number}"
        );
        assert!(number > before, "{number} came after {before}");
    }
    add(&round.counts.received);
}

struct Nobody;

impl Wake for Nobody {
    fn wake(self: Arc<Self>) {}
}

impl Worker<'_> {
    fn make_source(&mut self) {
        let loans = self.random.below(4);
        let factory = self.round.domain.publisher_builder();
        let factory = factory
            .max_loaned_samples(loans)
            .override_sample_preallocation(move |worst| worst - loans.min(worst / 2));
        if let Ok(publisher) = factory.create() {
            add(&self.round.counts.made);
            self.own.sources.push(Arc::new(Source {
                publisher,
                name: self.round.names.fetch_add(1, Ordering::Relaxed),
                sent: Mutex::new(0),
            }));
        }
    }

    fn make_reader(&mut self) {
        let factory = self.round.domain.subscriber_builder();
        if let Ok(subscriber) = factory.buffer_size(1 + self.random.below(4)).create() {
            add(&self.round.counts.made);
            self.own.readers.push(Arc::new(Reader {
                subscriber,
                last: Mutex::default(),
            }));
        }
    }

    // One of its own, or one that others have too.
    fn source(&mut self) -> Option<Arc<Source>> {
        let own = self.random.of(&self.own.sources).cloned();
        own.or_else(|| self.random.of(&lock(&self.round.pool).sources).cloned())
    }

    fn reader(&mut self) -> Option<Arc<Reader>> {
        let own = self.random.of(&self.own.readers).cloned();
        own.or_else(|| self.random.of(&lock(&self.round.pool).readers).cloned())
    }

    fn send(&mut self) {
        let Some(source) = self.source() else {
            return;
        };
        let mut sent = lock(&source.sent);
        let next = message(source.name, *sent + 1);
        let publisher = &source.publisher;
        let outcome = match self.random.below(6) {
            4 => publisher.writer().send(next),
            5 => publisher.writer().timed_send(next, TIME),
            0 => publisher.send_copy(next),
            1 => publisher.timed_send_copy(next, TIME),
            2 => match publisher.timed_loan_uninit(TIME) {
                Ok(loan) => loan
                    .write_payload(next)
                    .timed_send(TIME)
                    .map_err(SendError::from),
                Err(error) => Err(error.into()),
            },
            _ => match publisher.loan_uninit() {
                Ok(loan) => loan.write_payload(next).send(),
                Err(error) => Err(error.into()),
            },
        };
        let outcome = match outcome {
            Ok(outcome) => outcome,
            Err(SendError::LoanError(_) | SendError::PublisherIsBlocked) => return,
            Err(error) => panic!("{error}"),
        };
        *sent += 1;
        add(&self.round.counts.sent);
        if let SendOutcome::Blocked(blocked) = outcome {
            add(&self.round.counts.blocked);
            self.own
                .blocked
                .push(Waiting(blocked, (source.name, *sent)));
        }
    }

    fn end_blocked(&mut self) {
        let Some(Waiting(blocked, message)) = self.random.take(&mut self.own.blocked) else {
            return;
        };
        let outcome = match self.random.below(400) {
            0 => {
                self.gives_up(message);
                blocked.give_up()
            }
            1 => {
                self.gives_up(message);
                return drop(blocked);
            }
            2..=120 => blocked.retry(Duration::ZERO),
            _ => blocked.timed_retry(TIME),
        };
        if let SendOutcome::Blocked(blocked) = outcome.unwrap() {
            self.own.blocked.push(Waiting(blocked, message));
        }
    }

    // Before it is given up, so that no reader looks too early.
    fn gives_up(&self, message: (u64, u64)) {
        lock(&self.round.given_up).insert(message);
        add(&self.round.counts.given_up);
    }

    fn receive(&mut self) {
        // Who keeps all keeps others from receiving.
        if self.own.samples.len() > 1 {
            drop(self.random.take(&mut self.own.samples));
        }
        let Some(reader) = self.reader() else {
            return;
        };
        let round = self.round;
        let sample = match self.random.below(8) {
            6 | 7 => {
                let wait = (self.random.below(3) == 0).then_some(TIME);
                return reader.read_all(round, self.random.below(5), wait);
            }
            0 => {
                reader.receive(round, Subscriber::receive_copy, read);
                return;
            }
            1 => {
                reader.receive(round, |from| from.timed_receive_copy(TIME), read);
                return;
            }
            2 => reader.receive(
                round,
                |from| from.timed_receive(TIME),
                |sample| read(sample),
            ),
            3 => reader.receive(round, polled, |sample| read(sample)),
            _ => reader.receive(round, Subscriber::receive, |sample| read(sample)),
        };
        self.own.samples.extend(sample.map(|sample| {
            let message = read(&sample);
            (sample, message)
        }));
    }

    fn listen(&mut self) {
        if let Some(reader) = self.random.of(&self.own.readers) {
            let (weak, counts) = (Arc::downgrade(reader), self.round.counts.clone());
            match self.random.below(3) {
                0 => reader.subscriber.clear_listener(),
                1 => drop(reader.subscriber.message_fd().unwrap().reset()),
                _ => reader.subscriber.set_listener(move || {
                    if counts.called.fetch_add(1, Ordering::Relaxed) % 16 == 0 {
                        if let Some(reader) = weak.upgrade() {
                            assert!(reader.subscriber.has_samples().is_ok());
                        }
                    }
                }),
            }
        }
    }

    fn exchange(&mut self) {
        let (random, own) = (&mut self.random, &mut self.own);
        let mut pool = lock(&self.round.pool);
        match random.below(6) {
            0 => own.samples.extend(random.take(&mut pool.samples)),
            1 => pool.samples.extend(random.take(&mut own.samples)),
            2 => own.blocked.extend(random.take(&mut pool.blocked)),
            3 => pool.blocked.extend(random.take(&mut own.blocked)),
            4 => {
                pool.sources.extend(random.of(&own.sources).cloned());
                own.sources.extend(random.take(&mut pool.sources));
            }
            _ => {
                pool.readers.extend(random.of(&own.readers).cloned());
                own.readers.extend(random.take(&mut pool.readers));
            }
        }
    }

    // What a thread has that panics goes with it.
    fn panic(&mut self) {
        if self.random.below(100) != 0 {
            return;
        }
        let samples: Vec<_> = self.own.samples.drain(..).collect();
        let blocked = self.random.take(&mut self.own.blocked);
        if let Some(Waiting(_, message)) = &blocked {
            self.gives_up(*message);
        }
        let reader = self.random.take(&mut self.own.readers);
        let caught = catch_unwind(AssertUnwindSafe(move || {
            let _all = (samples, blocked, reader);
            panic!("as this program wants it");
        }));
        assert!(caught.is_err());
        add(&self.round.counts.panics);
    }

    fn act(&mut self) {
        // A send that waits keeps its publisher from others.
        if !self.own.blocked.is_empty() && self.random.below(2) == 0 {
            return self.end_blocked();
        }
        match self.random.below(1000) {
            0..=9 => self.make_source(),
            10..=29 => self.make_reader(),
            30..=299 => self.send(),
            300..=429 => self.end_blocked(),
            430..=779 => self.receive(),
            780..=781 => self.listen(),
            782..=839 => self.exchange(),
            840..=979 => drop(self.random.take(&mut self.own.samples)),
            980..=982 => drop(self.random.take(&mut self.own.sources)),
            983..=989 => drop(self.random.take(&mut self.own.readers)),
            990 => self.panic(),
            991 => self.round.domain.stop_waits(true),
            _ => self.round.domain.stop_waits(false),
        }
        for (sample, message) in &self.own.samples {
            assert_eq!(read(sample), *message, "a sample has changed");
        }
    }
}

fn polled(
    subscriber: &Subscriber<Message, ManyThreads>,
) -> Result<Option<Sample<Message, ManyThreads>>, ReceiveError> {
    let waker = Waker::from(Arc::new(Nobody));
    match subscriber.poll_receive(&mut Context::from_waker(&waker)) {
        Poll::Ready(received) => received,
        Poll::Pending => Ok(None),
    }
}

/// All threads have ended: what is left arrives, and then each reader has the last message of each source that it
/// has ever got one of.
fn settle(round: &Round, mut left: Things) {
    left.samples.clear();
    while let Some(Waiting(blocked, message)) = left.blocked.pop() {
        drain(round, &left.readers);
        if let SendOutcome::Blocked(blocked) = blocked.retry(Duration::ZERO).unwrap() {
            left.blocked.push(Waiting(blocked, message));
        }
    }
    drain(round, &left.readers);
    for source in &left.sources {
        let sent = *lock(&source.sent);
        for reader in &left.readers {
            let got = lock(&reader.last).get(&source.name).copied();
            let given_up = lock(&round.given_up);
            let reached = (1..=sent)
                .rev()
                .find(|number| !given_up.contains(&(source.name, *number)));
            assert!(
                got.is_none() || got >= reached,
                "the last message didn't come"
            );
        }
    }
}

fn drain(round: &Round, readers: &[Arc<Reader>]) {
    for reader in readers {
        while reader
            .receive(round, Subscriber::receive_copy, read)
            .is_some()
        {}
    }
}

fn round(random: &mut Random, counts: &Arc<Counts>, until: Instant) {
    let domain = Domain::<Message>::builder(1)
        .max_publishers(1 + random.below(8))
        .max_subscribers(1 + random.below(16))
        .subscriber_max_buffer_size(4)
        .subscriber_max_borrowed_samples(1 + random.below(4))
        .history_size(random.below(3))
        .subscriber_expired_connection_buffer(16)
        .enable_safe_overflow(false)
        .create_shared()
        .unwrap();
    let round = Round {
        domain,
        pool: Mutex::default(),
        given_up: Mutex::default(),
        names: AtomicU64::new(1),
        counts: counts.clone(),
    };
    let mut left = Things::default();
    thread::scope(|scope| {
        let threads: Vec<_> = (0..THREADS)
            .map(|_| {
                let mut worker = Worker {
                    random: Random(random.next()),
                    round: &round,
                    own: Things::default(),
                };
                scope.spawn(move || {
                    while Instant::now() < until {
                        worker.act();
                    }
                    worker.own
                })
            })
            .collect();
        for thread in threads {
            gather(&mut left, thread.join().expect("a thread failed"));
        }
    });
    gather(&mut left, std::mem::take(&mut *lock(&round.pool)));
    settle(&round, left);
    assert_eq!(
        (round.domain.book_count(), round.domain.connection_count()),
        (0, 0)
    );
}

fn gather(all: &mut Things, some: Things) {
    all.sources.extend(some.sources);
    all.readers.extend(some.readers);
    all.samples.extend(some.samples);
    all.blocked.extend(some.blocked);
}

// Kibibytes of memory that the program has now.
fn memory() -> u64 {
    let status = std::fs::read_to_string("/proc/self/status").unwrap_or_default();
    let line = status.lines().find_map(|line| line.strip_prefix("VmRSS:"));
    line.and_then(|line| line.trim().trim_end_matches(" kB").parse().ok())
        .unwrap_or(0)
}

fn main() {
    let words: Vec<u64> = std::env::args()
        .skip(1)
        .map(|word| word.parse().unwrap())
        .collect();
    let [seconds, seed] = words[..] else {
        panic!("usage: soak SECONDS SEED");
    };
    std::panic::set_hook(Box::new(|info| {
        let said = info.to_string();
        if !said.contains("as this program wants it") {
            eprintln!("{said}");
        }
    }));
    let (counts, mut random) = (Arc::new(Counts::default()), Random(seed));
    let ends = Instant::now() + Duration::from_secs(seconds);
    let (mut rounds, mut first) = (0, 0);
    while Instant::now() < ends {
        let time = Duration::from_millis(200 + random.below(1800) as u64);
        round(&mut random, &counts, ends.min(Instant::now() + time));
        rounds += 1;
        if rounds == 5 {
            first = memory();
        }
    }
    let of = |count: &AtomicU64| count.load(Ordering::Relaxed);
    println!(
        "{rounds} domains, {} ports made, {} messages sent, {} of them blocked and {} given up, {} received, {} listeners called, \
         {} panics; memory {first} KiB after five domains, {} in the end",
        of(&counts.made), of(&counts.sent), of(&counts.blocked), of(&counts.given_up), of(&counts.received),
        of(&counts.called), of(&counts.panics), memory()
    );
}
