// SPDX-License-Identifier: Apache-2.0 OR MIT
//! Locks, also one that is brought, and handles that borrow their domain.

mod turns;

use iox2_pubsub::{
    BackpressureStrategy, Borrowed, Domain, DomainLock, Loan, ManyThreads, Publisher, Sample,
    StdLock, Subscriber, Threads,
};
use std::cell::UnsafeCell;
use std::ffi::c_void;
use std::sync::atomic::{AtomicUsize, Ordering};
use std::sync::{mpsc, Arc, Barrier};
use std::thread;
use std::time::Duration;
use turns::{asleep_after, Watched, TO_SLEEP};

extern "C" {
    fn pthread_mutexattr_init(attributes: *mut c_void) -> i32;
    fn pthread_mutexattr_destroy(attributes: *mut c_void) -> i32;
    fn pthread_mutexattr_setprotocol(attributes: *mut c_void, protocol: i32) -> i32;
    fn pthread_mutexattr_getprotocol(attributes: *const c_void, protocol: *mut i32) -> i32;
    fn pthread_mutex_init(mutex: *mut c_void, attributes: *const c_void) -> i32;
    fn pthread_mutex_destroy(mutex: *mut c_void) -> i32;
    fn pthread_mutex_lock(mutex: *mut c_void) -> i32;
    fn pthread_mutex_unlock(mutex: *mut c_void) -> i32;
}

const PTHREAD_PRIO_INHERIT: i32 = 1;

// Lends its holder the priority of whoever waits for it. The C library's mutex has 40 bytes, and stays where it is.
struct Inheriting(Box<UnsafeCell<[u64; 16]>>);

thread_local! {
    // How often this thread has had one, for who asks on another thread.
    static TURNS: Arc<AtomicUsize> = Arc::default();
}

// SAFETY: a mutex is for many threads.
unsafe impl Send for Inheriting {}
unsafe impl Sync for Inheriting {}

struct Unlock<'l>(&'l Inheriting);

impl Drop for Unlock<'_> {
    fn drop(&mut self) {
        // SAFETY: it was taken.
        assert_eq!(unsafe { pthread_mutex_unlock(self.0 .0.get().cast()) }, 0);
    }
}

// SAFETY: it is a mutex.
unsafe impl DomainLock for Inheriting {
    const WAKES_ALL: bool = true;
    const LOOKS: u32 = 0;

    fn new() -> Self {
        let lock = Inheriting(Box::new(UnsafeCell::new([0; 16])));
        let (mut attributes, mut protocol) = ([0u64; 8], 0);
        let at: *mut c_void = attributes.as_mut_ptr().cast();
        // SAFETY: the pointers are of places with room enough.
        unsafe {
            assert_eq!(pthread_mutexattr_init(at), 0);
            assert_eq!(pthread_mutexattr_setprotocol(at, PTHREAD_PRIO_INHERIT), 0);
            assert_eq!(pthread_mutexattr_getprotocol(at, &mut protocol), 0);
            assert_eq!(protocol, PTHREAD_PRIO_INHERIT);
            assert_eq!(pthread_mutex_init(lock.0.get().cast(), at), 0);
            assert_eq!(pthread_mutexattr_destroy(at), 0);
        }
        lock
    }

    fn hold<R>(&self, run: impl FnOnce() -> R) -> R {
        // SAFETY: it was made.
        assert_eq!(unsafe { pthread_mutex_lock(self.0.get().cast()) }, 0);
        let _unlock = Unlock(self);
        TURNS.with(|turns| turns.fetch_add(1, Ordering::SeqCst));
        run()
    }
}

impl Drop for Inheriting {
    fn drop(&mut self) {
        // SAFETY: nobody has it.
        assert_eq!(unsafe { pthread_mutex_destroy(self.0.get().cast()) }, 0);
    }
}

// Whose threads sleep at once, and are woken one by one.
type Sleepy = Watched<0>;

fn keeping() -> iox2_pubsub::DomainBuilder<u64> {
    Domain::<u64>::builder(1)
        .enable_safe_overflow(false)
        .backpressure_strategy(BackpressureStrategy::RetryUntilDelivered)
}

// Two producers and four consumers. Each consumer gets all in order.
fn all_in_order<M>(domain: &Domain<u64, M>)
where
    M: iox2_pubsub::MayWait,
    Publisher<u64, M>: Sync,
    Subscriber<u64, M>: Sync,
{
    const MESSAGES: u64 = 1000;
    let publishers = [domain.publisher().unwrap(), domain.publisher().unwrap()];
    let subscribers: Vec<_> = (0..4).map(|_| domain.subscriber().unwrap()).collect();
    thread::scope(|scope| {
        for (of, publisher) in publishers.iter().enumerate() {
            scope.spawn(move || {
                for number in 0..MESSAGES {
                    let loan = publisher.blocking_loan_uninit().unwrap();
                    let loan = loan.write_payload(number << 1 | of as u64);
                    assert_eq!(loan.blocking_send().unwrap().delivered(), Some(4));
                }
            });
        }
        for subscriber in &subscribers {
            scope.spawn(move || {
                let mut next = [0, 0];
                for sample in subscriber.blocking_iter().take(2 * MESSAGES as usize) {
                    let value = *sample.unwrap();
                    assert_eq!(value >> 1, next[(value & 1) as usize]);
                    next[(value & 1) as usize] += 1;
                }
                assert_eq!(next, [MESSAGES; 2]);
            });
        }
    });
}

#[test]
fn a_lock_with_inheritance_is_brought() {
    let domain = keeping().create_with_lock::<Inheriting>().unwrap();
    all_in_order(&domain);
    let subscriber = domain.subscriber().unwrap();
    let waits = Duration::from_millis(5);
    assert!(subscriber.timed_receive(waits).unwrap().is_none());
    thread::scope(|scope| {
        let (tell, told) = mpsc::channel();
        let subscriber = &subscriber;
        let receives = scope.spawn(move || {
            tell.send(TURNS.with(Arc::clone)).unwrap();
            subscriber.blocking_receive().unwrap().is_none()
        });
        let turns = told.recv().unwrap();
        while turns.load(Ordering::SeqCst) < TO_SLEEP {
            thread::yield_now();
        }
        domain.stop_waits(true);
        assert!(receives.join().unwrap());
    });
}

#[test]
fn threads_that_sleep_at_once_are_woken_one_by_one() {
    let domain = keeping().create_with_lock::<Sleepy>().unwrap();
    all_in_order(&domain);
    // A call that doesn't wait wakes too.
    let (publisher, subscriber) = (domain.publisher().unwrap(), domain.subscriber().unwrap());
    let receive = || subscriber.blocking_receive_copy().unwrap();
    thread::scope(|scope| {
        let receives = asleep_after(scope, TO_SLEEP, receive);
        assert_eq!(publisher.send_copy(7).unwrap().delivered(), Some(1));
        assert_eq!(receives.join(), Some(7));
    });
}

#[test]
fn the_end_of_a_send_wakes_who_waits_for_it() {
    let domain = keeping().create_with_lock::<Sleepy>().unwrap();
    let (publisher, subscriber) = (domain.publisher().unwrap(), domain.subscriber().unwrap());
    let loan = publisher.loan_uninit().unwrap().write_payload(4);
    for number in 1..3 {
        assert_eq!(publisher.send_copy(number).unwrap().delivered(), Some(1));
    }
    let blocked = publisher.send_copy(3).unwrap().blocked().unwrap();
    thread::scope(|scope| {
        let send = || loan.blocking_send().unwrap().delivered();
        let sends = asleep_after(scope, TO_SLEEP, send);
        assert_eq!(subscriber.receive_copy().unwrap(), Some(1));
        let ended = blocked.retry(Duration::ZERO).unwrap();
        assert_eq!(ended.delivered(), Some(1));
        // It has tried again, is blocked by the full buffer, and sleeps again.
        sends.has_had(TO_SLEEP + 1 + TO_SLEEP);
        for number in 2..5 {
            let received = subscriber.blocking_receive_copy().unwrap();
            assert_eq!(received, Some(number));
        }
        assert_eq!(sends.join(), Some(1));
    });
}

#[test]
fn a_thread_that_finds_nothing_keeps_no_message_from_others() {
    let domain = keeping().create_with_lock::<Sleepy>().unwrap();
    let publisher = domain.publisher().unwrap();
    let (shared, own) = (domain.subscriber().unwrap(), domain.subscriber().unwrap());
    thread::scope(|scope| {
        let receive = || shared.blocking_receive_copy().unwrap();
        let first = asleep_after(scope, TO_SLEEP, receive);
        let second = asleep_after(scope, TO_SLEEP, receive);
        let receive = || own.blocking_receive_copy().unwrap();
        let third = asleep_after(scope, TO_SLEEP, receive);
        assert_eq!(publisher.send_copy(7).unwrap().delivered(), Some(2));
        assert_eq!(third.join(), Some(7));
        domain.stop_waits(true);
        assert_eq!((first.join(), second.join()), (Some(7), None));
    });
}

#[test]
fn a_lock_lets_in_one_thread_at_a_time() {
    const THREADS: usize = 8;
    let (lock, come, inside) = (StdLock::new(), Barrier::new(THREADS), AtomicUsize::new(0));
    let enter = || {
        come.wait();
        lock.hold(|| {
            assert_eq!(inside.fetch_add(1, Ordering::SeqCst), 0);
            // The others are on their way, and have turns to come in.
            for _ in 0..200 {
                assert_eq!(inside.load(Ordering::SeqCst), 1);
                thread::yield_now();
            }
            inside.store(0, Ordering::SeqCst);
        });
    };
    thread::scope(|scope| (0..THREADS).for_each(|_| drop(scope.spawn(enter))));
}

#[test]
fn handles_of_threads_may_borrow_their_domain() {
    fn goes<T: Send + Sync>() {}
    goes::<Publisher<u64, Borrowed<'_, ManyThreads>>>();
    goes::<Loan<u64, Borrowed<'_, ManyThreads>>>();
    goes::<Sample<[u8], Borrowed<'_, ManyThreads<Inheriting>>>>();
    let domain = keeping().create_shared().unwrap();
    all_in_order(&domain.borrowed());
    all_in_order(&domain.borrowed().borrowed());
    all_in_order(&domain);
    assert_eq!(domain.book_count(), 0);
}

fn passes<M: Threads>(domain: &Domain<u64, M>) {
    let (publisher, subscriber) = (domain.publisher().unwrap(), domain.subscriber().unwrap());
    let mut loan = publisher.loan().unwrap();
    *loan = 7;
    assert_eq!(loan.send().unwrap().delivered(), Some(1));
    let sample = subscriber.receive().unwrap().unwrap();
    drop((publisher, subscriber));
    assert_eq!(*sample, 7);
    assert_eq!(domain.book_count(), 1);
    drop(sample);
    assert_eq!(domain.book_count(), 0);
}

#[test]
fn handles_of_one_thread_may_borrow_their_domain() {
    let domain = Domain::<u64>::builder(1).create().unwrap();
    passes(&domain.borrowed());
    passes(&domain);
    // Both kinds are of one domain.
    let publisher = domain.borrowed().publisher().unwrap();
    let subscriber = domain.subscriber().unwrap();
    assert_eq!(publisher.send_copy(3).unwrap().delivered(), Some(1));
    assert_eq!(subscriber.receive_copy().unwrap(), Some(3));
}
