// SPDX-License-Identifier: Apache-2.0 OR MIT
//! Receives in tasks and event loops, and what is called when a message may have come.

mod turns;

use iox2_pubsub::{Domain, LoanError, ManyThreads, SharedDomain, Subscriber};
use std::future::Future;
use std::sync::atomic::{AtomicUsize, Ordering};
use std::sync::{mpsc, Arc, Mutex};
use std::task::{Context, Poll, Wake, Waker};
use std::thread::{self, Thread};
use std::time::{Duration, Instant};
use turns::{asleep_after, Watched};

const MOMENT: Duration = Duration::from_millis(20);

fn domain() -> SharedDomain<u64> {
    Domain::<u64>::builder(1)
        .subscriber_max_buffer_size(8)
        .enable_safe_overflow(false)
        .create_shared()
        .unwrap()
}

// A runtime of one task, on its own thread.
struct Unpark(Thread, AtomicUsize);

impl Wake for Unpark {
    fn wake(self: Arc<Self>) {
        self.1.fetch_add(1, Ordering::SeqCst);
        self.0.unpark();
    }
}

fn waker() -> (Arc<Unpark>, Waker) {
    let unpark = Arc::new(Unpark(thread::current(), AtomicUsize::new(0)));
    (unpark.clone(), Waker::from(unpark))
}

fn run<F: Future>(future: F) -> F::Output {
    let mut future = Box::pin(future);
    let (_, waker) = waker();
    loop {
        match future.as_mut().poll(&mut Context::from_waker(&waker)) {
            Poll::Ready(output) => return output,
            Poll::Pending => thread::park(),
        }
    }
}

// Whether it is ready.
fn polls(subscriber: &Subscriber<u64, ManyThreads>, waker: &Waker) -> bool {
    let context = &mut Context::from_waker(waker);
    subscriber.poll_receive(context).is_ready()
}

#[test]
fn a_task_waits_for_messages() {
    let domain = Domain::<u64>::builder(1).enable_safe_overflow(false);
    let domain = domain.create_with_lock::<Watched>().unwrap();
    let publisher = domain.publisher().unwrap();
    let subscriber = &domain.subscriber().unwrap();
    thread::scope(|scope| {
        // A poll that finds nothing takes the lock once, and then the task is woken, whether it has parked or not.
        let task = asleep_after(scope, 1, || {
            run(async {
                let mut all = Vec::new();
                while let Some(sample) = subscriber.receive_async().await.unwrap() {
                    all.push(*sample);
                }
                all
            })
        });
        // Each message by itself: a poll that finds it, its release, and the next poll; and then one behind the other.
        for number in 0..25 {
            publisher.send_copy(number).unwrap().delivered();
            task.has_had(1 + 3 * (number as usize + 1));
        }
        for number in 25..50 {
            publisher.blocking_send_copy(number).unwrap().delivered();
        }
        domain.stop_waits(true);
        assert!(task.join().into_iter().eq(0..50));
    });
}

#[test]
fn a_task_is_woken_once() {
    let domain = domain();
    let publisher = domain.publisher().unwrap();
    let subscriber = domain.subscriber().unwrap();
    let (unpark, waker) = waker();
    let wakes = || unpark.1.load(Ordering::SeqCst);
    for _ in 0..5 {
        assert!(!polls(&subscriber, &waker));
    }
    publisher.send_copy(1).unwrap().delivered();
    assert_eq!(wakes(), 1);
    publisher.send_copy(2).unwrap().delivered();
    assert_eq!(wakes(), 1);
    assert_eq!(*run(subscriber.receive_async()).unwrap().unwrap(), 1);
    assert_eq!(*run(subscriber.receive_async()).unwrap().unwrap(), 2);
    // Whose subscriber goes isn't woken any more.
    assert!(!polls(&subscriber, &waker));
    drop(subscriber);
    publisher.send_copy(3).unwrap().delivered();
    assert_eq!(wakes(), 1);
}

#[test]
fn a_waker_that_is_forgotten_is_dropped_and_no_other_is() {
    let domain = domain();
    let publisher = domain.publisher().unwrap();
    let subscribers = [domain.subscriber().unwrap(), domain.subscriber().unwrap()];
    let tasks = [waker(), waker()];
    for (_, waker) in &tasks {
        for subscriber in &subscribers {
            assert!(!polls(subscriber, waker));
        }
    }
    let [(first, first_waker), (second, second_waker)] = tasks;
    subscribers[0].forget_waker(&first_waker);
    subscribers[0].forget_waker(&first_waker);
    publisher.send_copy(1).unwrap().delivered();
    let wakes = |task: &Unpark| task.1.load(Ordering::SeqCst);
    assert_eq!((wakes(&first), wakes(&second)), (1, 2));
    for subscriber in &subscribers {
        assert_eq!(subscriber.receive_copy().unwrap(), Some(1));
        assert!(!polls(subscriber, &second_waker));
        subscriber.forget_waker(&second_waker);
    }
    drop((first_waker, second_waker));
    assert_eq!(
        (Arc::strong_count(&first), Arc::strong_count(&second)),
        (1, 1)
    );
}

#[test]
fn two_tasks_share_a_subscriber_and_a_stop_ends_both() {
    let domain = domain();
    let publisher = domain.publisher().unwrap();
    let subscriber = domain.subscriber().unwrap();
    thread::scope(|scope| {
        let tasks: Vec<_> = (0..2)
            .map(|_| {
                scope.spawn(|| {
                    let mut count = 0;
                    while run(subscriber.receive_async()).unwrap().is_some() {
                        count += 1;
                    }
                    count
                })
            })
            .collect();
        for number in 0..200 {
            publisher.blocking_send_copy(number).unwrap().delivered();
        }
        while subscriber.has_samples().unwrap() {
            thread::yield_now();
        }
        domain.stop_waits(true);
        let counts: Vec<i32> = tasks.into_iter().map(|task| task.join().unwrap()).collect();
        assert_eq!(counts.iter().sum::<i32>(), 200);
    });
}

#[test]
fn a_listener_is_called_without_the_lock() {
    let domain = domain();
    let publisher = domain.publisher().unwrap();
    let subscriber = Arc::new(domain.subscriber().unwrap());
    let all = Arc::new(Mutex::new(Vec::new()));
    let (weak, into) = (Arc::downgrade(&subscriber), all.clone());
    subscriber.set_listener(move || {
        let subscriber = weak.upgrade().unwrap();
        // All calls may be made; one that waits tries once.
        while let Some(number) = subscriber.receive_copy().unwrap() {
            into.lock().unwrap().push(number);
        }
        assert_eq!(subscriber.blocking_receive_copy().unwrap(), None);
        assert!(subscriber.blocking_receive().unwrap().is_none());
        assert_eq!(subscriber.blocking_iter().count(), 0);
    });
    for number in 0..20 {
        publisher.send_copy(number).unwrap().delivered();
        let mut loan = publisher.loan().unwrap();
        *loan = 100 + number;
        loan.send().unwrap().delivered();
    }
    let expected: Vec<u64> = (0..20).flat_map(|number| [number, 100 + number]).collect();
    assert_eq!(*all.lock().unwrap(), expected);
    subscriber.clear_listener();
    publisher.send_copy(7).unwrap().delivered();
    assert_eq!(all.lock().unwrap().len(), 40);
    assert_eq!(subscriber.receive_copy().unwrap(), Some(7));
}

#[test]
fn a_listener_that_sends_isnt_called_inside_of_itself() {
    let domain = domain();
    let publisher = Arc::new(domain.publisher().unwrap());
    let subscriber = domain.subscriber().unwrap();
    let (depth, calls) = (Arc::new(AtomicUsize::new(0)), Arc::new(AtomicUsize::new(0)));
    let (sends, inside, called) = (publisher.clone(), depth.clone(), calls.clone());
    subscriber.set_listener(move || {
        assert_eq!(inside.fetch_add(1, Ordering::SeqCst), 0);
        let call = called.fetch_add(1, Ordering::SeqCst) as u64;
        if call < 3 {
            sends.send_copy(100 + call).unwrap().delivered();
            // A loan that never comes isn't waited for.
            let _two = [sends.loan().unwrap(), sends.loan().unwrap()];
            let third = sends.blocking_loan_uninit();
            assert_eq!(third.unwrap_err(), LoanError::ExceedsMaxLoans);
        }
        inside.fetch_sub(1, Ordering::SeqCst);
    });
    publisher.send_copy(1).unwrap().delivered();
    assert!(calls.load(Ordering::SeqCst) >= 4);
    let received: Vec<u64> = subscriber.iter().map(|sample| *sample.unwrap()).collect();
    assert_eq!(received, [1, 100, 101, 102]);
}

#[test]
fn a_listener_that_panics_ends_alone() {
    let domain = domain();
    let publisher = domain.publisher().unwrap();
    let subscribers = [domain.subscriber().unwrap(), domain.subscriber().unwrap()];
    let calls = Arc::new(AtomicUsize::new(0));
    subscribers[0].set_listener(|| panic!("as this test wants it"));
    let called = calls.clone();
    subscribers[1].set_listener(move || {
        called.fetch_add(1, Ordering::SeqCst);
    });
    for number in 1..4 {
        assert_eq!(publisher.send_copy(number).unwrap().delivered(), Some(2));
        assert_eq!(calls.load(Ordering::SeqCst), number as usize);
    }
    // No thread thinks that it still calls a listener.
    assert_eq!(subscribers[0].blocking_receive_copy().unwrap(), Some(1));
    let started = Instant::now();
    assert!(domain
        .subscriber()
        .unwrap()
        .timed_receive(MOMENT)
        .unwrap()
        .is_none());
    assert!(started.elapsed() >= MOMENT);
}

#[test]
fn a_listener_goes_with_its_subscriber_and_may_own_other_handles() {
    let domain = domain();
    let publisher = domain.publisher().unwrap();
    let subscriber = domain.subscriber().unwrap();
    let other = domain.subscriber().unwrap();
    let counted = Arc::new(());
    let held = counted.clone();
    subscriber.set_listener(move || {
        let _ = (&other, &held);
    });
    assert_eq!(publisher.send_copy(1).unwrap().delivered(), Some(2));
    // The listener's own handle is dropped without the lock, which it needs.
    drop(subscriber);
    assert_eq!(Arc::strong_count(&counted), 1);
    assert_eq!(publisher.send_copy(2).unwrap().delivered(), Some(0));
}

#[test]
fn listeners_are_set_and_cleared_while_others_send() {
    let domain = Domain::<u64>::builder(1).create_shared().unwrap();
    let publisher = domain.publisher().unwrap();
    let subscriber = domain.subscriber().unwrap();
    let calls = Arc::new(AtomicUsize::new(0));
    thread::scope(|scope| {
        let sends = scope.spawn(|| {
            for number in 0..3000 {
                publisher.send_copy(number).unwrap().delivered();
            }
        });
        while !sends.is_finished() {
            let calls = calls.clone();
            subscriber.set_listener(move || {
                calls.fetch_add(1, Ordering::SeqCst);
            });
            subscriber.receive().unwrap();
            subscriber.clear_listener();
        }
    });
    assert_eq!(Arc::strong_count(&calls), 1);
}

#[cfg(target_os = "linux")]
mod descriptor {
    use super::*;
    use std::os::unix::io::AsRawFd;

    #[repr(C)]
    struct PollFd {
        descriptor: i32,
        events: i16,
        returned: i16,
    }

    extern "C" {
        fn poll(descriptors: *mut PollFd, count: u64, milliseconds: i32) -> i32;
    }

    // Within that many milliseconds; -1 waits for good.
    fn is_readable(of: &impl AsRawFd, milliseconds: i32) -> bool {
        let mut one = PollFd {
            descriptor: of.as_raw_fd(),
            events: 1,
            returned: 0,
        };
        // SAFETY: the pointer is of one local.
        unsafe { poll(&mut one, 1, milliseconds) == 1 }
    }

    fn receive_all(subscriber: &Subscriber<u64, ManyThreads>) -> Vec<u64> {
        subscriber.iter().map(|sample| *sample.unwrap()).collect()
    }

    #[test]
    fn a_descriptor_is_readable_when_a_message_came() {
        let domain = domain();
        let publisher = domain.publisher().unwrap();
        let subscriber = domain.subscriber().unwrap();
        let descriptor = subscriber.message_fd().unwrap();
        assert!(is_readable(&descriptor, 0));
        descriptor.reset().unwrap();
        descriptor.reset().unwrap();
        assert!(!is_readable(&descriptor, 5));
        for number in 0..3 {
            publisher.send_copy(number).unwrap().delivered();
        }
        assert!(is_readable(&descriptor, 0));
        descriptor.reset().unwrap();
        assert_eq!(receive_all(&subscriber), [0, 1, 2]);
        assert!(!is_readable(&descriptor, 0));
        drop(subscriber);
        publisher.send_copy(3).unwrap().delivered();
        assert!(!is_readable(&descriptor, 0));
    }

    #[test]
    fn an_event_loop_misses_nothing() {
        const MESSAGES: u64 = 2000;
        let domain = Domain::<u64>::builder(1)
            .enable_safe_overflow(false)
            .create_shared()
            .unwrap();
        let publisher = domain.publisher().unwrap();
        let subscriber = domain.subscriber().unwrap();
        let (tell, told) = mpsc::channel();
        let reads = thread::spawn(move || {
            let descriptor = subscriber.message_fd().unwrap();
            let mut next = 0;
            while next < MESSAGES {
                assert!(is_readable(&descriptor, -1));
                descriptor.reset().unwrap();
                for number in receive_all(&subscriber) {
                    assert_eq!(number, next);
                    next += 1;
                }
            }
            tell.send(next).unwrap();
        });
        for number in 0..MESSAGES {
            publisher.blocking_send_copy(number).unwrap().delivered();
        }
        assert_eq!(told.recv(), Ok(MESSAGES));
        reads.join().unwrap();
    }
}
