// SPDX-License-Identifier: Apache-2.0 OR MIT
//! No call that passes a message takes memory, whether it waits or not. What is counted here is what this crate takes; the
//! archive's own is counted by `tools/memory_of_messages`.

use iox2_pubsub::{
    CallbackProgression, Domain, DomainBuilder, MayWait, Publisher, SendOutcome, Subscriber,
    WaitSet, WaitSetRunResult,
};
use std::alloc::{GlobalAlloc, Layout, System};
use std::cell::Cell;
use std::future::Future;
use std::pin::Pin;
use std::sync::atomic::{AtomicUsize, Ordering};
use std::sync::{Arc, Barrier};
use std::task::{Context, Wake, Waker};
use std::thread;
use std::time::Duration;

struct Counting;

thread_local! {
    static TAKEN: Cell<usize> = const { Cell::new(0) };
}

// SAFETY: it is the system's, which is counted.
unsafe impl GlobalAlloc for Counting {
    unsafe fn alloc(&self, layout: Layout) -> *mut u8 {
        let _ = TAKEN.try_with(|taken| taken.set(taken.get() + 1));
        System.alloc(layout)
    }

    unsafe fn dealloc(&self, start: *mut u8, layout: Layout) {
        System.dealloc(start, layout);
    }
}

#[global_allocator]
static COUNTING: Counting = Counting;

// This takes no memory on its thread.
#[track_caller]
fn takes_none(run: impl FnOnce()) {
    let before = TAKEN.with(Cell::get);
    run();
    assert_eq!(TAKEN.with(Cell::get) - before, 0);
}

fn keeping() -> DomainBuilder<u64> {
    Domain::<u64>::builder(1)
        .subscriber_max_buffer_size(1)
        .enable_safe_overflow(false)
}

#[test]
fn a_message_takes_none() {
    let domain = Domain::<u64>::builder(1).create().unwrap();
    let (publisher, subscriber) = (domain.publisher().unwrap(), domain.subscriber().unwrap());
    takes_none(|| {
        for number in 0..100 {
            let loan = publisher.loan_uninit().unwrap().write_payload(number);
            assert_eq!(loan.send().unwrap().delivered(), Some(1));
            drop(publisher.loan().unwrap());
            assert_eq!(*subscriber.receive().unwrap().unwrap(), number);
            assert!(subscriber.receive().unwrap().is_none());
            publisher.send_copy(number).unwrap().delivered();
            assert_eq!(subscriber.receive_copy().unwrap(), Some(number));
        }
    });
}

#[test]
fn a_send_that_is_blocked_takes_none() {
    let domain = keeping().create().unwrap();
    let (publisher, subscriber) = (domain.publisher().unwrap(), domain.subscriber().unwrap());
    publisher.send_copy(0).unwrap().delivered();
    takes_none(|| {
        for number in 0..100 {
            let sent = publisher.send_copy(number + 1).unwrap();
            assert!(matches!(sent, SendOutcome::Blocked(_)));
            let sent = sent.blocked().unwrap().retry(Duration::ZERO).unwrap();
            assert_eq!(subscriber.receive_copy().unwrap(), Some(number));
            let sent = sent.blocked().unwrap().retry(Duration::ZERO).unwrap();
            assert_eq!(sent.delivered(), Some(1));
            let blocked = publisher.send_copy(0).unwrap().blocked().unwrap();
            assert_eq!(blocked.give_up().unwrap().delivered(), Some(0));
        }
    });
}

// The one sends what the other answers, so that each waits for the other each time.
fn plays<M: MayWait>(sends: &Publisher<u64, M>, receives: &Subscriber<u64, M>, first: Option<u64>) {
    takes_none(|| {
        if let Some(number) = first {
            sends.blocking_send_copy(number).unwrap().delivered();
        }
        while let Some(number) = receives.blocking_receive_copy().unwrap() {
            sends.blocking_send_copy(number + 1).unwrap().delivered();
            if number > 200 {
                break;
            }
        }
    });
}

// Also not the first wait of a thread.
#[test]
fn threads_that_wait_take_none() {
    let (one, other) = (keeping().create_shared(), keeping().create_shared());
    let (one, other) = (one.unwrap(), other.unwrap());
    let ports = (one.publisher().unwrap(), other.subscriber().unwrap());
    let others = (other.publisher().unwrap(), one.subscriber().unwrap());
    thread::scope(|scope| {
        scope.spawn(|| plays(&others.0, &others.1, None));
        scope.spawn(|| plays(&ports.0, &ports.1, Some(0)));
    });
}

// A send waits for room, a loan for a loan, and a receive until its time is up.
#[test]
fn each_kind_of_wait_takes_none() {
    let domain = keeping().create_shared().unwrap();
    let (publisher, subscriber) = (domain.publisher().unwrap(), domain.subscriber().unwrap());
    let begins = Barrier::new(2);
    thread::scope(|scope| {
        scope.spawn(|| {
            takes_none(|| {
                let nothing = subscriber.timed_receive_copy(Duration::from_millis(20));
                assert_eq!(nothing.unwrap(), None);
            });
            begins.wait();
            takes_none(|| {
                for number in 0..100 {
                    let loan = publisher.blocking_loan_uninit().unwrap();
                    let sent = loan.write_payload(number).blocking_send().unwrap();
                    assert_eq!(sent.delivered(), Some(1));
                }
            });
        });
        begins.wait();
        for number in 0..100 {
            let sample = subscriber.blocking_receive().unwrap().unwrap();
            assert_eq!(*sample, number);
        }
    });
}

#[test]
fn a_writer_takes_none_nor_does_a_reader_that_was_made() {
    let domain = Domain::<u64>::builder(1).create_shared().unwrap();
    let (publisher, subscriber) = (domain.publisher().unwrap(), domain.subscriber().unwrap());
    let (mut writer, mut reader) = (publisher.writer(), subscriber.reader());
    // Its first wait lets the domain know it.
    let none = reader.timed_receive(Duration::ZERO).unwrap();
    assert_eq!(none, None);
    takes_none(|| {
        for number in 0..100 {
            writer.send(number).unwrap().delivered();
            assert_eq!(reader.blocking_receive().unwrap(), Some(&number));
        }
    });
}

#[test]
fn a_set_takes_none_where_it_waits() {
    let domain = Domain::<u64>::builder(1).create_shared().unwrap();
    let (publisher, subscriber) = (domain.publisher().unwrap(), domain.subscriber().unwrap());
    let set = WaitSet::new();
    let moment = Duration::from_millis(1);
    let of_subscriber = set.attach_deadline(&subscriber, moment).unwrap();
    let _of_publisher = set.attach_notification(&publisher).unwrap();
    let _of_time = set.attach_interval(moment).unwrap();
    let (mut events, mut missed) = (0, 0);
    takes_none(|| {
        publisher.send_copy(1).unwrap().delivered();
        let ended = set.wait_and_process(|id| {
            if id.has_event_from(&of_subscriber) {
                assert_eq!(subscriber.receive_copy(), Ok(Some(1)));
            }
            missed += usize::from(id.has_missed_deadline(&of_subscriber));
            events += 1;
            match events < 20 || missed == 0 {
                true => CallbackProgression::Continue,
                false => CallbackProgression::Stop,
            }
        });
        assert_eq!(ended, Ok(WaitSetRunResult::StopRequest));
    });
}

#[derive(Default)]
struct Task(AtomicUsize);

impl Wake for Task {
    fn wake(self: Arc<Self>) {
        self.0.fetch_add(1, Ordering::SeqCst);
    }
}

#[test]
fn tasks_and_listeners_take_none() {
    let domain = Domain::<u64>::builder(1).create_shared().unwrap();
    let (publisher, subscriber) = (domain.publisher().unwrap(), domain.subscriber().unwrap());
    let others: Vec<_> = (0..3).map(|_| domain.subscriber().unwrap()).collect();
    let answers = Domain::<u64>::builder(2).create_shared().unwrap();
    let (answer, answered) = (answers.publisher().unwrap(), answers.subscriber().unwrap());
    answered.set_listener(|| ());
    // A listener that sends puts off those whom that calls.
    subscriber.set_listener(move || {
        answer.send_copy(1).unwrap().delivered();
    });
    let task = Arc::new(Task::default());
    let waker = Waker::from(task.clone());
    let context = &mut Context::from_waker(&waker);
    takes_none(|| {
        for number in 0..100 {
            let mut future = subscriber.receive_async();
            assert!(Pin::new(&mut future).poll(context).is_pending());
            for other in &others {
                assert!(other.poll_receive(context).is_pending());
            }
            publisher.send_copy(number).unwrap().delivered();
            assert!(Pin::new(&mut future).poll(context).is_ready());
            for other in &others {
                assert!(other.poll_receive(context).is_ready());
            }
            assert_eq!(answered.receive_copy().unwrap(), Some(1));
        }
    });
    assert_eq!(task.0.load(Ordering::SeqCst), 400);
}
