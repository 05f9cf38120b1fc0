// SPDX-License-Identifier: Apache-2.0 OR MIT
//! What stays of futures that were polled.

use iox2_pubsub::{Domain, ManyThreads, Receive, SharedDomain, Subscriber};
use std::future::Future;
use std::pin::Pin;
use std::sync::atomic::{AtomicUsize, Ordering};
use std::sync::Arc;
use std::task::{Context, Wake, Waker};

#[derive(Default)]
struct Task(AtomicUsize);

impl Wake for Task {
    fn wake(self: Arc<Self>) {
        self.0.fetch_add(1, Ordering::SeqCst);
    }
}

impl Task {
    fn wakes(&self) -> usize {
        self.0.load(Ordering::SeqCst)
    }
}

fn task() -> (Arc<Task>, Waker) {
    let task = Arc::new(Task::default());
    (task.clone(), Waker::from(task))
}

fn domain() -> SharedDomain<u64> {
    Domain::<u64>::builder(1).create_shared().unwrap()
}

// Whether it is ready.
fn poll(future: &mut Receive<'_, u64, ManyThreads>, waker: &Waker) -> bool {
    let context = &mut Context::from_waker(waker);
    Pin::new(future).poll(context).is_ready()
}

fn polls(subscriber: &Subscriber<u64, ManyThreads>, waker: &Waker) -> bool {
    let context = &mut Context::from_waker(waker);
    subscriber.poll_receive(context).is_ready()
}

#[test]
fn no_task_stays_of_futures_that_are_dropped() {
    let domain = domain();
    let (publisher, subscriber) = (domain.publisher().unwrap(), domain.subscriber().unwrap());
    let (task, waker) = task();
    for _ in 0..10_000 {
        let (task, waker) = self::task();
        assert!(!poll(&mut subscriber.receive_async(), &waker));
        drop(waker);
        assert_eq!(Arc::strong_count(&task), 1);
    }
    assert!(!poll(&mut subscriber.receive_async(), &waker));
    publisher.send_copy(1).unwrap().delivered();
    assert_eq!(task.wakes(), 0);
    assert_eq!(subscriber.receive_copy().unwrap(), Some(1));
}

#[test]
fn a_future_that_goes_leaves_the_others_of_its_task() {
    let domain = domain();
    let (publisher, subscriber) = (domain.publisher().unwrap(), domain.subscriber().unwrap());
    let (task, waker) = task();
    let (mut stays, mut goes) = (subscriber.receive_async(), subscriber.receive_async());
    assert!(!poll(&mut stays, &waker));
    assert!(!poll(&mut goes, &waker));
    drop(goes);
    publisher.send_copy(1).unwrap().delivered();
    assert_eq!(task.wakes(), 1);
    assert!(poll(&mut stays, &waker));
    // What polls the subscriber itself is woken, too; and is forgotten without the futures.
    let mut future = subscriber.receive_async();
    assert!(!polls(&subscriber, &waker));
    assert!(!poll(&mut future, &waker));
    subscriber.forget_waker(&waker);
    publisher.send_copy(2).unwrap().delivered();
    assert_eq!(task.wakes(), 2);
    drop(future);
    assert_eq!(subscriber.receive_copy().unwrap(), Some(2));
    assert!(!polls(&subscriber, &waker));
    assert!(!poll(&mut subscriber.receive_async(), &waker));
    publisher.send_copy(3).unwrap().delivered();
    assert_eq!(task.wakes(), 3);
}

#[test]
fn a_future_wakes_the_task_that_polled_it_last() {
    let domain = domain();
    let (publisher, subscriber) = (domain.publisher().unwrap(), domain.subscriber().unwrap());
    let [(first, first_waker), (last, last_waker)] = [task(), task()];
    let mut future = subscriber.receive_async();
    assert!(!poll(&mut future, &first_waker));
    assert!(!poll(&mut future, &last_waker));
    drop(first_waker);
    assert_eq!(Arc::strong_count(&first), 1);
    publisher.send_copy(1).unwrap().delivered();
    assert_eq!((first.wakes(), last.wakes()), (0, 1));
    assert!(poll(&mut future, &last_waker));
}

#[test]
fn futures_that_are_ready_keep_no_task() {
    let domain = domain();
    let (publisher, subscriber) = (domain.publisher().unwrap(), domain.subscriber().unwrap());
    let (task, waker) = task();
    let (mut first, mut second) = (subscriber.receive_async(), subscriber.receive_async());
    assert!(!poll(&mut first, &waker));
    publisher.send_copy(1).unwrap().delivered();
    // Found in the list again, where a poll is made for no reason.
    assert_eq!(subscriber.receive_copy().unwrap(), Some(1));
    assert!(!poll(&mut first, &waker));
    assert!(!poll(&mut second, &waker));
    domain.stop_waits(true);
    assert!(poll(&mut first, &waker));
    assert!(poll(&mut second, &waker));
    drop(waker);
    assert_eq!(Arc::strong_count(&task), 1);
}
