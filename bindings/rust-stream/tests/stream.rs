// SPDX-License-Identifier: Apache-2.0 OR MIT
//! Streams in a runtime of one task on each thread, which parks and is unparked.

use futures_core::{FusedStream, Stream};
use iox2_pubsub::{Borrowed, Domain, ManyThreads, ReceiveError, SharedDomain};
use iox2_pubsub_stream::SubscriberStream;
use std::future::Future;
use std::pin::Pin;
use std::sync::atomic::{AtomicUsize, Ordering};
use std::sync::{mpsc, Arc};
use std::task::{Context, Poll, Wake, Waker};
use std::thread::{self, Thread};

fn domain() -> SharedDomain<u64> {
    Domain::<u64>::builder(1)
        .subscriber_max_buffer_size(8)
        .enable_safe_overflow(false)
        .create_shared()
        .unwrap()
}

// A task on this thread, and how often it was woken.
struct Task(Thread, AtomicUsize);

impl Wake for Task {
    fn wake(self: Arc<Self>) {
        self.1.fetch_add(1, Ordering::SeqCst);
        self.0.unpark();
    }
}

impl Task {
    fn new() -> Arc<Task> {
        Arc::new(Task(thread::current(), AtomicUsize::new(0)))
    }

    fn wakes(&self) -> usize {
        self.1.load(Ordering::SeqCst)
    }
}

fn run<F: Future>(future: F) -> F::Output {
    run_counted(future, &AtomicUsize::new(0))
}

// The same, and counts how often it waits, for who asks on another thread.
fn run_counted<F: Future>(future: F, waits: &AtomicUsize) -> F::Output {
    let mut future = Box::pin(future);
    let waker = Waker::from(Task::new());
    loop {
        match future.as_mut().poll(&mut Context::from_waker(&waker)) {
            Poll::Ready(output) => return output,
            Poll::Pending => {
                waits.fetch_add(1, Ordering::SeqCst);
                thread::park();
            }
        }
    }
}

// `next` of the crate `futures`.
struct Next<'s, S>(&'s mut S);

impl<S: Stream + Unpin> Future for Next<'_, S> {
    type Output = Option<S::Item>;

    fn poll(mut self: Pin<&mut Self>, context: &mut Context<'_>) -> Poll<Self::Output> {
        Pin::new(&mut *self.0).poll_next(context)
    }
}

fn poll_by<S: Stream + Unpin>(stream: &mut S, task: &Arc<Task>) -> Poll<Option<S::Item>> {
    let waker = Waker::from(task.clone());
    Pin::new(stream).poll_next(&mut Context::from_waker(&waker))
}

// How many wakers of this task somebody else has.
fn wakers(task: &Arc<Task>) -> usize {
    Arc::strong_count(task) - 1
}

#[test]
fn a_task_gets_each_message_in_order_until_waits_are_stopped() {
    let domain = domain();
    let publisher = domain.publisher().unwrap();
    let mut messages = SubscriberStream::new(domain.subscriber().unwrap());
    let task = thread::spawn(move || {
        run(async move {
            let mut all = Vec::new();
            while let Some(sample) = Next(&mut messages).await {
                all.push(*sample.unwrap());
            }
            assert!(messages.is_terminated());
            all
        })
    });
    for number in 0..2000 {
        publisher.blocking_send_copy(number).unwrap().delivered();
    }
    domain.stop_waits(true);
    assert!(task.join().unwrap().into_iter().eq(0..2000));
}

#[test]
fn a_send_wakes_a_stream_that_waits() {
    let domain = domain();
    let publisher = domain.publisher().unwrap();
    let mut messages = SubscriberStream::new(domain.subscriber().unwrap());
    let (tell, told) = mpsc::channel();
    let waits = Arc::new(AtomicUsize::new(0));
    let counted = waits.clone();
    let task = thread::spawn(move || {
        let receive = async move {
            while let Some(sample) = Next(&mut messages).await {
                tell.send(*sample.unwrap()).unwrap();
            }
        };
        run_counted(receive, &counted);
    });
    for number in 0..20 {
        while waits.load(Ordering::SeqCst) <= number as usize {
            thread::yield_now();
        }
        publisher.send_copy(number).unwrap().delivered();
        assert_eq!(told.recv(), Ok(number));
    }
    domain.stop_waits(true);
    task.join().unwrap();
}

#[test]
fn what_waits_comes_before_the_end() {
    let domain = domain();
    let publisher = domain.publisher().unwrap();
    let mut messages = SubscriberStream::from(domain.subscriber().unwrap());
    let task = Task::new();
    assert!(poll_by(&mut messages, &task).is_pending());
    assert!(!messages.is_terminated());
    domain.stop_waits(true);
    assert_eq!(task.wakes(), 1);
    for number in 1..3 {
        publisher.send_copy(number).unwrap().delivered();
    }
    for number in 1..3 {
        match poll_by(&mut messages, &task) {
            Poll::Ready(Some(Ok(sample))) => assert_eq!(*sample, number),
            other => panic!("{other:?}"),
        }
    }
    assert!(matches!(poll_by(&mut messages, &task), Poll::Ready(None)));
    assert!(messages.is_terminated());
    // It stays at its end, also where waits go on and a message comes.
    domain.stop_waits(false);
    publisher.send_copy(3).unwrap().delivered();
    assert!(matches!(poll_by(&mut messages, &task), Poll::Ready(None)));
    let subscriber = messages.into_subscriber();
    assert_eq!(subscriber.receive_copy().unwrap(), Some(3));
}

#[test]
fn a_refusal_is_the_last() {
    let domain = domain();
    let publisher = domain.publisher().unwrap();
    let mut messages = SubscriberStream::new(domain.subscriber().unwrap());
    for number in 0..4 {
        publisher.send_copy(number).unwrap().delivered();
    }
    let mut kept = Vec::new();
    let refusal = run(async {
        loop {
            match Next(&mut messages).await.unwrap() {
                Ok(sample) => kept.push(sample),
                Err(error) => return error,
            }
        }
    });
    assert_eq!(refusal, ReceiveError::ExceedsMaxBorrows);
    assert!(messages.is_terminated());
    assert!(run(Next(&mut messages)).is_none());
    let kept: Vec<u64> = kept.iter().map(|sample| **sample).collect();
    assert_eq!(kept, [0, 1]);
}

#[test]
fn a_stream_that_is_dropped_leaves_no_waker() {
    let domain = domain();
    let publisher = domain.publisher().unwrap();
    let mut messages = SubscriberStream::new(domain.subscriber().unwrap());
    let task = Task::new();
    assert!(poll_by(&mut messages, &task).is_pending());
    assert!(wakers(&task) > 0);
    drop(messages);
    assert_eq!(wakers(&task), 0);
    publisher.send_copy(1).unwrap().delivered();
    assert_eq!(task.wakes(), 0);
}

#[test]
fn a_stream_that_is_taken_apart_leaves_no_waker() {
    let domain = domain();
    let publisher = domain.publisher().unwrap();
    let mut messages = SubscriberStream::new(domain.subscriber().unwrap());
    let task = Task::new();
    assert!(poll_by(&mut messages, &task).is_pending());
    let subscriber = messages.into_subscriber();
    assert_eq!(wakers(&task), 0);
    publisher.send_copy(1).unwrap().delivered();
    assert_eq!(task.wakes(), 0);
    // Nothing was lost on the way.
    let sample = run(Next(&mut SubscriberStream::new(subscriber)));
    assert_eq!(*sample.unwrap().unwrap(), 1);
}

#[test]
fn the_task_alone_that_polled_last_is_woken() {
    let domain = domain();
    let publisher = domain.publisher().unwrap();
    let mut messages = SubscriberStream::new(domain.subscriber().unwrap());
    let mut others = SubscriberStream::new(domain.subscriber().unwrap());
    let (first, second) = (Task::new(), Task::new());
    assert!(poll_by(&mut others, &first).is_pending());
    for task in [&first, &second, &second] {
        assert!(poll_by(&mut messages, task).is_pending());
    }
    // It still waits for the other subscriber.
    publisher.send_copy(1).unwrap().delivered();
    assert_eq!((first.wakes(), second.wakes()), (1, 1));
    drop(others);
    assert_eq!(wakers(&first), 0);
    drop(messages);
    assert_eq!(wakers(&second), 0);
}

#[test]
fn streams_are_of_all_kinds_of_handles() {
    fn goes<T: Send + Sync + Unpin>(_: &T) {}
    let slices = Domain::<[u8]>::slice_builder(1)
        .max_slice_len(4)
        .create_shared()
        .unwrap();
    let mut messages = SubscriberStream::new(slices.subscriber().unwrap());
    goes(&messages);
    let publisher = slices.publisher().unwrap();
    publisher.send_slice_copy(b"abc").unwrap().delivered();
    let sample = run(Next(&mut messages)).unwrap().unwrap();
    assert_eq!(&sample[..], b"abc");

    let domain = domain();
    let borrowed = domain.borrowed();
    let publisher = borrowed.publisher().unwrap();
    let mut messages: SubscriberStream<u64, Borrowed<'_, ManyThreads>> =
        SubscriberStream::new(borrowed.subscriber().unwrap());
    goes(&messages);
    assert_eq!(messages.subscriber().buffer_size(), 8);
    publisher.send_copy(7).unwrap().delivered();
    assert_eq!(*run(Next(&mut messages)).unwrap().unwrap(), 7);
}
