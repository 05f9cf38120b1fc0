// SPDX-License-Identifier: Apache-2.0 OR MIT
//! The messages of a subscriber of [`iox2_pubsub`] as a [`Stream`], for any runtime.
//!
//! It is a crate of its own, so that `iox2_pubsub` depends on nothing that has to be fetched.
//!
//! ```
//! use iox2_pubsub::Domain;
//! use iox2_pubsub_stream::SubscriberStream;
//!
//! # use futures_core::Stream;
//! # use std::{future::Future, pin::Pin, sync::Arc, task::{Context, Poll, Wake, Waker}};
//! # struct Task;
//! # impl Wake for Task {
//! #     fn wake(self: Arc<Self>) {}
//! # }
//! # trait StreamExt: Stream + Unpin {
//! #     fn next(&mut self) -> Next<'_, Self> { Next(self) }
//! # }
//! # impl<S: Stream + Unpin> StreamExt for S {}
//! # struct Next<'s, S: ?Sized>(&'s mut S);
//! # impl<S: Stream + Unpin + ?Sized> Future for Next<'_, S> {
//! #     type Output = Option<S::Item>;
//! #     fn poll(mut self: Pin<&mut Self>, context: &mut Context<'_>) -> Poll<Self::Output> {
//! #         Pin::new(&mut *self.0).poll_next(context)
//! #     }
//! # }
//! # fn main() -> Result<(), Box<dyn std::error::Error>> {
//! let domain = Domain::<u64>::builder(7).create_shared()?;
//! let publisher = domain.publisher()?;
//! let mut messages = SubscriberStream::new(domain.subscriber()?);
//! # let stops = domain.clone();
//! let task = async move {
//!     // `next` is that of `StreamExt` of the crate `futures`.
//!     while let Some(sample) = messages.next().await {
//!         println!("{}", *sample?); // read where it lies
//!     }
//!     Ok::<(), iox2_pubsub::ReceiveError>(())
//! };
//! publisher.send_copy(21)?.delivered();
//! # stops.stop_waits(true);
//! # let waker = Waker::from(Arc::new(Task));
//! # let ended = Box::pin(task).as_mut().poll(&mut Context::from_waker(&waker));
//! # assert_eq!(ended, Poll::Ready(Ok(())));
//! # Ok(())
//! # }
//! ```
#![forbid(unsafe_code)]
#![deny(missing_docs, missing_debug_implementations)]

use futures_core::{FusedStream, Stream};
use iox2_pubsub::{ManyThreads, MayWait, Payload, ReceiveError, Sample, Subscriber};
use std::fmt;
use std::pin::Pin;
use std::task::{Context, Poll, Waker};

/// What comes to a subscriber, as a stream. It waits for one message after the other, wakes the task that polled it
/// last, and ends where waits are stopped ([`Domain::stop_waits`](iox2_pubsub::Domain::stop_waits)) or a call is
/// refused; the refusal is the last that it gives.
///
/// Each message is read where it lies, and given back when its [`Sample`] is dropped. A task that keeps samples
/// beyond what its subscriber may borrow gets [`ReceiveError::ExceedsMaxBorrows`].
#[must_use = "a stream does nothing until it is polled"]
pub struct SubscriberStream<P: Payload + ?Sized, M: MayWait = ManyThreads> {
    subscriber: Subscriber<P, M>,
    // The task that waits for the next message.
    waker: Option<Waker>,
    is_over: bool,
}

impl<P: Payload + ?Sized, M: MayWait> SubscriberStream<P, M> {
    /// What comes to this subscriber, from what waits already on.
    pub fn new(subscriber: Subscriber<P, M>) -> Self {
        SubscriberStream {
            subscriber,
            waker: None,
            is_over: false,
        }
    }

    /// The subscriber, for example to ask whether a message waits.
    #[must_use]
    pub fn subscriber(&self) -> &Subscriber<P, M> {
        &self.subscriber
    }

    /// The subscriber itself again, with what still waits for it. No task waits for it any longer.
    #[must_use]
    pub fn into_subscriber(mut self) -> Subscriber<P, M> {
        self.forget_waker();
        self.subscriber
    }

    fn forget_waker(&mut self) {
        if let Some(waker) = self.waker.take() {
            self.subscriber.forget_waker(&waker);
        }
    }

    // A stream wakes the task alone that polled it last.
    fn waits_by(&mut self, waker: &Waker) {
        let is_it = |last: &Waker| last.will_wake(waker);
        if !self.waker.as_ref().map_or(false, is_it) {
            self.forget_waker();
            self.waker = Some(waker.clone());
        }
    }
}

// Written out, since a derived one would ask the same of `P`.
impl<P: Payload + ?Sized, M: MayWait> fmt::Debug for SubscriberStream<P, M> {
    fn fmt(&self, f: &mut fmt::Formatter<'_>) -> fmt::Result {
        f.debug_struct("SubscriberStream")
            .field("subscriber", &self.subscriber)
            .field("is_over", &self.is_over)
            .finish_non_exhaustive()
    }
}

// Nothing in it is pinned.
impl<P: Payload + ?Sized, M: MayWait> Unpin for SubscriberStream<P, M> {}

impl<P: Payload + ?Sized, M: MayWait> From<Subscriber<P, M>> for SubscriberStream<P, M> {
    fn from(subscriber: Subscriber<P, M>) -> Self {
        SubscriberStream::new(subscriber)
    }
}

impl<P: Payload + ?Sized, M: MayWait> Stream for SubscriberStream<P, M> {
    type Item = Result<Sample<P, M>, ReceiveError>;

    fn poll_next(self: Pin<&mut Self>, context: &mut Context<'_>) -> Poll<Option<Self::Item>> {
        let this = self.get_mut();
        if this.is_over {
            return Poll::Ready(None);
        }
        this.waits_by(context.waker());
        match this.subscriber.poll_receive(context) {
            Poll::Ready(received) => {
                let received = received.transpose();
                this.is_over = !matches!(received, Some(Ok(_)));
                Poll::Ready(received)
            }
            Poll::Pending => Poll::Pending,
        }
    }
}

impl<P: Payload + ?Sized, M: MayWait> FusedStream for SubscriberStream<P, M> {
    fn is_terminated(&self) -> bool {
        self.is_over
    }
}
