// SPDX-License-Identifier: Apache-2.0 OR MIT
//! How a receive fits into a task or an event loop.

use crate::errors::ReceiveError;
use crate::payload::Payload;
use crate::sample::Sample;
use crate::subscriber::{receive_next, Subscriber};
use crate::threads::{Brings, MayWait, Polls, Threads, WaitingPlace};
use crate::waiting::FutureNumber;
use std::fmt;
use std::future::Future;
use std::mem::MaybeUninit;
use std::pin::Pin;
use std::sync::Arc;
use std::task::{Context, Poll, Waker};

impl<P: Payload + ?Sized, M: Threads> Subscriber<P, M> {
    /// The next message, or `Pending`: then the task is woken when one may have come. `None` where waits are
    /// stopped (`SharedDomain::stop_waits`). The crate `iox2_pubsub-stream` makes a `Stream` of it.
    ///
    /// # Errors
    ///
    /// See [`ReceiveError`].
    pub fn poll_receive(
        &self,
        context: &mut Context<'_>,
    ) -> Poll<Result<Option<Sample<P, M>>, ReceiveError>>
    where
        M: MayWait,
    {
        self.poll_for(None, context)
    }

    fn poll_for(
        &self,
        future: Option<&mut Option<FutureNumber>>,
        context: &mut Context<'_>,
    ) -> Poll<Result<Option<Sample<P, M>>, ReceiveError>>
    where
        M: MayWait,
    {
        let mut got = MaybeUninit::uninit();
        let polls = Polls {
            port: self.port.id,
            waker: context.waker(),
            future,
            brings: Brings::ROOM,
        };
        let code = self
            .hold
            .poll(polls, |shared| receive_next(shared, &self.port, &mut got));
        match code {
            Some(code) => Poll::Ready(self.sample(code, &got)),
            None => Poll::Pending,
        }
    }

    /// Lets a task that has polled this subscriber by [`poll_receive`](Subscriber::poll_receive) be woken no longer,
    /// for one that won't poll it again. Others that have polled it are woken as before, and so are futures, which do
    /// this themselves.
    ///
    /// ```
    /// # use std::{sync::Arc, task::{Context, Wake, Waker}};
    /// # struct Task;
    /// # impl Wake for Task {
    /// #     fn wake(self: Arc<Self>) {}
    /// # }
    /// # fn main() -> Result<(), Box<dyn std::error::Error>> {
    /// let domain = iox2_pubsub::Domain::<u64>::builder(7).create_shared()?;
    /// let subscriber = domain.subscriber()?;
    /// let task = Arc::new(Task);
    /// let waker = Waker::from(task.clone());
    /// assert!(subscriber.poll_receive(&mut Context::from_waker(&waker)).is_pending());
    /// subscriber.forget_waker(&waker);
    /// drop(waker);
    /// assert_eq!(Arc::strong_count(&task), 1); // nobody else has it
    /// # Ok(())
    /// # }
    /// ```
    pub fn forget_waker(&self, waker: &Waker)
    where
        M: MayWait,
    {
        self.hold.forget_waker(self.port.id, waker);
    }

    /// The next message as a future, for any runtime: `subscriber.receive_async().await`. Where it is dropped
    /// before it is ready, no message is lost, and its task is woken for it no longer.
    pub fn receive_async(&self) -> Receive<'_, P, M>
    where
        M: MayWait,
    {
        Receive {
            subscriber: self,
            waits: None,
        }
    }

    /// Calls this when a message may have come, from now on, in place of what was set before; but not for what
    /// waits already. It is called without the lock, by the thread whose call brought something, and by several
    /// threads at a time.
    ///
    /// It may receive, send and drop handles, here and in other domains. A call that waits doesn't wait in it:
    /// it tries once, as where waits are stopped. What its calls bring to listeners is called after it has
    /// returned, so one that sends to its own subscriber each time never ends. Where it panics, that is reported
    /// and goes no further. It must not own this subscriber, which would then never be dropped: give it a
    /// [`Weak`](std::sync::Weak).
    pub fn set_listener(&self, listener: impl Fn() + Send + Sync + 'static)
    where
        M: MayWait,
    {
        self.hold.listen(self.port.id, Some(Arc::new(listener)));
    }

    /// Calls nothing any longer. A call that has begun may still run.
    pub fn clear_listener(&self)
    where
        M: MayWait,
    {
        self.hold.listen(self.port.id, None);
    }
}

/// The next message of a subscriber, as a future.
#[must_use = "a future does nothing until it is awaited"]
pub struct Receive<'s, P: Payload + ?Sized, M: MayWait> {
    subscriber: &'s Subscriber<P, M>,
    // Its number, from a poll that found nothing until one that is ready.
    waits: Option<FutureNumber>,
}

impl<P: Payload + ?Sized, M: MayWait> Drop for Receive<'_, P, M> {
    fn drop(&mut self) {
        if let Some(number) = self.waits {
            self.subscriber.hold.forget_future(number);
        }
    }
}

impl<P: Payload + ?Sized, M: MayWait> Future for Receive<'_, P, M> {
    type Output = Result<Option<Sample<P, M>>, ReceiveError>;

    fn poll(self: Pin<&mut Self>, context: &mut Context<'_>) -> Poll<Self::Output> {
        let this = self.get_mut();
        this.subscriber.poll_for(Some(&mut this.waits), context)
    }
}

impl<P: Payload + ?Sized, M: MayWait> fmt::Debug for Receive<'_, P, M> {
    fn fmt(&self, f: &mut fmt::Formatter<'_>) -> fmt::Result {
        f.debug_struct("Receive")
            .field("subscriber", &self.subscriber)
            .finish()
    }
}
