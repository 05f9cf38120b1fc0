// SPDX-License-Identifier: Apache-2.0 OR MIT
//! A file descriptor that is readable when an event may have come, for `poll`, `epoll` and event loops.

use crate::errors::text;
use crate::event_listener::Listener;
use crate::joined_port::Joined;
use crate::lock::DomainLock;
use crate::message_fd::MessageFd;
use crate::threads::{Brings, ManyThreads};
use std::fmt;
use std::io::{self, ErrorKind};
use std::marker::PhantomData;
use std::os::unix::io::{AsFd, AsRawFd, BorrowedFd, RawFd};

/// A file descriptor that is readable when an event may have come for its [`Listener`], until [`reset`](EventFd::reset). It begins
/// readable.
pub struct EventFd<'l> {
    raised: MessageFd,
    // Told by the domain until it is dropped.
    _joined: Box<dyn Send>,
    listener: PhantomData<&'l ()>,
}

impl EventFd<'_> {
    /// Lets it be readable no longer. Reset it first, and then look for events: so none is missed.
    ///
    /// # Errors
    ///
    /// As of [`MessageFd::reset`].
    pub fn reset(&self) -> io::Result<()> {
        self.raised.reset()
    }
}

impl AsRawFd for EventFd<'_> {
    fn as_raw_fd(&self) -> RawFd {
        self.raised.as_raw_fd()
    }
}

impl AsFd for EventFd<'_> {
    fn as_fd(&self) -> BorrowedFd<'_> {
        self.raised.as_fd()
    }
}

impl fmt::Debug for EventFd<'_> {
    fn fmt(&self, f: &mut fmt::Formatter<'_>) -> fmt::Result {
        f.debug_struct("EventFd")
            .field("raised", &self.raised)
            .finish_non_exhaustive()
    }
}

impl<L: DomainLock> Listener<ManyThreads<L>> {
    /// A file descriptor for an event loop. Each call makes another.
    ///
    /// # Errors
    ///
    /// What the system says where it has no descriptor left, or no memory. In a child after a fork it isn't made.
    pub fn event_fd(&self) -> io::Result<EventFd<'_>> {
        let raised = MessageFd::new()?;
        let of_domain = raised.clone();
        let rings = Box::new(move || of_domain.raise());
        let joined = Joined::new(&self.hold, Brings::EVENT, rings)
            .map_err(|code| io::Error::new(ErrorKind::Other, text(code)))?;
        Ok(EventFd {
            raised,
            _joined: Box::new(joined),
            listener: PhantomData,
        })
    }
}
