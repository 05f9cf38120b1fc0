// SPDX-License-Identifier: Apache-2.0 OR MIT
//! A file descriptor that is readable when a message may have come, for `poll`, `epoll` and event loops of Linux.

use crate::errors::{text, AFTER_FORK};
use crate::fork::Process;
use crate::payload::Payload;
use crate::subscriber::Subscriber;
use crate::threads::{MayWait, Threads};
use std::fs::File;
use std::io::{self, ErrorKind, Read, Write};
use std::os::unix::io::{AsFd, AsRawFd, BorrowedFd, FromRawFd, RawFd};
use std::sync::atomic::{AtomicBool, Ordering};
use std::sync::Arc;

extern "C" {
    fn eventfd(count: u32, flags: i32) -> i32;
}

const CLOEXEC_AND_NONBLOCK: i32 = 0o2_000_000 | 0o4_000;

/// A file descriptor that is readable when a message may have come for its subscriber, until
/// [`reset`](MessageFd::reset). It begins readable.
#[derive(Clone, Debug)]
pub struct MessageFd(Arc<Raised>);

#[derive(Debug)]
struct Raised {
    file: File,
    is_raised: AtomicBool,
    process: Process,
}

impl MessageFd {
    pub(crate) fn new() -> io::Result<MessageFd> {
        let process = Process::this().ok_or(ErrorKind::OutOfMemory)?;
        // SAFETY: it takes no pointer.
        let descriptor = unsafe { eventfd(1, CLOEXEC_AND_NONBLOCK) };
        if descriptor < 0 {
            return Err(io::Error::last_os_error());
        }
        Ok(MessageFd(Arc::new(Raised {
            // SAFETY: it was made here, and is nobody else's.
            file: unsafe { File::from_raw_fd(descriptor) },
            is_raised: AtomicBool::new(true),
            process,
        })))
    }

    // Written once until it is read again.
    pub(crate) fn raise(&self) {
        if !self.0.is_raised.swap(true, Ordering::AcqRel) {
            // It takes a number of 8 bytes, and there is always room for 1.
            let _ = (&self.0.file).write(&1u64.to_ne_bytes());
        }
    }

    /// Lets it be readable no longer. Reset it first, and then receive until nothing waits: so no message is
    /// missed.
    ///
    /// # Errors
    ///
    /// What the system says of the read, except that there is nothing to read. In a child after a fork nothing is read, since
    /// what there is to read is the parent's.
    pub fn reset(&self) -> io::Result<()> {
        if !self.0.process.is_this() {
            return Err(io::Error::new(ErrorKind::Other, text(AFTER_FORK)));
        }
        let read = match (&self.0.file).read(&mut [0; 8]) {
            Err(error) if error.kind() == ErrorKind::WouldBlock => Ok(()),
            read => read.map(drop),
        };
        // A swap, so that what was brought by whoever found it raised is seen by the receives after this.
        self.0.is_raised.swap(false, Ordering::AcqRel);
        read
    }
}

impl AsRawFd for MessageFd {
    fn as_raw_fd(&self) -> RawFd {
        self.0.file.as_raw_fd()
    }
}

impl AsFd for MessageFd {
    fn as_fd(&self) -> BorrowedFd<'_> {
        self.0.file.as_fd()
    }
}

impl<P: Payload + ?Sized, M: Threads> Subscriber<P, M> {
    /// A file descriptor for an event loop. It is the subscriber's listener from now on, in place of another
    /// (see [`set_listener`](Subscriber::set_listener)).
    ///
    /// # Errors
    ///
    /// What the system says where it has no descriptor left.
    pub fn message_fd(&self) -> io::Result<MessageFd>
    where
        M: MayWait,
    {
        let descriptor = MessageFd::new()?;
        let raised = descriptor.clone();
        self.set_listener(move || raised.raise());
        Ok(descriptor)
    }
}
