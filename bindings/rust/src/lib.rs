// SPDX-License-Identifier: Apache-2.0 OR MIT
//! Publish-subscribe messaging inside one program, in the style of iceoryx2: safe Rust over a static
//! library that is proved.
//!
//! A publisher lends a slot, which is written in place and sent; each subscriber reads the message
//! where it lies and gives it back. What is lent, received or opened is given back when it is dropped.
//!
//! ```
//! use iox2_pubsub::Domain;
//!
//! #[derive(Clone, Copy)]
//! struct Reading {
//!     celsius: f64,
//! }
//!
//! # fn main() -> Result<(), Box<dyn std::error::Error>> {
//! let domain = Domain::<Reading>::builder(7).create()?;
//! let publisher = domain.publisher()?;
//! let subscriber = domain.subscriber()?;
//!
//! let mut loan = publisher.loan_uninit()?.write_payload(Reading { celsius: 20.0 });
//! loan.celsius += 1.5;
//! assert_eq!(loan.send()?.delivered(), Some(1));
//!
//! for sample in &subscriber {
//!     println!("{} °C", sample?.celsius);
//! }
//! # Ok(())
//! # }
//! ```
//!
//! # Several threads
//!
//! ```
//! use iox2_pubsub::Domain;
//! use std::thread;
//!
//! # fn main() -> Result<(), Box<dyn std::error::Error>> {
//! let domain = Domain::<u64>::builder(7).create_shared()?;
//! let publisher = domain.publisher()?;
//! let subscriber = domain.subscriber()?;
//! let reader = thread::spawn(move || subscriber.blocking_receive_copy());
//! let loan = publisher.loan_uninit()?.write_payload(7); // written without the lock
//! assert_eq!(loan.blocking_send()?.delivered(), Some(1));
//! assert_eq!(reader.join().unwrap()?, Some(7));
//! # Ok(())
//! # }
//! ```
//!
//! # What is safe, and why
//!
//! No call of this crate is unsafe but `LoanUninit::assume_init`. It rests on this:
//!
//! - A `Domain<P>` has messages of the type `P` alone, which is `Copy + 'static` or a slice of such
//!   values. So what is received was written as a `P`, and no further promise of its bits is needed.
//!   That its length is that of a `P` and its place is aligned is looked at again for each message.
//! - The bytes of a loan or a sample stay where they are until it is dropped. The library's contracts
//!   don't say so; the tests of the library do.
//! - Each handle has a part in the domain, which goes with the last of them, so that none outlives it.
//! - A domain that `create` makes, and its handles, are neither `Send` nor `Sync`.
//!
//!   ```compile_fail
//!   fn to_a_thread<T: Send>(_: T) {}
//!   to_a_thread(iox2_pubsub::Domain::<u8>::builder(1).create().unwrap());
//!   ```
//! - One that `create_shared` makes, and its handles, are both. Each call of the library is made under the
//!   domain's lock, and the library keeps nothing outside of its domains. The bytes of a loan are written
//!   without the lock, by whoever has it, and those of a sample read, by as many threads as like: no call
//!   touches them but those that lend a loan and release a sample. That is tested and not proved. Messages
//!   that many threads read have to be `Sync`, and those that cross threads `Send`.
//!
//!   ```compile_fail
//!   iox2_pubsub::Domain::<*const u8>::builder(1).create_shared();
//!   ```
//! - A child of a `fork` has a copy of its parent's domains, in which another thread may have been at work. Its calls on them
//!   touch neither the archive nor the lock: they return the error `AfterFork`, and those that return none panic. Handles that
//!   it drops give nothing back. A domain that it makes itself is its own.
//! - No function of a program runs under the lock, so that none can come back to it. A panic leaves nothing
//!   half done, so that the lock isn't poisoned: the handles of a thread that panics give back what they have.
//! - A handle is live in the domain while it exists, and the library tests that too: a wrong one would
//!   be a panic of this crate.
#![deny(missing_docs, missing_debug_implementations)]
#![warn(clippy::undocumented_unsafe_blocks)]
// The build script knows what it sets; older compilers have no such lint.
#![allow(unknown_lints, unexpected_cfgs)]

mod alarm;
mod any_bytes;
mod attachments;
mod channels;
#[cfg(feature = "dds")]
pub mod dds;
#[cfg(feature = "processes")]
mod dead_nodes;
mod desk;
mod domain;
#[cfg(feature = "processes")]
mod duty;
mod errors;
#[cfg(all(feature = "processes", target_os = "linux"))]
mod event_fd;
#[cfg(feature = "processes")]
mod event_listener;
mod events;
mod fork;
mod guarded;
mod header;
mod ids;
mod in_place;
mod joined_port;
mod listeners;
mod loan;
mod lock;
mod memory;
#[cfg(target_os = "linux")]
mod message_fd;
#[cfg(feature = "processes")]
mod named_domain;
#[cfg(feature = "processes")]
mod nodes;
#[cfg(feature = "processes")]
mod notifier;
#[cfg(feature = "processes")]
mod open_error;
mod payload;
mod port_factory;
mod publisher;
mod reader;
mod recording;
mod sample;
mod send_outcome;
mod share;
mod shared;
mod static_config;
mod subscriber;
mod threads;
mod timeout;
mod wait_set;
mod waiting;
mod warning;
#[cfg(feature = "processes")]
mod watch;
mod writer;
#[cfg(feature = "processes")]
mod zero_copy_send;
mod zeroable;

pub(crate) use iox2_pubsub_sys as sys;

pub use any_bytes::AnyBytes;
pub use domain::{Domain, DomainBuilder, SharedDomain};
#[cfg(feature = "processes")]
pub use errors::{
    ListenerCreateError, ListenerWaitError, NodeListFailure, NotifierCreateError,
    NotifierNotifyError,
};
pub use errors::{
    ChannelError, ConnectionFailure, DomainCreateError, LoanError, PublisherCreateError,
    ReceiveError, SendError, ShareError, SubscriberCreateError, WaitSetAttachmentError,
    WaitSetRunError,
};
#[cfg(all(feature = "processes", target_os = "linux"))]
pub use event_fd::EventFd;
#[cfg(feature = "processes")]
pub use event_listener::Listener;
pub use events::Receive;
pub use header::Header;
#[cfg(feature = "processes")]
pub use ids::EventId;
pub use ids::{
    ChannelId, ChannelState, ConnectionId, NodeId, UniquePublisherId, UniqueSubscriberId,
    CHANNEL_STATE_CLOSED, CHANNEL_STATE_OPEN,
};
#[doc(hidden)]
pub use in_place::Field;
pub use in_place::{Unwritten, Written};
pub use loan::{Loan, LoanUninit, Unsent};
pub use lock::{DomainLock, StdLock};
pub use memory::{reset_allocator, set_allocator, SetAllocatorError};
#[cfg(target_os = "linux")]
pub use message_fd::MessageFd;
#[cfg(feature = "processes")]
pub use named_domain::{DomainInfo, NamedDomainBuilder};
#[cfg(feature = "processes")]
pub use nodes::{NodeState, NodeView, PublisherDetails, SubscriberDetails};
#[cfg(feature = "processes")]
pub use notifier::{Notifier, PortFactoryNotifier};
#[cfg(feature = "processes")]
pub use open_error::{DomainOpenError, DomainOpenErrorKind};
pub use payload::{Payload, Value};
pub use port_factory::{
    AllocationStrategy, DegradationAction, PortFactoryPublisher, PortFactorySubscriber,
};
pub use publisher::{BackpressureAction, BackpressureStrategy, Publisher};
pub use reader::Reader;
pub use recording::Recording;
pub use sample::Sample;
pub use send_outcome::{BlockedSend, SendOutcome};
pub use share::Share;
pub use static_config::{PublisherConfig, StaticConfig, SubscriberConfig};
pub use subscriber::{Incoming, Received, Subscriber};
pub use threads::{Borrowed, ManyThreads, MayWait, OneThread, Threads};
pub use wait_set::{
    CallbackProgression, SynchronousMultiplexing, WaitSet, WaitSetAttachmentId, WaitSetGuard,
    WaitSetRunResult,
};
pub use warning::{Warning, WarningKind};
pub use writer::Writer;
#[cfg(feature = "processes")]
pub use zero_copy_send::ZeroCopySend;
pub use zeroable::Zeroable;
