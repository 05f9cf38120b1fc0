// SPDX-License-Identifier: Apache-2.0 OR MIT
//! Other processes and machines: gateways between domains and topics of DDS, by Eclipse Cyclone DDS.
//!
//! This is there with the feature `dds`, where the gateway was built beside the archive. What publishers of a
//! domain send goes to the topic, and what comes from the topic is sent in the domain by the gateway's own
//! publisher. A gateway takes one of the domain's publishers and one of its subscribers.
//!
//! ```no_run
//! use iox2_pubsub::dds::{AnyBytes, Gateway, Settings};
//! use iox2_pubsub::Domain;
//! use std::time::Duration;
//!
//! #[derive(Clone, Copy)]
//! #[repr(C)]
//! struct Reading {
//!     celsius: f64,
//! }
//! // SAFETY: any eight bytes are an f64.
//! unsafe impl AnyBytes for Reading {}
//!
//! # fn main() -> Result<(), Box<dyn std::error::Error>> {
//! let domain = Domain::<Reading>::builder(7).create()?;
//! let gateway = Gateway::open(&domain, Settings::topic("thermometer"))?;
//! let publisher = domain.publisher()?;
//! let subscriber = domain.subscriber()?;
//! publisher.send_copy(Reading { celsius: 20.0 })?;
//! loop {
//!     gateway.wait(Duration::from_millis(100));
//!     for sample in &subscriber {
//!         let sample = sample?;
//!         if let Some(origin) = gateway.origin(&sample) {
//!             println!("{} °C from node {:x}", sample.celsius, origin.node);
//!         }
//!     }
//! }
//! # }
//! ```

use crate::domain::{read_config, Domain};
use crate::errors::{text, PublisherCreateError, SubscriberCreateError, AFTER_FORK};
use crate::ids::{number, wide, UniquePublisherId};
use crate::lock::DomainLock;
use crate::payload::Payload;
use crate::sample::Sample;
use crate::sys;
use crate::sys::dds as c;
use crate::threads::{Brings, ManyThreads, OneThread, Place, Threads, Wait, Waits};
use std::any::{type_name, TypeId};
use std::error::Error;
use std::ffi::{c_void, CStr, CString};
use std::fmt;
use std::marker::PhantomData;
use std::os::raw::c_char;
use std::ptr::null_mut;
use std::rc::Rc;
use std::sync::Arc;
use std::time::{Duration, Instant};

pub use crate::any_bytes::AnyBytes;
pub use crate::sys::dds::{Counts, Forwarded};

/// Why a gateway wasn't opened.
#[non_exhaustive]
#[derive(Clone, Debug, PartialEq, Eq)]
pub enum GatewayError {
    /// The domain made no publisher for it.
    Publisher(PublisherCreateError),
    /// The domain made no subscriber for it.
    Subscriber(SubscriberCreateError),
    /// A topic's or a type's name has a zero byte.
    ZeroInName,
    /// Settings don't fit the domain, the domain or the topic has a gateway of this process, or DDS refused something: the
    /// words say which.
    Refused(String),
    /// This process is a child of the one that made the domain, or that has gateways.
    AfterFork,
}

impl GatewayError {
    // The words are C's, and a port's code says all of them.
    fn of(code: u32, why: &[c_char]) -> GatewayError {
        match code {
            c::AFTER_FORK | AFTER_FORK | sys::NO_DOMAIN => GatewayError::AfterFork,
            50..=59 => GatewayError::Publisher(PublisherCreateError::of(code)),
            60..=69 => GatewayError::Subscriber(SubscriberCreateError::of(code)),
            _ => GatewayError::Refused(words(why)),
        }
    }
}

impl fmt::Display for GatewayError {
    fn fmt(&self, f: &mut fmt::Formatter<'_>) -> fmt::Result {
        match self {
            GatewayError::Publisher(error) => write!(f, "the gateway's publisher: {error}"),
            GatewayError::Subscriber(error) => write!(f, "the gateway's subscriber: {error}"),
            GatewayError::ZeroInName => f.write_str("ZeroInName: a name has a zero byte"),
            GatewayError::Refused(words) => f.write_str(words),
            GatewayError::AfterFork => f.write_str(text(AFTER_FORK)),
        }
    }
}

impl Error for GatewayError {
    fn source(&self) -> Option<&(dyn Error + 'static)> {
        match self {
            GatewayError::Publisher(error) => Some(error),
            GatewayError::Subscriber(error) => Some(error),
            _ => None,
        }
    }
}

/// Why it isn't known that all that was sent has arrived.
#[non_exhaustive]
#[derive(Clone, Copy, Debug, PartialEq, Eq, Hash)]
pub enum FlushError {
    /// The time passed before.
    TimedOut,
    /// A gateway has sent messages, and has met no reader that takes them since it was opened: nobody else has the topic, or only
    /// with another type.
    NoPeer,
    /// This process is a child of the one that has the gateways.
    AfterFork,
}

impl FlushError {
    fn of(code: u32) -> FlushError {
        match code {
            c::NO_PEER => FlushError::NoPeer,
            c::AFTER_FORK => FlushError::AfterFork,
            _ => FlushError::TimedOut,
        }
    }
}

impl fmt::Display for FlushError {
    fn fmt(&self, f: &mut fmt::Formatter<'_>) -> fmt::Result {
        f.write_str(match self {
            FlushError::TimedOut => "TimedOut: the time passed before all was there",
            FlushError::NoPeer => "NoPeer: no reader of the type was met that takes what was sent",
            FlushError::AfterFork => text(AFTER_FORK),
        })
    }
}

impl Error for FlushError {}

/// How a domain is joined to its topic. The header `iox2_pubsub_dds.h` says what each of them is.
#[derive(Clone, Debug, Default)]
#[must_use = "settings open nothing"]
pub struct Settings {
    topic: Option<String>,
    type_name: Option<String>,
    best_effort: bool,
    volatile_reader: bool,
    only_known: bool,
    reader_limit: Option<usize>,
    dds_domain: u32,
    max_message_size: usize,
}

impl Settings {
    /// Those of a topic by this name. `Settings::default()` has `iox2/` and the service id in 32 digits.
    pub fn topic(name: &str) -> Self {
        Settings {
            topic: Some(name.to_owned()),
            ..Settings::default()
        }
    }

    /// What the type is called in each process, unless its own name without modules is meant. Say it where processes are
    /// built by different compilers, each of which may have a name of its own.
    pub fn type_name(mut self, name: &str) -> Self {
        self.type_name = Some(name.to_owned());
        self
    }

    /// Each message is tried once.
    pub fn best_effort(mut self, value: bool) -> Self {
        self.best_effort = value;
        self
    }

    /// Asks others for no history.
    pub fn volatile_reader(mut self, value: bool) -> Self {
        self.volatile_reader = value;
        self
    }

    /// Passes over writers that say no type.
    pub fn only_known(mut self, value: bool) -> Self {
        self.only_known = value;
        self
    }

    /// How many messages may wait in DDS's reader, where the domain holds back.
    pub fn reader_limit(mut self, value: usize) -> Self {
        self.reader_limit = Some(value);
        self
    }

    /// The DDS domain's number, where the gateway isn't added to [`Gateways`].
    pub fn dds_domain(mut self, value: u32) -> Self {
        self.dds_domain = value;
        self
    }

    /// The longest message of the process in that DDS domain, where it is longer than this domain's.
    pub fn max_message_size(mut self, value: usize) -> Self {
        self.max_message_size = value;
        self
    }
}

/// Who else has the topic.
#[non_exhaustive]
#[derive(Clone, Debug, Default, PartialEq, Eq)]
pub struct Peers {
    /// Readers that match.
    pub readers: u32,
    /// Writers that match.
    pub writers: u32,
    /// Readers met so far with other quality of service.
    pub incompatible_readers: u32,
    /// Writers met so far with other quality of service.
    pub incompatible_writers: u32,
    /// Messages that DDS itself counts as lost.
    pub lost: u32,
    /// Endpoints of the topic with another type.
    pub other_types: u32,
    /// One of these types.
    pub other_type: String,
}

/// Where a message came from.
#[non_exhaustive]
#[derive(Clone, Copy, Debug, PartialEq, Eq)]
pub struct Origin {
    /// The node's id, or the participant's where the node has none.
    pub node: u128,
    /// The publisher's id in its process.
    pub publisher: UniquePublisherId,
}

// What gateways have together that were opened together.
struct Group(*mut c::Gateways);

// SAFETY: the last that has it may close it, a waker on any thread, too: that gives back what Cyclone DDS lets any thread
// give back.
unsafe impl Send for Group {}
// SAFETY: of its calls wakers make one alone, which may be made on any thread; all others are made by what stays on one
// thread.
unsafe impl Sync for Group {}

impl Group {
    fn open(dds_domain: u32, max_message_size: usize) -> Result<Arc<Group>, GatewayError> {
        let mut group = null_mut();
        let mut why = [0; 256];
        // SAFETY: the pointers are of locals, of as many bytes.
        let code = unsafe {
            c::iox2ps_dds_gateways_open(
                dds_domain,
                max_message_size,
                &mut group,
                why.as_mut_ptr(),
                256,
            )
        };
        match code {
            sys::OK => Ok(Arc::new(Group(group))),
            code => Err(GatewayError::of(code, &why)),
        }
    }

    fn forward(&self, most: usize) -> Forwarded {
        let mut now = Forwarded::default();
        // SAFETY: the group is open, and used by this thread alone: what has it isn't `Send`, except wakers.
        unsafe { c::iox2ps_dds_forward(self.0, most, &mut now) };
        now
    }

    fn wait(&self, timeout: Duration, most: usize) -> Forwarded {
        let mut now = Forwarded::default();
        // SAFETY: as above.
        unsafe { c::iox2ps_dds_wait(self.0, nanoseconds(timeout), most, &mut now) };
        now
    }

    fn flush(&self, timeout: Duration) -> Result<(), FlushError> {
        // SAFETY: as above.
        match unsafe { c::iox2ps_dds_flush(self.0, nanoseconds(timeout)) } {
            sys::OK => Ok(()),
            code => Err(FlushError::of(code)),
        }
    }
}

impl Drop for Group {
    fn drop(&mut self) {
        // SAFETY: this is the last that has it.
        unsafe { c::iox2ps_dds_gateways_close(self.0) };
    }
}

// What is first in it keeps this on its thread.
#[derive(Clone)]
struct Polled(PhantomData<Rc<()>>, Arc<Group>);

/// Ends a wait from any thread.
#[derive(Clone)]
pub struct Waker(Arc<Group>);

impl fmt::Debug for Waker {
    fn fmt(&self, f: &mut fmt::Formatter<'_>) -> fmt::Result {
        f.write_str("Waker")
    }
}

impl Waker {
    /// Ends the wait that is, or the next one.
    pub fn wake(&self) {
        // SAFETY: the group is open, and the header says so of this call.
        unsafe { c::iox2ps_dds_wake(self.0 .0) };
    }
}

/// Gateways for several domains, which are polled together. All gateways of a process share one participant of
/// each DDS domain.
#[derive(Clone)]
pub struct Gateways {
    polled: Polled,
}

impl fmt::Debug for Gateways {
    fn fmt(&self, f: &mut fmt::Formatter<'_>) -> fmt::Result {
        f.write_str("Gateways")
    }
}

impl Gateways {
    /// Joins a DDS domain for messages of at most this number of bytes. DDS throws longer ones away before it
    /// takes memory.
    ///
    /// # Errors
    ///
    /// What DDS refuses.
    pub fn open(dds_domain: u32, max_message_size: usize) -> Result<Gateways, GatewayError> {
        let group = Group::open(dds_domain, max_message_size)?;
        Ok(Gateways {
            polled: Polled(PhantomData, group),
        })
    }

    /// A gateway that is polled with these.
    ///
    /// # Errors
    ///
    /// A port that the domain refuses, a domain or a topic that has a gateway of this process, messages that
    /// are longer than these are for, or what DDS refuses.
    pub fn add<P, M>(
        &self,
        domain: &Domain<P, M>,
        settings: Settings,
    ) -> Result<Gateway<P, M>, GatewayError>
    where
        P: Payload + ?Sized,
        P::Element: AnyBytes,
        M: Owning,
    {
        Gateway::open_in(self.polled.clone(), domain, &settings)
    }

    /// Moves what is there, both ways, and never waits.
    pub fn forward(&self) -> Forwarded {
        self.polled.1.forward(MOST)
    }

    /// The same, and where nothing is there waits for the topics so long at most.
    pub fn wait(&self, timeout: Duration) -> Forwarded {
        self.polled.1.wait(timeout, MOST)
    }

    /// Waits so long at most until the topics' readers have what was sent.
    ///
    /// # Errors
    ///
    /// See [`FlushError`].
    pub fn flush(&self, timeout: Duration) -> Result<(), FlushError> {
        self.polled.1.flush(timeout)
    }

    /// What ends a wait from any thread.
    #[must_use]
    pub fn waker(&self) -> Waker {
        Waker(self.polled.1.clone())
    }
}

mod owning {
    pub trait Sealed {}
    impl Sealed for super::OneThread {}
    impl<L> Sealed for super::ManyThreads<L> {}
}

/// Of [`Threads`] those whose handles have a part in the domain: a gateway keeps it alive.
pub trait Owning: Threads + owning::Sealed {}
impl Owning for OneThread {}
impl<L: DomainLock> Owning for ManyThreads<L> {}

/// Joins one domain to one topic, until it is dropped. It stays on its thread.
pub struct Gateway<P: Payload + ?Sized, M: Owning = OneThread> {
    handle: *mut c::Gateway,
    // Both live longer than what the handle names.
    polled: Polled,
    hold: M::Hold,
    messages: PhantomData<P>,
}

impl<P: Payload + ?Sized, M: Owning> fmt::Debug for Gateway<P, M> {
    fn fmt(&self, f: &mut fmt::Formatter<'_>) -> fmt::Result {
        f.debug_struct("Gateway")
            .field("counts", &self.counts())
            .finish_non_exhaustive()
    }
}

impl<P, M> Gateway<P, M>
where
    P: Payload + ?Sized,
    P::Element: AnyBytes,
    M: Owning,
{
    /// A gateway that is polled alone.
    ///
    /// # Errors
    ///
    /// As [`Gateways::add`].
    pub fn open(domain: &Domain<P, M>, settings: Settings) -> Result<Self, GatewayError> {
        let mut config = sys::Config::default();
        match read_config(&*domain.hold, &mut config) {
            sys::OK => {}
            code => return Err(GatewayError::of(code, &[0])),
        }
        let longest = settings.max_message_size.max(config.payload_size);
        let group = Group::open(settings.dds_domain, longest)?;
        Gateway::open_in(Polled(PhantomData, group), domain, &settings)
    }

    fn open_in(
        polled: Polled,
        domain: &Domain<P, M>,
        settings: &Settings,
    ) -> Result<Self, GatewayError> {
        let hold = domain.hold.clone();
        let place: &M::Place = &hold;
        let topic = settings.topic.as_deref().map(c_text).transpose()?;
        let name = settings
            .type_name
            .clone()
            .unwrap_or_else(name_of::<P::Element>);
        let name = c_text(&name)?;
        let is_slice = TypeId::of::<P>() != TypeId::of::<P::Element>();
        let mut plain = c_settings(P::SIZE, is_slice, settings);
        plain.topic = topic
            .as_ref()
            .map_or(std::ptr::null(), |text| text.as_ptr());
        plain.type_name = name.as_ptr();
        plain.lock = c::Lock {
            call: Some(call::<M::Place>),
            wait: Some(wait::<M::Place>),
            context: place as *const M::Place as *mut c_void,
        };
        let (mut key, mut config) = (null_mut(), sys::Config::default());
        // SAFETY: see `Shared::at`.
        let code = place.call(Brings::NOTHING, |shared| unsafe {
            key = shared.at();
            sys::iox2ps_domain_config(key, &mut config)
        });
        if code != sys::OK {
            return Err(GatewayError::of(code, &[0]));
        }
        let mut handle = null_mut();
        let mut why = [0; 256];
        // SAFETY: the pointers are of locals, which are copied, and of the domain's place, which the gateway's
        // part in it keeps. The domain itself is reached by the lock's functions alone.
        let code = unsafe {
            c::iox2ps_dds_gateway_open(polled.1 .0, key, &plain, &mut handle, why.as_mut_ptr(), 256)
        };
        if code != sys::OK {
            return Err(GatewayError::of(code, &why));
        }
        let made = Gateway {
            handle,
            polled,
            hold,
            messages: PhantomData,
        };
        made.join(config.service_id);
        Ok(made)
    }
}

impl<P: Payload + ?Sized, M: Owning> Gateway<P, M> {
    // The gateway has made a subscriber and a publisher. Where threads share the domain, they are connected as those of its own
    // handles are.
    fn join(&self, service_id: sys::Wide) {
        if !M::Place::IS_SHARED {
            return;
        }
        let publisher = sys::Publisher {
            service_id,
            id: wide(self.publisher().value()),
            ..sys::Publisher::default()
        };
        self.hold.call(Brings::SEND, |shared| {
            shared.update_publishers();
            shared.keep_publisher(&publisher);
            sys::OK
        });
    }

    /// Moves what is there, both ways, and never waits. The same of all gateways that were added to the same
    /// [`Gateways`], as the two below.
    pub fn forward(&self) -> Forwarded {
        self.polled.1.forward(MOST)
    }

    /// The same, and where nothing is there waits for the topic so long at most. It doesn't wait while a message
    /// of the topic waits for a subscriber, which this thread alone can let receive.
    pub fn wait(&self, timeout: Duration) -> Forwarded {
        self.polled.1.wait(timeout, MOST)
    }

    /// Waits so long at most until the topic's readers have what was sent, as a program does before it ends.
    ///
    /// # Errors
    ///
    /// See [`FlushError`].
    pub fn flush(&self, timeout: Duration) -> Result<(), FlushError> {
        self.polled.1.flush(timeout)
    }

    /// What ends a wait from any thread.
    #[must_use]
    pub fn waker(&self) -> Waker {
        Waker(self.polled.1.clone())
    }

    /// All since the gateway was opened.
    #[must_use]
    pub fn counts(&self) -> Counts {
        let mut counts = Counts::default();
        // SAFETY: the gateway is open, and the pointer is of a local.
        unsafe { c::iox2ps_dds_counts(self.handle, &mut counts) };
        counts
    }

    /// Who else has the topic.
    #[must_use]
    pub fn peers(&self) -> Peers {
        // SAFETY: zeros are numbers and an empty text.
        let mut peers: c::Peers = unsafe { std::mem::zeroed() };
        // SAFETY: as above.
        unsafe { c::iox2ps_dds_peers(self.handle, &mut peers) };
        Peers {
            readers: peers.readers,
            writers: peers.writers,
            incompatible_readers: peers.incompatible_readers,
            incompatible_writers: peers.incompatible_writers,
            lost: peers.lost,
            other_types: peers.other_types,
            other_type: words(&peers.other_type),
        }
    }

    /// The origin, in this domain, of all that came from elsewhere.
    #[must_use]
    pub fn publisher(&self) -> UniquePublisherId {
        // SAFETY: the gateway is open.
        UniquePublisherId::of(unsafe { c::iox2ps_dds_publisher(self.handle) })
    }

    /// Who sent a message elsewhere. `None` where it came from this process.
    #[must_use]
    pub fn origin(&self, sample: &Sample<P, M>) -> Option<Origin> {
        let mut origin = c::Origin::default();
        // SAFETY: as above.
        match unsafe { c::iox2ps_dds_origin(self.handle, wide(sample.number()), &mut origin) } {
            sys::OK => Some(Origin {
                node: number(origin.node),
                publisher: UniquePublisherId::of(origin.publisher),
            }),
            _ => None,
        }
    }
}

impl<P: Payload + ?Sized, L: DomainLock> Gateway<P, ManyThreads<L>> {
    /// Gives the gateway two threads, one for each way, until it is stopped or dropped. `false` where it has
    /// them.
    pub fn start(&self) -> bool {
        // SAFETY: the gateway is open, and its domain may be called from any thread.
        unsafe { c::iox2ps_dds_start(self.handle) == sys::OK }
    }

    /// Ends the threads. Then it is polled again.
    pub fn stop(&self) {
        // SAFETY: as above.
        unsafe { c::iox2ps_dds_stop(self.handle) };
    }
}

impl<P: Payload + ?Sized, M: Owning> Drop for Gateway<P, M> {
    fn drop(&mut self) {
        let id = wide(self.publisher().value());
        // SAFETY: it is open, and isn't used again.
        unsafe { c::iox2ps_dds_gateway_close(self.handle) };
        if M::Place::IS_SHARED {
            self.hold.call(Brings::NOTHING, |shared| {
                shared.forget_publisher(id);
                sys::OK
            });
        }
    }
}

// ---- what C calls

// SAFETY: the context is the place of a gateway that is open, and `what` is what `make` wants.
unsafe extern "C" fn call<D: Place>(
    context: *mut c_void,
    _: *mut sys::Domain,
    brings: u32,
    make: c::Make,
    what: *mut c_void,
) -> u32 {
    let place = &*(context as *const D);
    place.call(Brings(brings as u8), |shared| make(shared.at(), what))
}

// SAFETY: as above. This is called by the threads of a gateway alone, whose domain has a lock.
unsafe extern "C" fn wait<D: Place>(
    context: *mut c_void,
    _: *mut sys::Domain,
    waits: u32,
    port: sys::Wide,
    brings: u32,
    nanoseconds: u64,
    make: c::Make,
    what: *mut c_void,
) -> u32 {
    let place = &*(context as *const D);
    let wait = Wait {
        what: if waits == c::MESSAGE {
            Waits::Message
        } else {
            Waits::Room
        },
        port,
        until: Instant::now().checked_add(Duration::from_nanos(nanoseconds)),
        brings: Brings(brings as u8),
    };
    place.wait(wait, |shared| make(shared.at(), what))
}

// ---- words and numbers

const MOST: usize = 1024;

fn nanoseconds(timeout: Duration) -> u64 {
    u64::try_from(timeout.as_nanos()).unwrap_or(u64::MAX)
}

fn c_text(text: &str) -> Result<CString, GatewayError> {
    CString::new(text).map_err(|_| GatewayError::ZeroInName)
}

fn words(text: &[c_char]) -> String {
    // SAFETY: it ends in a zero byte: C wrote it so, or nothing.
    unsafe { CStr::from_ptr(text.as_ptr()) }
        .to_string_lossy()
        .into_owned()
}

fn c_settings(size: usize, is_slice: bool, settings: &Settings) -> c::Settings {
    // SAFETY: zeros are numbers, null pointers and no functions.
    let mut plain: c::Settings = unsafe { std::mem::zeroed() };
    // SAFETY: the pointer is of a local.
    unsafe { c::iox2ps_dds_settings_defaults(&mut plain, size, u32::from(is_slice)) };
    plain.reliability = if settings.best_effort {
        c::BEST_EFFORT
    } else {
        c::RELIABLE
    };
    plain.volatile_reader = u32::from(settings.volatile_reader);
    plain.only_known = u32::from(settings.only_known);
    plain.reader_limit = settings.reader_limit.unwrap_or(plain.reader_limit);
    plain
}

// The type's name without modules, as C++ says it too.
fn name_of<T>() -> String {
    let mut name = String::new();
    for letter in type_name::<T>().chars() {
        match letter {
            ':' => name.truncate(name.rfind(['<', ',']).map_or(0, |at| at + 1)),
            _ => name.push(letter),
        }
    }
    name
}
