// SPDX-License-Identifier: Apache-2.0 OR MIT
//! Domains that processes share by a name.

use crate::domain::{Domain, DomainBuilder, SharedDomain};
use crate::guarded::Guarded;
use crate::lock::DomainLock;
use crate::open_error::{DomainOpenError, DomainOpenErrorKind};
use crate::payload::Payload;
use crate::recording::Room;
use crate::shared::Shared;
use crate::sys;
use crate::sys::processes as c;
use crate::threads::{Part, Single};
use crate::watch::Pace;
use crate::zero_copy_send::ZeroCopySend;
use std::any::TypeId;
use std::ffi::{c_void, CStr, CString};
use std::fmt;
use std::mem::size_of;
use std::os::raw::{c_char, c_int};
use std::ptr;
use std::time::Duration;

impl<P: Payload + ?Sized> DomainBuilder<P> {
    /// The domain is one that processes share by this name, of 1 to 255 bytes, as `My/Service`, without a part `.` or `..`
    /// between two `/`. Its messages lie in shared memory, where each process reads them.
    ///
    /// ```
    /// use iox2_pubsub::Domain;
    ///
    /// # fn main() -> Result<(), Box<dyn std::error::Error>> {
    /// # let name = format!("My/Service.{}", std::process::id());
    /// // in one process
    /// let domain = Domain::<f64>::builder(7).name(&name).open_or_create()?;
    /// let publisher = domain.publisher()?;
    /// # let subscriber = domain.subscriber()?;
    /// publisher.send_copy(20.5)?.delivered();
    /// # assert_eq!(subscriber.receive_copy()?, Some(20.5));
    /// # Ok(())
    /// # }
    /// ```
    ///
    /// In another `open_or_create_shared` makes a domain whose calls may wait: `subscriber.blocking_receive()`.
    ///
    /// All processes have the same settings, type of messages and build of the library; else it isn't opened. Where
    /// [`record`](DomainBuilder::record) asks for a recording, [`create`](NamedDomainBuilder::create) begins it: of the calls of all
    /// processes, without the bytes of messages.
    pub fn name(self, name: &str) -> NamedDomainBuilder<P>
    where
        P::Element: ZeroCopySend,
    {
        NamedDomainBuilder {
            domain: self,
            name: name.into(),
            type_name: type_name::<P>(),
            asked: Asked::default(),
        }
    }
}

fn type_name<P>() -> String
where
    P: Payload + ?Sized,
    P::Element: ZeroCopySend,
{
    let element = P::Element::type_name();
    match TypeId::of::<P>() == TypeId::of::<P::Element>() {
        true => element,
        false => format!("[{element}]"),
    }
}

#[derive(Clone, Copy, PartialEq)]
enum How {
    OpenOrCreate,
    Open,
    Create,
}

impl How {
    fn call(self) -> c::Open {
        match self {
            How::OpenOrCreate => c::iox2ps_domain_open_or_create,
            How::Open => c::iox2ps_domain_open,
            How::Create => c::iox2ps_domain_create_named,
        }
    }
}

// What was asked for in place of what the settings say.
#[derive(Clone, Debug, Default)]
struct Asked {
    max_processes: Option<u32>,
    calls: Option<u32>,
    book_room: Option<usize>,
    payload_room: Option<usize>,
    permissions: Option<u32>,
    reap_every_ms: Option<u32>,
    spins: Option<u32>,
}

/// The settings of a domain that processes share: [`DomainBuilder::name`]. What the builder of an ordinary domain sets is set
/// before the name.
///
/// Whoever creates the domain decides the options here, but for `reap_every` and `spins`, which each process has for itself.
#[must_use = "settings make nothing until a call that opens or creates"]
pub struct NamedDomainBuilder<P: Payload + ?Sized> {
    domain: DomainBuilder<P>,
    name: String,
    type_name: String,
    asked: Asked,
}

// Written out, since derived ones would ask the same of `P`.
impl<P: Payload + ?Sized> Clone for NamedDomainBuilder<P> {
    fn clone(&self) -> Self {
        NamedDomainBuilder {
            domain: self.domain.clone(),
            name: self.name.clone(),
            type_name: self.type_name.clone(),
            asked: self.asked.clone(),
        }
    }
}

impl<P: Payload + ?Sized> fmt::Debug for NamedDomainBuilder<P> {
    fn fmt(&self, f: &mut fmt::Formatter<'_>) -> fmt::Result {
        f.debug_struct("NamedDomainBuilder")
            .field("domain", &self.domain)
            .field("name", &self.name)
            .field("type_name", &self.type_name)
            .field("asked", &self.asked)
            .finish()
    }
}

impl<P: Payload + ?Sized> NamedDomainBuilder<P> {
    /// How many processes may have it at a time: 16 unless it is set, and 64 at most.
    pub fn max_processes(mut self, value: u32) -> Self {
        self.asked.max_processes = Some(value);
        self
    }

    /// How many calls the list of the processes keeps, a power of two from 8 to 8192: 256 unless it is set. A process that is
    /// further behind takes a copy of all book-keeping.
    pub fn calls(mut self, value: u32) -> Self {
        self.asked.calls = Some(value);
        self
    }

    /// How many bytes there are for the book-keeping of ports: what the settings need, unless it is set.
    pub fn book_room(mut self, value: usize) -> Self {
        self.asked.book_room = Some(value);
        self
    }

    /// How many bytes there are for payloads: those of the publishers that may be open and of one more, which don't grow,
    /// unless it is set.
    pub fn payload_room(mut self, value: usize) -> Self {
        self.asked.payload_room = Some(value);
        self
    }

    /// Who may open the files, as the system's permissions: `0o600` unless it is set, for the same user.
    pub fn permissions(mut self, value: u32) -> Self {
        self.asked.permissions = Some(value);
        self
    }

    /// How often this process looks for others that died and gives back what they had: 200 ms unless it is set. A domain that
    /// threads share looks by itself, and another one where a call is refused for want of room.
    pub fn reap_every(mut self, value: Duration) -> Self {
        let milliseconds = u32::try_from(value.as_millis()).unwrap_or(u32::MAX);
        self.asked.reap_every_ms = Some(milliseconds.max(1));
        self
    }

    /// How often a call that waits looks for what other processes bring before its thread sleeps: 2,000 times unless it is set.
    pub fn spins(mut self, value: u32) -> Self {
        self.asked.spins = Some(value);
        self
    }

    /// The name by which processes compare the type of messages, in place of [`ZeroCopySend::type_name`]; that of a slice is
    /// in `[]` otherwise.
    pub fn type_name(mut self, value: &str) -> Self {
        self.type_name = value.into();
        self
    }

    /// Opens the domain, or creates it where no process has it.
    ///
    /// # Errors
    ///
    /// See [`DomainOpenError`].
    pub fn open_or_create(self) -> Result<Domain<P>, DomainOpenError> {
        self.single(How::OpenOrCreate)
    }

    /// Opens the domain of another process.
    ///
    /// # Errors
    ///
    /// [`DomainOpenErrorKind::DoesNotExist`], and as [`open_or_create`](NamedDomainBuilder::open_or_create).
    pub fn open(self) -> Result<Domain<P>, DomainOpenError> {
        self.single(How::Open)
    }

    /// Creates the domain, which no process has.
    ///
    /// # Errors
    ///
    /// [`DomainOpenErrorKind::AlreadyExists`], and as [`open_or_create`](NamedDomainBuilder::open_or_create).
    pub fn create(self) -> Result<Domain<P>, DomainOpenError> {
        self.single(How::Create)
    }

    /// As [`open_or_create`](NamedDomainBuilder::open_or_create), for several threads, and with calls that wait for what other
    /// processes bring. One thread that waits sleeps for all; a thread of the library does so for tasks, listeners and wait sets.
    ///
    /// # Errors
    ///
    /// See [`DomainOpenError`].
    pub fn open_or_create_shared(self) -> Result<SharedDomain<P>, DomainOpenError>
    where
        P: Send + Sync,
    {
        self.open_or_create_with_lock()
    }

    /// As [`open`](NamedDomainBuilder::open), for several threads.
    ///
    /// # Errors
    ///
    /// See there.
    pub fn open_shared(self) -> Result<SharedDomain<P>, DomainOpenError>
    where
        P: Send + Sync,
    {
        self.open_with_lock()
    }

    /// As [`create`](NamedDomainBuilder::create), for several threads.
    ///
    /// # Errors
    ///
    /// See there.
    pub fn create_shared(self) -> Result<SharedDomain<P>, DomainOpenError>
    where
        P: Send + Sync,
    {
        self.create_with_lock()
    }

    /// As [`open_or_create_shared`](NamedDomainBuilder::open_or_create_shared), with a lock that is brought: see [`DomainLock`].
    ///
    /// # Errors
    ///
    /// See [`DomainOpenError`].
    pub fn open_or_create_with_lock<L>(self) -> Result<SharedDomain<P, L>, DomainOpenError>
    where
        P: Send + Sync,
        L: DomainLock,
    {
        self.of_threads(How::OpenOrCreate)
    }

    /// As [`open_shared`](NamedDomainBuilder::open_shared), with a lock that is brought.
    ///
    /// # Errors
    ///
    /// See there.
    pub fn open_with_lock<L>(self) -> Result<SharedDomain<P, L>, DomainOpenError>
    where
        P: Send + Sync,
        L: DomainLock,
    {
        self.of_threads(How::Open)
    }

    /// As [`create_shared`](NamedDomainBuilder::create_shared), with a lock that is brought.
    ///
    /// # Errors
    ///
    /// See there.
    pub fn create_with_lock<L>(self) -> Result<SharedDomain<P, L>, DomainOpenError>
    where
        P: Send + Sync,
        L: DomainLock,
    {
        self.of_threads(How::Create)
    }

    fn single(&self, how: How) -> Result<Domain<P>, DomainOpenError> {
        Ok(Domain::of(Single::new(self.opened(how)?)))
    }

    fn of_threads<L: DomainLock>(
        &self,
        how: How,
    ) -> Result<SharedDomain<P, L>, DomainOpenError> {
        let (guarded, options) = (Guarded::new(self.opened(how)?), self.options());
        let watched = guarded.watched(Pace::of(&options)).map_err(|error| {
            DomainOpenError::new(
                DomainOpenErrorKind::InternalFailure,
                format!("no thread: {error}"),
            )
        });
        Ok(Domain::of(Part::new(watched?)))
    }

    fn opened(&self, how: How) -> Result<Shared, DomainOpenError> {
        // SAFETY: it takes no pointer.
        if unsafe { sys::iox2ps_version() } != sys::VERSION {
            let why = "the library isn't of the crate's version";
            return Err(DomainOpenError::new(
                DomainOpenErrorKind::VersionMismatch,
                why,
            ));
        }
        let (name, type_name) = (terminated(&self.name)?, terminated(&self.type_name)?);
        let (config, options) = (&self.domain.config, self.options());
        // Where the settings are invalid, the call that opens says so.
        let options = match options.struct_size {
            0 => ptr::null(),
            _ => &options as *const _,
        };
        let (name, type_name) = (name.as_ptr(), type_name.as_ptr());
        let recorded = self.domain.recorded.filter(|_| how == How::Create);
        let open = how.call();
        // SAFETY: the pointers are of locals, and the strings end in a zero.
        let made = Shared::made(config, |domain| unsafe {
            match recorded {
                None => open(domain, name, type_name, config, options),
                Some(Room { commands, .. }) => c::iox2ps_domain_create_named_recorded(
                    domain, name, type_name, config, options, commands,
                ),
            }
        });
        made.map_err(DomainOpenError::of)
    }

    fn options(&self) -> c::Options {
        let (options, asked) = (options_of(&self.domain.config), &self.asked);
        c::Options {
            max_processes: asked.max_processes.unwrap_or(options.max_processes),
            calls: asked.calls.unwrap_or(options.calls),
            book_room: asked.book_room.unwrap_or(options.book_room),
            payload_room: asked.payload_room.unwrap_or(options.payload_room),
            permissions: asked.permissions.unwrap_or(options.permissions),
            reap_every_ms: asked.reap_every_ms.unwrap_or(options.reap_every_ms),
            spins: asked.spins.unwrap_or(options.spins),
            ..options
        }
    }
}

// Those of a domain that is opened without any. Its size is 0 where the settings are invalid.
pub(crate) fn options_of(config: &sys::Config) -> c::Options {
    let mut options = c::Options::default();
    let size = size_of::<c::Options>();
    // SAFETY: the pointers are of locals.
    unsafe { c::iox2ps_processes_options_of_sized(config, &mut options, size) };
    options
}

fn terminated(name: &str) -> Result<CString, DomainOpenError> {
    let why = "a name has no zero in it";
    CString::new(name)
        .map_err(|_| DomainOpenError::new(DomainOpenErrorKind::InvalidArgument, why))
}

/// A domain that processes have by a name, as [`Domain::list`] found it.
#[non_exhaustive]
#[derive(Clone, Debug, PartialEq, Eq)]
pub struct DomainInfo {
    /// Its name.
    pub name: String,
    /// The name of its type of messages.
    pub type_name: String,
    /// How many bytes a message has at most.
    pub payload_size: usize,
    /// How a message is aligned.
    pub payload_alignment: usize,
    /// How many processes there may be.
    pub max_processes: u32,
    /// How many there were.
    pub processes: u32,
}

/// Which domains processes share. Another process may create or leave one at any time.
impl Domain<()> {
    /// Whether a process has a domain with this name that this one may read.
    ///
    /// ```
    /// assert!(!iox2_pubsub::Domain::exists("test_doc_nobody_has_this"));
    /// ```
    #[must_use]
    pub fn exists(name: &str) -> bool {
        let mut exists = 0;
        let name = match CString::new(name) {
            Ok(name) => name,
            Err(_) => return false,
        };
        // SAFETY: the string ends in a zero, and the other pointer is of a local.
        let code = unsafe { c::iox2ps_domain_exists(name.as_ptr(), &mut exists) };
        code == sys::OK && exists != 0
    }

    /// The domains that processes have and this one may read.
    ///
    /// # Errors
    ///
    /// [`DomainOpenErrorKind::InternalFailure`] where the system refuses.
    pub fn list() -> Result<Vec<DomainInfo>, DomainOpenError> {
        let mut found: Vec<DomainInfo> = Vec::new();
        // SAFETY: the function is given what it takes.
        let code = unsafe { c::iox2ps_domain_list(tell, (&mut found as *mut Vec<_>).cast()) };
        match code {
            sys::OK => Ok(found),
            _ => Err(DomainOpenError::new(
                DomainOpenErrorKind::of(code),
                "the folder of shared memory can't be read",
            )),
        }
    }
}

unsafe extern "C" fn tell(info: *const c::DomainInfo, context: *mut c_void) -> c_int {
    let (found, info) = (&mut *context.cast::<Vec<DomainInfo>>(), &*info);
    found.push(DomainInfo {
        name: read(&info.name),
        type_name: read(&info.type_name),
        payload_size: info.payload_size,
        payload_alignment: info.payload_alignment,
        max_processes: info.max_processes,
        processes: info.processes,
    });
    0
}

// The library ends each in a zero.
fn read(text: &[c_char]) -> String {
    // SAFETY: as above.
    let text = unsafe { CStr::from_ptr(text.as_ptr()) };
    text.to_string_lossy().into_owned()
}
