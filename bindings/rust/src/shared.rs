// SPDX-License-Identifier: Apache-2.0 OR MIT
//! The domain that its ports, loans and samples share.

use crate::fork::Process;
use crate::recording::Room;
use crate::sys;
use crate::threads::Brings;
use std::ptr::{addr_of_mut, null_mut};

/// The one owner of the library's domain. Its pointer is never copied out of it.
#[allow(missing_debug_implementations)]
pub struct Shared {
    domain: sys::Domain,
    process: Process,
    // Publishers that were dropped while a send of theirs was blocked. They close with it.
    orphans: Vec<sys::Publisher>,
    // Those that are open and aren't dropped, where threads share the domain.
    publishers: Vec<sys::Publisher>,
    // What the calls under way have brought beside what their last one says.
    pub(crate) brings_too: Brings,
    joined: Vec<Joined>,
    // What an update of a publisher's connections may bring: its history, where one is kept.
    history: Brings,
}

// Another language that has joined, which stays at its place until it leaves.
struct Joined(*mut sys::shared::Joined);

// SAFETY: who joined is called on any thread, as the header says.
unsafe impl Send for Joined {}

// SAFETY: the archive has no state but its domains: no global, no thread-local, and it asks no thread
// for its name. So a domain may be called from any thread, one call at a time.
unsafe impl Send for Shared {}

impl Shared {
    // The code of a domain that isn't made.
    pub(crate) fn new(config: &sys::Config, recorded: Option<Room>) -> Result<Shared, u32> {
        // SAFETY: as below.
        Self::made(config, |domain| unsafe {
            match recorded {
                None => sys::iox2ps_domain_create(domain, config),
                Some(Room { commands, bytes }) => {
                    sys::iox2ps_domain_create_recorded(domain, config, commands, bytes)
                }
            }
        })
    }

    // Of what makes or opens one in an empty place.
    pub(crate) fn made(
        config: &sys::Config,
        make: impl FnOnce(&mut sys::Domain) -> u32,
    ) -> Result<Shared, u32> {
        let process = Process::this().ok_or(sys::OUT_OF_MEMORY)?;
        let mut domain = sys::Domain { domain: null_mut() };
        match make(&mut domain) {
            sys::OK => Ok(Shared {
                domain,
                process,
                orphans: Vec::new(),
                publishers: Vec::new(),
                brings_too: Brings::NOTHING,
                joined: Vec::new(),
                history: match config.history_size {
                    0 => Brings::NOTHING,
                    _ => Brings::MESSAGE,
                },
            }),
            code => Err(code),
        }
    }

    // Where its domain is, without a reference to the rest.
    pub(crate) fn place(shared: *mut Shared) -> *mut sys::Domain {
        // SAFETY: it is there, and nothing is read.
        unsafe { addr_of_mut!((*shared).domain) }
    }

    // The process that made it, whose calls alone may reach it.
    pub(crate) fn process(&self) -> Process {
        self.process
    }

    // SAFETY of every call that takes this: its pointers are of locals or of fields that live through
    // the call, of the header's types, and the mutable ones aren't shared. Only one call at a time works
    // on the domain, since this takes it mutably, and no call calls back.
    #[inline(always)]
    pub(crate) fn at(&mut self) -> *mut sys::Domain {
        &mut self.domain
    }

    // Its connections are updated from now on when a subscriber is made.
    pub(crate) fn keep_publisher(&mut self, publisher: &sys::Publisher) {
        self.publishers.push(*publisher);
    }

    // A subscriber came. Where an update is refused, that publisher's next send makes it.
    pub(crate) fn update_publishers(&mut self) {
        for publisher in &self.publishers {
            // SAFETY: see `at`.
            unsafe { sys::iox2ps_publisher_update_connections(&mut self.domain, publisher) };
        }
        for joined in &self.joined {
            // SAFETY: it has joined, and is called with the lock.
            unsafe { ((*joined.0).connect)(joined.0, &mut self.domain) };
        }
    }

    // Another language joins. It stays at its place until it leaves.
    pub(crate) fn join(&mut self, joined: *mut sys::shared::Joined) -> u32 {
        if self.joined.try_reserve(1).is_err() {
            return sys::OUT_OF_MEMORY;
        }
        self.joined.push(Joined(joined));
        sys::OK
    }

    // Whether others are left.
    pub(crate) fn leave(&mut self, joined: *mut sys::shared::Joined) -> bool {
        self.joined.retain(|one| one.0 != joined);
        !self.joined.is_empty()
    }

    pub(crate) fn stop_joined(&mut self, is_stopped: bool) {
        for joined in &self.joined {
            // SAFETY: it has joined, and reads this with the lock.
            unsafe { (*joined.0).waits_are_stopped = u32::from(is_stopped) };
        }
    }

    pub(crate) fn wake_joined(&self, brings: Brings) {
        if brings == Brings::NOTHING {
            return;
        }
        for joined in &self.joined {
            // SAFETY: it has joined, and is called with the lock.
            unsafe { ((*joined.0).wake)(joined.0, brings.0.into()) };
        }
    }

    // Updates a publisher's connections beside the call that is under way.
    pub(crate) fn update_too(&mut self, publisher: &sys::Publisher) -> u32 {
        // SAFETY: see `at`.
        let code = unsafe { sys::iox2ps_publisher_update_connections(self.at(), publisher) };
        self.brings_too = self.history.by(code);
        code
    }

    // Whether it is open, and its handle wasn't dropped.
    pub(crate) fn has_publisher(&self, id: sys::Wide) -> bool {
        self.publishers.iter().any(|one| one.id == id)
    }

    // It is updated no longer.
    pub(crate) fn forget_publisher(&mut self, id: sys::Wide) {
        self.publishers.retain(|one| one.id != id);
    }

    // OK, or PUBLISHER_IS_BLOCKED where it closes later.
    pub(crate) fn close_publisher(&mut self, publisher: &sys::Publisher) -> u32 {
        self.forget_publisher(publisher.id);
        // SAFETY: see `at`.
        let code = unsafe { sys::iox2ps_publisher_close(self.at(), publisher) };
        if code == sys::PUBLISHER_IS_BLOCKED {
            self.orphans.push(*publisher);
        }
        code
    }

    // A send of this publisher has ended.
    pub(crate) fn close_orphan(&mut self, id: sys::Wide) {
        if let Some(at) = self.orphans.iter().position(|orphan| orphan.id == id) {
            let publisher = self.orphans.swap_remove(at);
            // SAFETY: see `at`. It is refused for no publisher that is there and not blocked.
            unsafe { sys::iox2ps_publisher_close(self.at(), &publisher) };
        }
    }
}

impl Drop for Shared {
    fn drop(&mut self) {
        if self.process.is_this() {
            // SAFETY: see `at`.
            unsafe { sys::iox2ps_domain_destroy(self.at()) };
        }
    }
}
