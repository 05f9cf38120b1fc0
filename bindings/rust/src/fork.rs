// SPDX-License-Identifier: Apache-2.0 OR MIT
//! What a child of a fork finds. It has a copy of the memory alone: a thread that had a lock isn't there to give it back, and
//! descriptors are shared with the parent.
//!
//! A domain of one thread has none any more in a child, so that the archive itself refuses each call, and none in the parent asks. A
//! domain that threads share asks before it takes its lock.

use crate::sys;
use std::sync::atomic::{AtomicU32, Ordering};

// How often the process that runs was forked off another one that had domains.
static FORKS: AtomicU32 = AtomicU32::new(0);

/// The process that made something.
#[derive(Clone, Copy, Debug)]
pub(crate) struct Process(u32);

impl Process {
    /// This one. `None` where there is no memory to be told of forks.
    pub(crate) fn this() -> Option<Process> {
        imp::is_told().then(|| Process(FORKS.load(Ordering::Relaxed)))
    }

    #[inline(always)]
    pub(crate) fn is_this(self) -> bool {
        // A child has one thread, which has seen its own fork.
        FORKS.load(Ordering::Relaxed) == self.0
    }
}

/// A domain of one thread, which stays at its place until it is forgotten.
pub(crate) fn remember(domain: *mut sys::Domain) {
    imp::remember(domain);
}

pub(crate) fn forget(domain: *mut sys::Domain) {
    imp::forget(domain);
}

#[cfg(all(unix, not(miri)))]
mod imp {
    use super::FORKS;
    use crate::sys;
    use std::cell::UnsafeCell;
    use std::os::raw::c_int;
    use std::ptr::null_mut;
    use std::sync::atomic::{AtomicBool, Ordering};
    use std::sync::{Mutex, MutexGuard, Once, PoisonError};

    type Handler = Option<unsafe extern "C" fn()>;

    extern "C" {
        fn pthread_atfork(prepare: Handler, parent: Handler, child: Handler) -> c_int;
    }

    struct Known(*mut sys::Domain);

    // SAFETY: it is the place of a domain, to which something is written by a child's only thread alone.
    unsafe impl Send for Known {}

    static KNOWN: Mutex<Vec<Known>> = Mutex::new(Vec::new());

    struct Held(UnsafeCell<Option<MutexGuard<'static, Vec<Known>>>>);

    // SAFETY: the thread that forks alone reaches it, which has the list meanwhile.
    unsafe impl Sync for Held {}

    static HELD: Held = Held(UnsafeCell::new(None));

    fn known() -> MutexGuard<'static, Vec<Known>> {
        KNOWN.lock().unwrap_or_else(PoisonError::into_inner)
    }

    pub(super) fn remember(domain: *mut sys::Domain) {
        known().push(Known(domain));
    }

    pub(super) fn forget(domain: *mut sys::Domain) {
        let mut known = known();
        if let Some(at) = known.iter().position(|one| one.0 == domain) {
            known.swap_remove(at);
        }
    }

    // So that no thread has the list which isn't there in the child.
    unsafe extern "C" fn before() {
        let known = known();
        *HELD.0.get() = Some(known);
    }

    unsafe extern "C" fn in_parent() {
        *HELD.0.get() = None;
    }

    unsafe extern "C" fn in_child() {
        FORKS.fetch_add(1, Ordering::Relaxed);
        if let Some(mut known) = (*HELD.0.get()).take() {
            for domain in known.drain(..) {
                (*domain.0).domain = null_mut();
            }
        }
    }

    pub(super) fn is_told() -> bool {
        static ONCE: Once = Once::new();
        static IS_TOLD: AtomicBool = AtomicBool::new(false);
        ONCE.call_once(|| {
            // SAFETY: what is called is there as long as the program.
            let refused = unsafe { pthread_atfork(Some(before), Some(in_parent), Some(in_child)) };
            IS_TOLD.store(refused == 0, Ordering::Relaxed);
        });
        IS_TOLD.load(Ordering::Relaxed)
    }
}

#[cfg(not(all(unix, not(miri))))]
mod imp {
    use crate::sys;

    pub(super) fn remember(_: *mut sys::Domain) {}

    pub(super) fn forget(_: *mut sys::Domain) {}

    pub(super) fn is_told() -> bool {
        true
    }
}
