// SPDX-License-Identifier: Apache-2.0 OR MIT
//! A domain for another language of the process, as the C header `iox2_pubsub_shared.h` says.

use crate::any_bytes::AnyBytes;
use crate::domain::SharedDomain;
use crate::errors::ShareError;
use crate::guarded::Guarded;
use crate::lock::DomainLock;
use crate::payload::Payload;
use crate::sys::shared as c;
use crate::sys::{self, iox2ps_version};
use crate::threads::{Brings, Part, Place, WaitingPlace};
use std::any::TypeId;
use std::ffi::{c_void, CStr};
use std::fmt;
use std::mem::{align_of, size_of, ManuallyDrop};
use std::ptr::NonNull;
use std::sync::Arc;

/// A domain for another language of this process, from [`share`](crate::Domain::share). It keeps the domain; clones are the
/// same.
///
/// Python takes it in a capsule, whose pointer is that of [`into_raw`](Share::into_raw):
///
/// ```
/// # fn main() -> Result<(), Box<dyn std::error::Error>> {
/// use iox2_pubsub::{Domain, Share};
///
/// let domain = Domain::<u64>::builder(7).create_shared()?;
/// let pointer = domain.share()?.into_raw();
/// // PyCapsule_New(pointer, Share::CAPSULE_NAME.as_ptr(), a function that drops what `from_raw` gives)
/// drop(unsafe { Share::from_raw(pointer) });
/// # Ok(())
/// # }
/// ```
pub struct Share(NonNull<c::SharedDomain>);

// SAFETY: what it points to is never changed but for its count, and its functions may be called on any thread.
unsafe impl Send for Share {}
// SAFETY: as above.
unsafe impl Sync for Share {}

impl Share {
    /// The name of a capsule of Python with such a pointer, which `Domain.join` takes.
    // SAFETY: it ends in its one zero byte.
    pub const CAPSULE_NAME: &'static CStr =
        unsafe { CStr::from_bytes_with_nul_unchecked(b"iox2_pubsub.shared_domain\0") };

    /// The `const iox2ps_shared_domain_t *` of the C header, which is there as long as this is.
    #[must_use]
    pub fn as_ptr(&self) -> *mut c_void {
        self.0.as_ptr().cast()
    }

    /// The same, which keeps the domain until [`from_raw`](Share::from_raw) takes it back, or C calls its `release`.
    #[must_use]
    pub fn into_raw(self) -> *mut c_void {
        ManuallyDrop::new(self).as_ptr()
    }

    /// Takes back what [`into_raw`](Share::into_raw) gave.
    ///
    /// # Safety
    ///
    /// It is such a pointer, and is taken back once.
    #[must_use]
    pub unsafe fn from_raw(pointer: *mut c_void) -> Share {
        Share(NonNull::new_unchecked(pointer.cast()))
    }
}

impl Clone for Share {
    fn clone(&self) -> Self {
        // SAFETY: it is there as long as this is.
        unsafe { (self.0.as_ref().keep)(self.0.as_ptr()) };
        Share(self.0)
    }
}

impl Drop for Share {
    fn drop(&mut self) {
        // SAFETY: this has counted itself once.
        unsafe { (self.0.as_ref().release)(self.0.as_ptr()) };
    }
}

impl fmt::Debug for Share {
    fn fmt(&self, f: &mut fmt::Formatter<'_>) -> fmt::Result {
        // SAFETY: it is there as long as this is.
        let domain = unsafe { self.0.as_ref() };
        f.debug_struct("Share")
            .field("element_size", &domain.element_size)
            .field("is_slice", &(domain.is_slice != 0))
            .finish_non_exhaustive()
    }
}

impl<P, L> SharedDomain<P, L>
where
    P: Payload + ?Sized,
    P::Element: AnyBytes,
    L: DomainLock,
{
    /// The domain for another language of this process, whose calls are made under the same lock and wake those who wait here.
    /// What it writes into a message is any bytes.
    ///
    /// # Errors
    ///
    /// See [`ShareError`].
    pub fn share(&self) -> Result<Share, ShareError> {
        match self.hold.is_of_processes() {
            Some(false) => {}
            Some(true) => return Err(ShareError::OfProcesses),
            None => return Err(ShareError::AfterFork),
        }
        let handed = Handed {
            domain: c::SharedDomain {
                struct_size: size_of::<c::SharedDomain>(),
                // SAFETY: it takes nothing.
                version: unsafe { iox2ps_version() },
                is_slice: u32::from(TypeId::of::<P>() != TypeId::of::<P::Element>()),
                element_size: P::SIZE,
                element_alignment: align_of::<P::Element>(),
                call: call::<L>,
                join: join::<L>,
                leave: leave::<L>,
                stop_waits: stop_waits::<L>,
                keep: keep::<L>,
                release: release::<L>,
            },
            hold: self.hold.clone(),
        };
        let pointer = Arc::into_raw(Arc::new(handed));
        // SAFETY: it isn't null.
        Ok(Share(unsafe {
            NonNull::new_unchecked(pointer as *mut c::SharedDomain)
        }))
    }
}

// What the pointer of C leads to, which an `Arc` counts.
#[repr(C)]
struct Handed<L> {
    domain: c::SharedDomain,
    hold: Part<L>,
}

// SAFETY of what C calls: the pointer is that of a `Handed` of this lock, which is there, and what C gives with it is what the
// header says.

unsafe fn place<'h, L: DomainLock>(shared: *const c::SharedDomain) -> &'h Guarded<L> {
    &(*shared.cast::<Handed<L>>()).hold
}

unsafe extern "C" fn call<L: DomainLock>(
    shared: *const c::SharedDomain,
    brings: u32,
    make: c::Make,
    what: *mut c_void,
) -> u32 {
    let makes_subscriber = brings & c::BRINGS_SUBSCRIBER != 0;
    let brought = if makes_subscriber {
        Brings::SEND
    } else {
        Brings::NOTHING
    };
    place::<L>(shared).call(
        brought.and(Brings(brings as u8).only(Brings::ALL)),
        |domain| {
            let code = make(domain.at(), what);
            if code == sys::OK && makes_subscriber {
                domain.update_publishers();
            }
            code
        },
    )
}

unsafe extern "C" fn join<L: DomainLock>(
    shared: *const c::SharedDomain,
    joined: *mut c::Joined,
) -> u32 {
    place::<L>(shared).join(joined)
}

unsafe extern "C" fn leave<L: DomainLock>(shared: *const c::SharedDomain, joined: *mut c::Joined) {
    place::<L>(shared).leave(joined);
}

unsafe extern "C" fn stop_waits<L: DomainLock>(shared: *const c::SharedDomain, stopped: u32) {
    place::<L>(shared).stop_waits(stopped != 0);
}

unsafe extern "C" fn keep<L: DomainLock>(shared: *const c::SharedDomain) {
    Arc::increment_strong_count(shared.cast::<Handed<L>>());
}

unsafe extern "C" fn release<L: DomainLock>(shared: *const c::SharedDomain) {
    Arc::decrement_strong_count(shared.cast::<Handed<L>>());
}
