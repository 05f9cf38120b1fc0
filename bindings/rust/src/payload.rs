// SPDX-License-Identifier: Apache-2.0 OR MIT
//! What a message may be: a value, or a slice of values.

use crate::sys::PAYLOAD_ALIGNMENT;
use std::mem::{align_of, size_of, MaybeUninit};
use std::ptr;

mod sealed {
    pub trait Sealed {}
    impl<T: Copy + 'static> Sealed for T {}
    impl<T: Copy + 'static> Sealed for [T] {}
}

/// What a message may be: any `T: Copy + 'static`, or a slice of such values.
///
/// A `Domain<P>` has messages of this type alone, so whatever is received was sent as a `P`: it needs
/// no further promise of its bits. `Copy`, since a message is never dropped; `'static`, since it is
/// in its slot as long as the domain likes.
///
/// What has to be dropped is no message, nor what borrows:
///
/// ```compile_fail
/// let domain = iox2_pubsub::Domain::<String>::builder(1).create();
/// ```
///
/// ```compile_fail
/// fn borrowing<'a>(_: &'a u8) {
///     let domain = iox2_pubsub::Domain::<&'a u8>::builder(1).create();
/// }
/// ```
///
/// A type whose alignment is above 16 isn't built. `cargo check`, which builds nothing, doesn't see it:
///
/// ```compile_fail
/// #[derive(Clone, Copy)]
/// #[repr(align(32))]
/// struct Wide([u8; 32]);
/// let domain = iox2_pubsub::Domain::<Wide>::builder(1).create();
/// ```
///
/// Nor are slices of a type without size, whose length can't be told from their bytes:
///
/// ```compile_fail
/// let domain = iox2_pubsub::Domain::<[()]>::slice_builder(1).create();
/// ```
///
/// One such value alone may be a message, which says that something happened:
///
/// ```
/// # fn main() -> Result<(), Box<dyn std::error::Error>> {
/// let domain = iox2_pubsub::Domain::<()>::builder(1).create()?;
/// let (publisher, subscriber) = (domain.publisher()?, domain.subscriber()?);
/// publisher.send_copy(())?.delivered();
/// assert_eq!(subscriber.receive_copy()?, Some(()));
/// # Ok(())
/// # }
/// ```
#[cfg_attr(
    has_diagnostics,
    diagnostic::on_unimplemented(
        message = "no message can be of the type `{Self}`",
        label = "a message is `Copy` and `'static`, or a slice of such values"
    )
)]
pub trait Payload: sealed::Sealed + 'static {
    /// The payload where nothing is written yet.
    type Uninit: ?Sized;

    #[doc(hidden)]
    type Element: Copy + 'static;

    /// The payload of this number of bytes that begins there, or `None` if no payload fits.
    #[doc(hidden)]
    fn at(start: *mut u8, bytes: usize) -> Option<*mut Self>;

    #[doc(hidden)]
    fn uninit(payload: *mut Self) -> *mut Self::Uninit;

    /// How many bytes one element has.
    #[doc(hidden)]
    const SIZE: usize = size_of::<Self::Element>();

    #[doc(hidden)]
    const ALIGNMENT: usize = align_of::<Self::Element>();

    /// Refused by the compiler where the elements don't fit a slot.
    #[doc(hidden)]
    const FITS: () = assert!(
        Self::ALIGNMENT <= PAYLOAD_ALIGNMENT,
        "the alignment of a message is at most 16"
    );

    /// Refused by the compiler where a message's bytes don't say how many elements it has.
    #[doc(hidden)]
    const COUNTS: () = ();

    /// How many bytes this number of elements has, or the greatest number that there can be.
    #[doc(hidden)]
    #[must_use]
    fn greatest_size(elements: usize) -> usize {
        let greatest = usize::MAX - usize::MAX % Self::ALIGNMENT;
        elements.checked_mul(Self::SIZE).unwrap_or(greatest)
    }
}

impl<T: Copy + 'static> Payload for T {
    type Uninit = MaybeUninit<T>;
    type Element = T;

    fn at(start: *mut u8, bytes: usize) -> Option<*mut T> {
        if bytes != size_of::<T>() {
            return None;
        }
        aligned(start, bytes)
    }

    fn uninit(payload: *mut T) -> *mut MaybeUninit<T> {
        payload.cast()
    }
}

/// Of [`Payload`] the single values, which are no slices.
#[cfg_attr(
    has_diagnostics,
    diagnostic::on_unimplemented(
        message = "`{Self}` is no single value that can be a message",
        label = "a domain of slices is made by `Domain::slice_builder`",
        note = "a single value is `Copy` and `'static`"
    )
)]
pub trait Value: Payload {}

impl<T: Copy + 'static> Value for T {}

impl<T: Copy + 'static> Payload for [T] {
    type Uninit = [MaybeUninit<T>];
    type Element = T;
    const COUNTS: () = assert!(
        size_of::<T>() > 0,
        "the values of a slice have a size: one of none may be a message alone"
    );

    fn at(start: *mut u8, bytes: usize) -> Option<*mut [T]> {
        let len = bytes.checked_div(size_of::<T>())?;
        if len * size_of::<T>() != bytes {
            return None;
        }
        Some(ptr::slice_from_raw_parts_mut(aligned(start, bytes)?, len))
    }

    fn uninit(payload: *mut [T]) -> *mut [MaybeUninit<T>] {
        payload as *mut [MaybeUninit<T>]
    }
}

// An empty message may begin anywhere, since nothing is read there.
fn aligned<T>(start: *mut u8, bytes: usize) -> Option<*mut T> {
    if bytes == 0 {
        return Some(ptr::NonNull::dangling().as_ptr());
    }
    (start as usize % align_of::<T>() == 0).then(|| start.cast())
}
