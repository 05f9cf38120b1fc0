// SPDX-License-Identifier: Apache-2.0 OR MIT
//! Types of which zeros are a value.

use std::marker::PhantomData;
use std::num::Wrapping;

/// A type of which zeros in all bytes are a value: numbers, `bool`, `char`, arrays and slices of such values, and
/// structs of which [`zeroable!`](crate::zeroable!) says it.
///
/// # Safety
///
/// Zeros in all its bytes are a value of this type.
pub unsafe trait Zeroable {}

macro_rules! zeros {
    ($($type:ty),*) => {
        $(
            // SAFETY: the language says so of each of them.
            unsafe impl Zeroable for $type {}
        )*
    };
}

zeros!(
    u8,
    u16,
    u32,
    u64,
    u128,
    usize,
    i8,
    i16,
    i32,
    i64,
    i128,
    isize,
    f32,
    f64,
    bool,
    char,
    ()
);

// SAFETY: it has no bytes.
unsafe impl<T: ?Sized> Zeroable for PhantomData<T> {}
// SAFETY: its bytes are those of the one value in it.
unsafe impl<T: Zeroable> Zeroable for Wrapping<T> {}
// SAFETY: its bytes are those of its values.
unsafe impl<T: Zeroable, const N: usize> Zeroable for [T; N] {}
// SAFETY: as above.
unsafe impl<T: Zeroable> Zeroable for [T] {}

/// Says that zeros are a value of a struct: [`Zeroable`]. All its fields are named, and the compiler asks the same of
/// the type of each.
///
/// ```
/// #[derive(Clone, Copy)]
/// struct Image {
///     width: u32,
///     pixels: [u8; 1 << 20],
/// }
///
/// iox2_pubsub::zeroable!(Image { width, pixels });
///
/// # fn main() -> Result<(), Box<dyn std::error::Error>> {
/// let domain = iox2_pubsub::Domain::<Image>::builder(7).create()?;
/// let publisher = domain.publisher()?;
/// let mut image = publisher.loan_zeroed()?; // nothing of it was on the stack
/// image.width = 1024;
/// image.pixels[0] = 255;
/// assert_eq!(image.send()?.delivered(), Some(0));
/// # Ok(())
/// # }
/// ```
///
/// The fields of `struct Pair(u8, u8)` are `{ 0, 1 }`. A field of another type is refused, and so is one that is left
/// out:
///
/// ```compile_fail
/// #[derive(Clone, Copy)]
/// struct Named(&'static str);
/// iox2_pubsub::zeroable!(Named { 0 });
/// ```
///
/// ```compile_fail
/// #[derive(Clone, Copy)]
/// struct Named(u8, &'static str);
/// iox2_pubsub::zeroable!(Named { 0 });
/// ```
#[macro_export]
macro_rules! zeroable {
    ($name:path { $($field:tt),* $(,)? }) => {
        const _: fn($name) = |value| {
            fn is_zeroable<T: $crate::Zeroable>(_: T) {}
            let $name { $($field: _),* } = value;
            $(is_zeroable(value.$field);)*
        };
        // SAFETY: zeros are a value of each field, all of which are named.
        unsafe impl $crate::Zeroable for $name {}
    };
}
