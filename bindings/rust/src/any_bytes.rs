// SPDX-License-Identifier: Apache-2.0 OR MIT
//! Types whose values may come from elsewhere.

/// Values that any bytes are, so that bytes of another process or another language may be read as one.
///
/// # Safety
///
/// Each pattern of bits of this size is a value: no `bool`, `char`, enum, reference, pointer or box in it.
/// Both sides have the same layout, so a struct is `repr(C)`.
pub unsafe trait AnyBytes: Copy + 'static {}

macro_rules! any_bytes {
    ($($number:ty),*) => { $(
        // SAFETY: any bytes are one.
        unsafe impl AnyBytes for $number {}
    )* };
}
any_bytes!(u8, u16, u32, u64, u128, usize, i8, i16, i32, i64, i128, isize, f32, f64);

// SAFETY: it has such values alone, without anything between them.
unsafe impl<T: AnyBytes, const N: usize> AnyBytes for [T; N] {}
