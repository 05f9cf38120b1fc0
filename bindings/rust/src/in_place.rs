// SPDX-License-Identifier: Apache-2.0 OR MIT
//! Messages that are written in place, part by part.

use crate::zeroable::Zeroable;
use std::fmt;
use std::marker::PhantomData;

// A lifetime that is that of no other place.
type Own<'p> = PhantomData<fn(&'p ()) -> &'p ()>;

/// A place in a message that isn't written yet: of a message as a whole
/// ([`LoanUninit::write_in_place`](crate::LoanUninit::write_in_place)), or of a part of it. It is written by a value, by
/// zeros, an array by the values of a function, and a struct field by field, by [`write_fields!`](crate::write_fields!).
#[must_use = "a place is written by one of its functions"]
pub struct Unwritten<'p, T> {
    at: *mut T,
    own: Own<'p>,
}

/// That a place was written: its own, and no other.
#[must_use = "it is what a place was to be written for"]
pub struct Written<'p, T> {
    own: Own<'p>,
    value: PhantomData<fn(T) -> T>,
}

impl<'p, T: Copy> Unwritten<'p, T> {
    // Lets a function write what is there.
    //
    // SAFETY of a call: the place is aligned, and is the caller's alone.
    #[inline(always)]
    pub(crate) unsafe fn fill(
        at: *mut T,
        write: impl for<'o> FnOnce(Unwritten<'o, T>) -> Written<'o, T>,
    ) {
        let Written { .. } = write(Unwritten {
            at,
            own: PhantomData,
        });
    }

    #[inline(always)]
    fn done(self) -> Written<'p, T> {
        Written {
            own: PhantomData,
            value: PhantomData,
        }
    }

    /// Writes this value.
    #[inline]
    pub fn write(self, value: T) -> Written<'p, T> {
        // SAFETY: the place is aligned, and this is the only one that has it.
        unsafe { self.at.write(value) };
        self.done()
    }

    /// Writes zeros.
    #[inline]
    pub fn write_zeroed(self) -> Written<'p, T>
    where
        T: Zeroable,
    {
        // SAFETY: as above, and zeros are a value.
        unsafe { self.at.write_bytes(0, 1) };
        self.done()
    }

    #[doc(hidden)]
    #[must_use]
    pub fn at(&self) -> *mut T {
        self.at
    }

    /// # Safety
    ///
    /// It is written.
    #[doc(hidden)]
    pub unsafe fn assume_written(self) -> Written<'p, T> {
        self.done()
    }
}

impl<'p, T: Copy, const N: usize> Unwritten<'p, [T; N]> {
    /// Writes into each place what the function returns for its index.
    #[inline]
    pub fn write_from_fn(self, mut value: impl FnMut(usize) -> T) -> Written<'p, [T; N]> {
        self.write_each(|index, place| place.write(value(index)))
    }

    /// Lets the function write each place, whose index it is given.
    #[inline]
    pub fn write_each(
        self,
        mut write: impl for<'o> FnMut(usize, Unwritten<'o, T>) -> Written<'o, T>,
    ) -> Written<'p, [T; N]> {
        let first = self.at.cast::<T>();
        for index in 0..N {
            // SAFETY: it is in the array, which is this function's alone.
            unsafe { Unwritten::fill(first.add(index), |place| write(index, place)) };
        }
        self.done()
    }
}

impl<T> fmt::Debug for Unwritten<'_, T> {
    fn fmt(&self, f: &mut fmt::Formatter<'_>) -> fmt::Result {
        f.write_str("Unwritten")
    }
}

impl<T> fmt::Debug for Written<'_, T> {
    fn fmt(&self, f: &mut fmt::Formatter<'_>) -> fmt::Result {
        f.write_str("Written")
    }
}

/// A field's place, for the macro.
#[doc(hidden)]
#[allow(missing_debug_implementations)]
pub struct Field<T>(*mut T);

impl<T: Copy> Field<T> {
    /// # Safety
    ///
    /// The place is aligned, and is the caller's alone.
    #[must_use]
    pub unsafe fn new(at: *mut T) -> Self {
        Field(at)
    }

    #[inline(always)]
    pub fn write(self, write: impl for<'o> FnOnce(Unwritten<'o, T>) -> Written<'o, T>) {
        // SAFETY: whoever made it says so.
        unsafe { Unwritten::fill(self.0, write) };
    }
}

/// Writes a struct field by field, each where it is to lie: a field by its value, or behind `=>` by a function that writes
/// its place. So a large message is never on the stack, and needs no [`Default`].
///
/// ```
/// use iox2_pubsub::{write_fields, Domain};
///
/// #[derive(Clone, Copy)]
/// enum Format {
///     Gray,
/// }
///
/// #[derive(Clone, Copy)]
/// struct Image {
///     format: Format,
///     width: u32,
///     pixels: [u8; 1 << 20],
/// }
///
/// # fn main() -> Result<(), Box<dyn std::error::Error>> {
/// let domain = Domain::<Image>::builder(7).create()?;
/// let publisher = domain.publisher()?;
/// let image = publisher.loan_uninit()?.write_in_place(|image| {
///     write_fields!(image, Image {
///         format: Format::Gray,
///         width: 1024,
///         pixels => |pixels| pixels.write_from_fn(|index| index as u8),
///     })
/// });
/// assert_eq!(image.pixels[258], 2);
/// assert_eq!(image.send()?.delivered(), Some(0));
/// # Ok(())
/// # }
/// ```
///
/// A field that is left out is refused, and so is one that is named twice, and one whose place isn't aligned:
///
/// ```compile_fail
/// # use iox2_pubsub::{write_fields, Domain};
/// #[derive(Clone, Copy)]
/// struct Pair(u8, u8);
/// let domain = Domain::<Pair>::builder(7).create().unwrap();
/// let loan = domain.publisher().unwrap().loan_uninit().unwrap();
/// loan.write_in_place(|pair| write_fields!(pair, Pair { 0: 1 }));
/// ```
///
/// ```compile_fail
/// # use iox2_pubsub::{write_fields, Domain};
/// #[derive(Clone, Copy)]
/// struct Pair(u8, u8);
/// let domain = Domain::<Pair>::builder(7).create().unwrap();
/// let loan = domain.publisher().unwrap().loan_uninit().unwrap();
/// loan.write_in_place(|pair| write_fields!(pair, Pair { 0: 1, 1: 2, 1: 3 }));
/// ```
///
/// ```compile_fail
/// # use iox2_pubsub::{write_fields, Domain};
/// #[derive(Clone, Copy)]
/// #[repr(packed)]
/// struct Pair(u8, u32);
/// let domain = Domain::<Pair>::builder(7).create().unwrap();
/// let loan = domain.publisher().unwrap().loan_uninit().unwrap();
/// loan.write_in_place(|pair| write_fields!(pair, Pair { 0: 1, 1: 2 }));
/// ```
#[macro_export]
macro_rules! write_fields {
    (@each $place:ident, $name:path, [$($done:tt)*]) => {
        // Each field once, none left out, and all aligned.
        let _ = |value: &$name| {
            let $name { $($done: _),* } = value;
            $(let _ = &value.$done;)*
        };
    };
    (@each $place:ident, $name:path, [$($done:tt)*] $field:tt => $write:expr $(, $($rest:tt)*)?) => {
        // SAFETY: the field's place is in that of the struct, which is written here alone.
        let field = unsafe { $crate::Field::new(::core::ptr::addr_of_mut!((*$place.at()).$field)) };
        field.write($write);
        $crate::write_fields!(@each $place, $name, [$($done)* $field] $($($rest)*)?);
    };
    (@each $place:ident, $name:path, [$($done:tt)*] $field:tt: $value:expr $(, $($rest:tt)*)?) => {
        // SAFETY: as above.
        let field = unsafe { $crate::Field::new(::core::ptr::addr_of_mut!((*$place.at()).$field)) };
        let value = $value;
        field.write(|place| place.write(value));
        $crate::write_fields!(@each $place, $name, [$($done)* $field] $($($rest)*)?);
    };
    ($place:expr, $name:path { $($fields:tt)* }) => {{
        let place: $crate::Unwritten<'_, $name> = $place;
        $crate::write_fields!(@each place, $name, [] $($fields)*);
        // SAFETY: each field is written.
        unsafe { place.assume_written() }
    }};
}
