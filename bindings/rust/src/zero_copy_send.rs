// SPDX-License-Identifier: Apache-2.0 OR MIT
//! Types whose values one process writes and another reads.

use std::mem::MaybeUninit;
use std::num::Wrapping;

/// A type whose values processes may share: plain bytes, without a pointer, and of the same layout in each program.
/// Numbers, `bool`, `char` and arrays are, and structs that [`zero_copy_send!`](crate::zero_copy_send!) declares. iceoryx2 has
/// it by this name.
///
/// What points into one process' memory is refused when it is compiled, as is what has to be dropped:
///
/// ```compile_fail
/// iox2_pubsub::Domain::<&'static str>::builder(7).name("My/Service");
/// ```
///
/// ```compile_fail
/// iox2_pubsub::Domain::<*const u8>::builder(7).name("My/Service");
/// ```
///
/// ```compile_fail
/// iox2_pubsub::Domain::<Box<u8>>::builder(7).name("My/Service");
/// ```
///
/// # Safety
///
/// The bytes of a value mean the same in each process that has a type of this name and size: there is no pointer and no
/// reference in them, and nothing that names what one process has, as a descriptor. The layout is that of C (`repr(C)`,
/// `repr(transparent)`, or an `enum` with a `repr` of numbers).
#[cfg_attr(
    has_diagnostics,
    diagnostic::on_unimplemented(
        message = "processes can't share values of the type `{Self}`",
        label = "such a value is plain bytes without a pointer",
        note = "`zero_copy_send!` declares a struct whose values they share"
    )
)]
pub unsafe trait ZeroCopySend: Copy + 'static {
    /// By which name processes compare it, which is 127 bytes long at most. Programs of other languages name the same.
    #[must_use]
    fn type_name() -> String;
}

macro_rules! plain {
    ($($type:ident),*) => { $(
        // SAFETY: it is a number, or less of one, and the same in each program for a processor.
        unsafe impl ZeroCopySend for $type {
            fn type_name() -> String {
                stringify!($type).into()
            }
        }
    )* };
}
plain!(u8, u16, u32, u64, u128, usize, i8, i16, i32, i64, i128, isize, f32, f64, bool, char);

// SAFETY: it has no bytes.
unsafe impl ZeroCopySend for () {
    fn type_name() -> String {
        "()".into()
    }
}

// SAFETY: its bytes are those of its values.
unsafe impl<T: ZeroCopySend, const N: usize> ZeroCopySend for [T; N] {
    fn type_name() -> String {
        format!("[{}; {N}]", T::type_name())
    }
}

// SAFETY: its bytes are those of the one value in it.
unsafe impl<T: ZeroCopySend> ZeroCopySend for Wrapping<T> {
    fn type_name() -> String {
        T::type_name()
    }
}

// SAFETY: its bytes are those of the value, if there is one.
unsafe impl<T: ZeroCopySend> ZeroCopySend for MaybeUninit<T> {
    fn type_name() -> String {
        T::type_name()
    }
}

/// Declares a struct that processes may share: [`ZeroCopySend`]. It is `repr(C)`, and each of its fields is such a type. By its
/// name processes compare it.
///
/// ```
/// iox2_pubsub::zero_copy_send! {
///     /// Of a thermometer.
///     #[derive(Clone, Copy, Debug, Default)]
///     pub struct Reading {
///         pub celsius: f64,
///         pub number: u64,
///     }
/// }
/// use iox2_pubsub::ZeroCopySend;
///
/// assert_eq!(Reading::type_name(), "Reading");
/// assert_eq!(<[Reading; 3]>::type_name(), "[Reading; 3]");
/// ```
///
/// Another name than the struct's, as that of a program in C++, is written before it:
///
/// ```
/// iox2_pubsub::zero_copy_send! { "robot::Pose" =>
///     #[derive(Clone, Copy)]
///     struct Pose {
///         x: f32,
///         y: f32,
///     }
/// }
/// assert_eq!(<Pose as iox2_pubsub::ZeroCopySend>::type_name(), "robot::Pose");
/// ```
///
/// A field with a pointer is refused:
///
/// ```compile_fail
/// iox2_pubsub::zero_copy_send! {
///     #[derive(Clone, Copy)]
///     struct Named {
///         name: &'static str,
///     }
/// }
/// ```
///
/// So is a type that has to be dropped:
///
/// ```compile_fail
/// iox2_pubsub::zero_copy_send! {
///     struct Counted {
///         number: u64,
///     }
/// }
/// impl Drop for Counted {
///     fn drop(&mut self) {}
/// }
/// ```
#[macro_export]
macro_rules! zero_copy_send {
    (
        $(#[$meta:meta])*
        $visible:vis struct $name:ident $fields:tt
    ) => {
        $crate::zero_copy_send! { stringify!($name) => $(#[$meta])* $visible struct $name $fields }
    };
    (
        $type_name:expr =>
        $(#[$meta:meta])*
        $visible:vis struct $name:ident {
            $($(#[$of_field:meta])* $of:vis $field:ident: $type:ty),* $(,)?
        }
    ) => {
        $(#[$meta])*
        #[repr(C)]
        $visible struct $name {
            $($(#[$of_field])* $of $field: $type),*
        }
        // SAFETY: it has the layout of C, and fields that processes may share.
        unsafe impl $crate::ZeroCopySend for $name {
            fn type_name() -> ::std::string::String {
                fn is_sent<T: $crate::ZeroCopySend>() {}
                $(is_sent::<$type>();)*
                ::std::string::String::from($type_name)
            }
        }
    };
}
