// SPDX-License-Identifier: Apache-2.0 OR MIT
//! Why a domain that processes share wasn't opened.

use crate::errors::text;
use crate::sys;
use crate::sys::processes as c;
use std::error::Error;
use std::ffi::CStr;
use std::fmt;

macro_rules! kinds {
    ($($(#[$of:meta])* $kind:ident = $code:path,)*) => {
        /// The kinds of [`DomainOpenError`]. Names are iceoryx2's where it has one.
        #[non_exhaustive]
        #[derive(Clone, Copy, Debug, PartialEq, Eq, Hash)]
        pub enum DomainOpenErrorKind {
            $($(#[$of])* $kind,)*
        }

        impl DomainOpenErrorKind {
            pub(crate) fn of(code: u32) -> DomainOpenErrorKind {
                match code {
                    $($code => DomainOpenErrorKind::$kind,)*
                    _ => DomainOpenErrorKind::InternalFailure,
                }
            }

            /// The code of the C header.
            #[must_use]
            pub fn code(self) -> u32 {
                match self {
                    $(DomainOpenErrorKind::$kind => $code,)*
                }
            }
        }
    };
}

kinds! {
    /// No process has a domain with this name.
    DoesNotExist = c::OPEN_ERROR_DOES_NOT_EXIST,
    /// A process has one.
    AlreadyExists = c::CREATE_ERROR_ALREADY_EXISTS,
    /// Those who have it have messages of another type, size or alignment.
    IncompatibleTypes = c::OPEN_ERROR_INCOMPATIBLE_TYPES,
    /// They have other settings. This library's own.
    IncompatibleSettings = c::OPEN_ERROR_INCOMPATIBLE_SETTINGS,
    /// They have another version or build of the library, or this program is linked to that of another version than the crate's.
    VersionMismatch = c::OPEN_ERROR_VERSION_MISMATCH,
    /// The files belong to another user.
    InsufficientPermissions = c::OPEN_ERROR_INSUFFICIENT_PERMISSIONS,
    /// A file with this name is another program's, or was written over or cut short.
    ServiceInCorruptedState = c::OPEN_ERROR_SERVICE_IN_CORRUPTED_STATE,
    /// As many processes as there may be have it.
    ExceedsMaxNumberOfNodes = c::OPEN_ERROR_EXCEEDS_MAX_NUMBER_OF_NODES,
    /// This process has something at the address where the domain lies, as the domain itself. This library's own.
    AddressInUse = c::OPEN_ERROR_ADDRESS_IN_USE,
    /// What can't be a name, or an option. This library's own.
    InvalidArgument = c::OPEN_ERROR_INVALID_ARGUMENT,
    /// The system refuses, as for want of memory or of threads.
    InternalFailure = c::OPEN_ERROR_INTERNAL_FAILURE,
    /// Memory was refused.
    OutOfMemory = sys::OUT_OF_MEMORY,
    /// A publisher with these settings would want more slots than there can be. This library's own.
    WorstCaseTooLarge = sys::WORST_CASE_TOO_LARGE,
    /// The processes that have it don't have the same domain. This library's own.
    Diverged = c::PROCESSES_DIVERGED,
}

/// Why a domain that processes share wasn't opened or created. Nothing is left of it.
#[derive(Clone, Debug, PartialEq, Eq)]
pub struct DomainOpenError {
    kind: DomainOpenErrorKind,
    why: String,
}

impl DomainOpenError {
    // Of the last call of this thread that opens.
    pub(crate) fn of(code: u32) -> DomainOpenError {
        // SAFETY: the text is there until the next such call.
        let why = unsafe { CStr::from_ptr(c::iox2ps_processes_why()) };
        DomainOpenError {
            kind: DomainOpenErrorKind::of(code),
            why: why.to_string_lossy().into_owned(),
        }
    }

    pub(crate) fn new(kind: DomainOpenErrorKind, why: impl Into<String>) -> DomainOpenError {
        DomainOpenError {
            kind,
            why: why.into(),
        }
    }

    /// Which kind it is.
    #[must_use]
    pub fn kind(&self) -> DomainOpenErrorKind {
        self.kind
    }

    /// More of it in words, as which builds differ.
    #[must_use]
    pub fn why(&self) -> &str {
        &self.why
    }

    /// The code of the C header.
    #[must_use]
    pub fn code(&self) -> u32 {
        self.kind.code()
    }
}

impl fmt::Display for DomainOpenErrorKind {
    fn fmt(&self, f: &mut fmt::Formatter<'_>) -> fmt::Result {
        f.write_str(text(self.code()))
    }
}

impl fmt::Display for DomainOpenError {
    fn fmt(&self, f: &mut fmt::Formatter<'_>) -> fmt::Result {
        write!(f, "{}: {}", self.kind, self.why)
    }
}

impl Error for DomainOpenError {}
