// SPDX-License-Identifier: Apache-2.0 OR MIT
//! Why a call was refused. The names are iceoryx2's, except those that say otherwise.

use crate::sys;
use std::error::Error;
use std::fmt;
use std::ptr;
use std::slice;
use std::str;

/// What calls of a domain that threads share return in a child after a fork, as those of C++ do.
pub(crate) const AFTER_FORK: u32 = 0xffff_fffd;

const NO_ATTACHMENTS: u32 = 0xffff_fffc;

const OF_PROCESSES: u32 = 0xffff_fffb;

/// What a receive returns of a message that another process has sent, and that isn't as long as its type.
#[cfg(feature = "processes")]
pub(crate) const WRONG_LENGTH: u32 = 0xffff_fffa;

#[cfg(feature = "processes")]
const WRONG_LENGTH_TEXT: &str =
    "WrongLength: another process has sent a message that isn't as long as the domain's type: it was given back";

/// Whether a call found itself in a child after a fork, where a domain of one thread has none.
pub(crate) fn is_after_fork(code: u32) -> bool {
    matches!(code, AFTER_FORK | sys::NO_DOMAIN)
}

/// Whether a domain that processes share can only be left.
#[cfg(feature = "processes")]
pub(crate) fn is_broken(code: u32) -> bool {
    use sys::processes::{PROCESSES_DAMAGED, PROCESSES_DIVERGED};
    matches!(code, PROCESSES_DAMAGED | PROCESSES_DIVERGED)
}

#[cfg(not(feature = "processes"))]
pub(crate) fn is_broken(_: u32) -> bool {
    false
}

const AFTER_FORK_TEXT: &str =
    "AfterFork: the domain belongs to the process that was forked: make one in this process";

/// The text of a code of the C header, or of that which this crate adds.
pub(crate) fn text(code: u32) -> &'static str {
    if is_after_fork(code) {
        return AFTER_FORK_TEXT;
    }
    #[cfg(feature = "processes")]
    if code == WRONG_LENGTH {
        return WRONG_LENGTH_TEXT;
    }
    let mut start = ptr::null();
    let mut len = 0;
    // SAFETY: both pointers are of locals. The text is in the archive for good.
    let bytes = unsafe {
        sys::iox2ps_error_text_at(code, &mut start, &mut len);
        slice::from_raw_parts(start, len)
    };
    str::from_utf8(bytes).unwrap_or("a text that isn't UTF-8")
}

/// For a code that no call of this crate gets, since its handles are live while they exist.
#[cold]
#[track_caller]
pub(crate) fn unexpected(code: u32) -> ! {
    panic!("the library answered {code}: {}", text(code))
}

macro_rules! errors {
    ($(#[$meta:meta])* $name:ident { $($(#[$of:meta])* $variant:ident = $($code:ident)::+,)* }) => {
        $(#[$meta])*
        #[non_exhaustive]
        #[derive(Clone, Copy, Debug, PartialEq, Eq, Hash)]
        pub enum $name {
            $($(#[$of])* $variant,)*
            /// This process is a child of the one that made the domain. This library's own.
            AfterFork,
            /// Of a domain that processes share: its files were written over, or this process was left behind for too long. It can
            /// only be left.
            #[cfg(feature = "processes")]
            Damaged,
            /// The same: it has replied otherwise in another process than in this one.
            #[cfg(feature = "processes")]
            Diverged,
        }

        impl $name {
            pub(crate) fn of(code: u32) -> $name {
                match code {
                    $(sys::$($code)::+ => $name::$variant,)*
                    AFTER_FORK | sys::NO_DOMAIN => $name::AfterFork,
                    #[cfg(feature = "processes")]
                    sys::processes::PROCESSES_DAMAGED => $name::Damaged,
                    #[cfg(feature = "processes")]
                    sys::processes::PROCESSES_DIVERGED => $name::Diverged,
                    _ => unexpected(code),
                }
            }

            /// The code of the C header, or the same as in C++ for `AfterFork`.
            #[must_use]
            pub fn code(self) -> u32 {
                match self {
                    $($name::$variant => sys::$($code)::+,)*
                    $name::AfterFork => AFTER_FORK,
                    #[cfg(feature = "processes")]
                    $name::Damaged => sys::processes::PROCESSES_DAMAGED,
                    #[cfg(feature = "processes")]
                    $name::Diverged => sys::processes::PROCESSES_DIVERGED,
                }
            }
        }

        impl fmt::Display for $name {
            fn fmt(&self, f: &mut fmt::Formatter<'_>) -> fmt::Result {
                f.write_str(text(self.code()))
            }
        }

        impl Error for $name {}
    };
}

/// Why a domain wasn't made. This library's own.
#[non_exhaustive]
#[derive(Clone, Copy, Debug, PartialEq, Eq, Hash)]
pub enum DomainCreateError {
    /// Memory was refused.
    OutOfMemory,
    /// The program is linked to the archive of another version than that of this crate.
    OtherVersion,
    /// This process is a child of the one that made the domain, whose recording it asks for.
    AfterFork,
    /// Of a domain that processes share: its files were written over, or this process was left behind for too long. It can
    /// only be left.
    #[cfg(feature = "processes")]
    Damaged,
    /// The same: it has replied otherwise in another process than in this one.
    #[cfg(feature = "processes")]
    Diverged,
    /// Never returned: it would be `OtherVersion`.
    InvalidStructSize,
    /// Never returned: the size is that of the payload's type.
    InvalidPayloadSize,
    /// Never returned: a type with another alignment is refused when it is compiled.
    InvalidPayloadAlignment,
    /// Never returned: the builder takes a [`BackpressureStrategy`](crate::BackpressureStrategy).
    InvalidBackpressureStrategy,
}

impl DomainCreateError {
    pub(crate) fn of(code: u32) -> DomainCreateError {
        match code {
            sys::OUT_OF_MEMORY => DomainCreateError::OutOfMemory,
            AFTER_FORK | sys::NO_DOMAIN => DomainCreateError::AfterFork,
            #[cfg(feature = "processes")]
            sys::processes::PROCESSES_DAMAGED => DomainCreateError::Damaged,
            #[cfg(feature = "processes")]
            sys::processes::PROCESSES_DIVERGED => DomainCreateError::Diverged,
            sys::INVALID_STRUCT_SIZE => DomainCreateError::InvalidStructSize,
            sys::INVALID_PAYLOAD_SIZE => DomainCreateError::InvalidPayloadSize,
            sys::INVALID_PAYLOAD_ALIGNMENT => DomainCreateError::InvalidPayloadAlignment,
            sys::INVALID_BACKPRESSURE_STRATEGY => DomainCreateError::InvalidBackpressureStrategy,
            _ => unexpected(code),
        }
    }

    /// The code of the C header, or the greatest number for `OtherVersion`, which has none.
    #[must_use]
    pub fn code(self) -> u32 {
        match self {
            DomainCreateError::OutOfMemory => sys::OUT_OF_MEMORY,
            DomainCreateError::OtherVersion => u32::MAX,
            DomainCreateError::AfterFork => AFTER_FORK,
            #[cfg(feature = "processes")]
            DomainCreateError::Damaged => sys::processes::PROCESSES_DAMAGED,
            #[cfg(feature = "processes")]
            DomainCreateError::Diverged => sys::processes::PROCESSES_DIVERGED,
            DomainCreateError::InvalidStructSize => sys::INVALID_STRUCT_SIZE,
            DomainCreateError::InvalidPayloadSize => sys::INVALID_PAYLOAD_SIZE,
            DomainCreateError::InvalidPayloadAlignment => sys::INVALID_PAYLOAD_ALIGNMENT,
            DomainCreateError::InvalidBackpressureStrategy => sys::INVALID_BACKPRESSURE_STRATEGY,
        }
    }
}

impl fmt::Display for DomainCreateError {
    fn fmt(&self, f: &mut fmt::Formatter<'_>) -> fmt::Result {
        match self {
            DomainCreateError::OtherVersion => {
                f.write_str("OtherVersion: the archive isn't of the crate's version")
            }
            _ => f.write_str(text(self.code())),
        }
    }
}

impl Error for DomainCreateError {}

errors! {
    /// Why a publisher wasn't made.
    PublisherCreateError {
        /// As many publishers are open as the domain allows.
        ExceedsMaxSupportedPublishers = PUBLISHER_CREATE_ERROR_EXCEEDS_MAX_SUPPORTED_PUBLISHERS,
        /// Memory for the messages was refused, or there can't be as much.
        UnableToCreateDataSegment = PUBLISHER_CREATE_ERROR_UNABLE_TO_CREATE_DATA_SEGMENT,
        /// Memory for the publisher's own state was refused.
        FailedToDeployThreadsafetyPolicy = PUBLISHER_CREATE_ERROR_FAILED_TO_DEPLOY_THREADSAFETY_POLICY,
        /// The domain has no port ids left.
        UnableToCreatePortTag = PUBLISHER_CREATE_ERROR_UNABLE_TO_CREATE_PORT_TAG,
        /// Never returned: a domain isn't made by an archive of another version. This library's own.
        InvalidStructSize = INVALID_STRUCT_SIZE,
        /// Never returned: the factory counts in elements, and from one on where memory grows. This
        /// library's own.
        InvalidInitialMaxSliceLen = INVALID_INITIAL_MAX_SLICE_LEN,
        /// Never returned: the factory takes an enum. This library's own.
        InvalidBackpressureStrategy = INVALID_BACKPRESSURE_STRATEGY,
        /// Never returned: the factory takes an enum. This library's own.
        InvalidBackpressureHandler = INVALID_BACKPRESSURE_HANDLER,
        /// Never returned: the factory takes an enum. This library's own.
        InvalidDegradation = INVALID_DEGRADATION,
        /// Never returned: the factory takes an enum. This library's own.
        InvalidAllocationStrategy = INVALID_ALLOCATION_STRATEGY,
    }
}

errors! {
    /// Why a subscriber wasn't made.
    SubscriberCreateError {
        /// There are as many subscribers as the domain allows. A closed one counts until its last
        /// sample is released.
        ExceedsMaxSupportedSubscribers = SUBSCRIBER_CREATE_ERROR_EXCEEDS_MAX_SUPPORTED_SUBSCRIBERS,
        /// The buffer that was asked for is larger than the domain allows.
        BufferSizeExceedsMaxSupportedBufferSizeOfService = SUBSCRIBER_CREATE_ERROR_BUFFER_SIZE_EXCEEDS_MAX,
        /// Memory for the subscriber's own state was refused.
        FailedToDeployThreadsafetyPolicy = SUBSCRIBER_CREATE_ERROR_FAILED_TO_DEPLOY_THREADSAFETY_POLICY,
        /// The domain has no port ids left.
        UnableToCreatePortTag = SUBSCRIBER_CREATE_ERROR_UNABLE_TO_CREATE_PORT_TAG,
        /// Never returned: a domain isn't made by an archive of another version. This library's own.
        InvalidStructSize = INVALID_STRUCT_SIZE,
        /// Never returned: the factory takes an enum. This library's own.
        InvalidDegradation = INVALID_DEGRADATION,
        /// Never returned: the field is 0. This library's own.
        InvalidReserved = INVALID_RESERVED,
    }
}

errors! {
    /// Why a publisher lends no message.
    LoanError {
        /// Every slot is taken, or memory may not grow further.
        OutOfMemory = LOAN_ERROR_OUT_OF_MEMORY,
        /// As many loans are out as the publisher may have at a time.
        ExceedsMaxLoans = LOAN_ERROR_EXCEEDS_MAX_LOANS,
        /// The message is longer than the publisher's greatest, and its memory doesn't grow.
        ExceedsMaxLoanSize = LOAN_ERROR_EXCEEDS_MAX_LOAN_SIZE,
        /// Memory is to grow and can't, or the domain has no message numbers left.
        InternalFailure = LOAN_ERROR_INTERNAL_FAILURE,
        /// An earlier send of the publisher waits. This library's own.
        PublisherIsBlocked = PUBLISHER_IS_BLOCKED,
    }
}

errors! {
    /// Why an update of the connections failed.
    ConnectionFailure {
        /// Never returned.
        IncompatibleBufferSize = CONNECTION_FAILURE_INCOMPATIBLE_BUFFER_SIZE,
        /// Memory for the connection was refused, and the port was made to fail then.
        OutOfMemory = CONNECTION_FAILURE_OUT_OF_MEMORY,
        /// The subscriber has samples of more closed publishers than it has room for.
        ExpiredConnectionBufferFull = CONNECTION_FAILURE_EXPIRED_BUFFER_FULL,
        /// Never returned.
        UnableToMapSendersDataSegment = CONNECTION_FAILURE_UNABLE_TO_MAP,
        /// An earlier send of the publisher waits. This library's own.
        PublisherIsBlocked = PUBLISHER_IS_BLOCKED,
    }
}

errors! {
    /// Why nothing was asked of a channel. This library's own.
    ChannelError {
        /// A connection has no channel with this number.
        NoSuchChannel = NO_SUCH_CHANNEL,
    }
}

errors! {
    /// Why nothing was attached to a [`WaitSet`](crate::WaitSet).
    WaitSetAttachmentError {
        /// Memory was refused. This library's own.
        OutOfMemory = OUT_OF_MEMORY,
    }
}

#[cfg(feature = "processes")]
errors! {
    /// Why nobody says which processes have a domain.
    NodeListFailure {
        /// One process has it, since it has no name. This library's own.
        NotShared = processes::PROCESSES_NOT_SHARED,
    }
}

#[cfg(feature = "processes")]
errors! {
    /// Why a notifier wasn't made.
    NotifierCreateError {
        /// One process has the domain, since it has no name. This library's own.
        NotShared = processes::PROCESSES_NOT_SHARED,
        /// Its default id is above [`EventId::MAX_VALUE`](crate::EventId::MAX_VALUE). This library's own.
        EventIdOutOfBounds = processes::NOTIFIER_NOTIFY_ERROR_EVENT_ID_OUT_OF_BOUNDS,
    }
}

#[cfg(feature = "processes")]
errors! {
    /// Why nobody was notified.
    NotifierNotifyError {
        /// The id is above [`EventId::MAX_VALUE`](crate::EventId::MAX_VALUE).
        EventIdOutOfBounds = processes::NOTIFIER_NOTIFY_ERROR_EVENT_ID_OUT_OF_BOUNDS,
    }
}

#[cfg(feature = "processes")]
errors! {
    /// Why a listener wasn't made.
    ListenerCreateError {
        /// One process has the domain, since it has no name. This library's own.
        NotShared = processes::PROCESSES_NOT_SHARED,
        /// Memory was refused. This library's own.
        OutOfMemory = OUT_OF_MEMORY,
    }
}

#[cfg(feature = "processes")]
errors! {
    /// Why a listener didn't look for events.
    ListenerWaitError {}
}

/// Why a domain wasn't handed to another language of the process. This library's own.
#[non_exhaustive]
#[derive(Clone, Copy, Debug, PartialEq, Eq, Hash)]
pub enum ShareError {
    /// Processes share the domain. The other language opens it by its name, in another process than this one.
    OfProcesses,
    /// This process is a child of the one that made the domain.
    AfterFork,
}

impl ShareError {
    /// The same code as in C++.
    #[must_use]
    pub fn code(self) -> u32 {
        match self {
            ShareError::OfProcesses => OF_PROCESSES,
            ShareError::AfterFork => AFTER_FORK,
        }
    }
}

impl fmt::Display for ShareError {
    fn fmt(&self, f: &mut fmt::Formatter<'_>) -> fmt::Result {
        f.write_str(match self {
            ShareError::OfProcesses => {
                "OfProcesses: no other language of this process joins a domain that processes share: it opens the domain by its name in \
                 another process"
            }
            ShareError::AfterFork => AFTER_FORK_TEXT,
        })
    }
}

impl Error for ShareError {}

/// Why a [`WaitSet`](crate::WaitSet) didn't wait.
#[non_exhaustive]
#[derive(Clone, Copy, Debug, PartialEq, Eq, Hash)]
pub enum WaitSetRunError {
    /// Nothing is attached: the wait would have no end.
    NoAttachments,
    /// This process is a child of the one that made the domain of a port. This library's own.
    AfterFork,
}

impl WaitSetRunError {
    /// The same code as in C++.
    #[must_use]
    pub fn code(self) -> u32 {
        match self {
            WaitSetRunError::NoAttachments => NO_ATTACHMENTS,
            WaitSetRunError::AfterFork => AFTER_FORK,
        }
    }
}

impl fmt::Display for WaitSetRunError {
    fn fmt(&self, f: &mut fmt::Formatter<'_>) -> fmt::Result {
        f.write_str(match self {
            WaitSetRunError::NoAttachments => {
                "NoAttachments: the WaitSet has nothing to wait for: attach something first, and keep its guard"
            }
            WaitSetRunError::AfterFork => AFTER_FORK_TEXT,
        })
    }
}

impl Error for WaitSetRunError {}

/// Why a message wasn't sent, or not to everybody.
#[non_exhaustive]
#[derive(Clone, Copy, Debug, PartialEq, Eq, Hash)]
pub enum SendError {
    /// The publisher of the loan is closed.
    ConnectionBrokenSinceSenderNoLongerExists,
    /// Never returned.
    ConnectionCorrupted,
    /// A call that lends and sends in one got no loan, for this reason.
    LoanError(LoanError),
    /// The update of the connections before the delivery failed. Nobody got the message.
    ConnectionError(ConnectionFailure),
    /// The publisher's handler failed the send at a full buffer. The others may have got the message.
    UnableToDeliver,
    /// Never returned.
    InternalError,
    /// An earlier send of the publisher waits. This library's own.
    PublisherIsBlocked,
    /// A connection has no channel with this number. This library's own.
    NoSuchChannel,
    /// This process is a child of the one that made the domain. This library's own.
    AfterFork,
    /// Of a domain that processes share: its files were written over, or this process was left behind for too long. It can
    /// only be left.
    #[cfg(feature = "processes")]
    Damaged,
    /// The same: it has replied otherwise in another process than in this one.
    #[cfg(feature = "processes")]
    Diverged,
}

impl SendError {
    pub(crate) fn of(code: u32) -> SendError {
        match code {
            sys::SEND_ERROR_CONNECTION_BROKEN_SINCE_SENDER_NO_LONGER_EXISTS => {
                SendError::ConnectionBrokenSinceSenderNoLongerExists
            }
            sys::SEND_ERROR_CONNECTION_CORRUPTED => SendError::ConnectionCorrupted,
            sys::SEND_ERROR_UNABLE_TO_DELIVER => SendError::UnableToDeliver,
            sys::SEND_ERROR_INTERNAL_ERROR => SendError::InternalError,
            sys::PUBLISHER_IS_BLOCKED => SendError::PublisherIsBlocked,
            sys::NO_SUCH_CHANNEL => SendError::NoSuchChannel,
            AFTER_FORK | sys::NO_DOMAIN => SendError::AfterFork,
            #[cfg(feature = "processes")]
            sys::processes::PROCESSES_DAMAGED => SendError::Damaged,
            #[cfg(feature = "processes")]
            sys::processes::PROCESSES_DIVERGED => SendError::Diverged,
            sys::SEND_ERROR_CONNECTION_INCOMPATIBLE_BUFFER_SIZE
            | sys::SEND_ERROR_CONNECTION_OUT_OF_MEMORY
            | sys::SEND_ERROR_CONNECTION_EXPIRED_BUFFER_FULL
            | sys::SEND_ERROR_CONNECTION_UNABLE_TO_MAP => {
                SendError::ConnectionError(ConnectionFailure::of(code + FROM_SEND))
            }
            _ => SendError::LoanError(LoanError::of(code)),
        }
    }

    /// The code of the C header.
    #[must_use]
    pub fn code(self) -> u32 {
        match self {
            SendError::ConnectionBrokenSinceSenderNoLongerExists => {
                sys::SEND_ERROR_CONNECTION_BROKEN_SINCE_SENDER_NO_LONGER_EXISTS
            }
            SendError::ConnectionCorrupted => sys::SEND_ERROR_CONNECTION_CORRUPTED,
            SendError::LoanError(error) => error.code(),
            SendError::ConnectionError(failure) => failure.code() - FROM_SEND,
            SendError::UnableToDeliver => sys::SEND_ERROR_UNABLE_TO_DELIVER,
            SendError::InternalError => sys::SEND_ERROR_INTERNAL_ERROR,
            SendError::PublisherIsBlocked => sys::PUBLISHER_IS_BLOCKED,
            SendError::NoSuchChannel => sys::NO_SUCH_CHANNEL,
            SendError::AfterFork => AFTER_FORK,
            #[cfg(feature = "processes")]
            SendError::Damaged => sys::processes::PROCESSES_DAMAGED,
            #[cfg(feature = "processes")]
            SendError::Diverged => sys::processes::PROCESSES_DIVERGED,
        }
    }
}

impl fmt::Display for SendError {
    fn fmt(&self, f: &mut fmt::Formatter<'_>) -> fmt::Result {
        f.write_str(text(self.code()))
    }
}

impl Error for SendError {
    fn source(&self) -> Option<&(dyn Error + 'static)> {
        match self {
            SendError::LoanError(error) => Some(error),
            SendError::ConnectionError(failure) => Some(failure),
            _ => None,
        }
    }
}

impl From<LoanError> for SendError {
    fn from(error: LoanError) -> SendError {
        match error {
            LoanError::PublisherIsBlocked => SendError::PublisherIsBlocked,
            LoanError::AfterFork => SendError::AfterFork,
            #[cfg(feature = "processes")]
            LoanError::Damaged => SendError::Damaged,
            #[cfg(feature = "processes")]
            LoanError::Diverged => SendError::Diverged,
            error => SendError::LoanError(error),
        }
    }
}

/// Why a subscriber receives nothing though something may wait.
#[non_exhaustive]
#[derive(Clone, Copy, Debug, PartialEq, Eq, Hash)]
pub enum ReceiveError {
    /// Messages wait, but of each publisher that they come from the subscriber has as many samples
    /// as it may. A sample that is dropped helps. Never returned to one that holds fewer in all than it
    /// may of one publisher.
    ExceedsMaxBorrows,
    /// The update of the connections before the receive failed.
    ConnectionFailure(ConnectionFailure),
    /// This process is a child of the one that made the domain. This library's own.
    AfterFork,
    /// Of a domain that processes share: its files were written over, or this process was left behind for too long. It can
    /// only be left.
    #[cfg(feature = "processes")]
    Damaged,
    /// The same: it has replied otherwise in another process than in this one.
    #[cfg(feature = "processes")]
    Diverged,
    /// Of a domain that processes share: another one, in a language without types of messages, has sent one that isn't as long
    /// as the type. It was given back.
    #[cfg(feature = "processes")]
    WrongLength,
}

impl ReceiveError {
    pub(crate) fn of(code: u32) -> ReceiveError {
        match code {
            sys::RECEIVE_ERROR_EXCEEDS_MAX_BORROWS => ReceiveError::ExceedsMaxBorrows,
            AFTER_FORK | sys::NO_DOMAIN => ReceiveError::AfterFork,
            #[cfg(feature = "processes")]
            sys::processes::PROCESSES_DAMAGED => ReceiveError::Damaged,
            #[cfg(feature = "processes")]
            sys::processes::PROCESSES_DIVERGED => ReceiveError::Diverged,
            #[cfg(feature = "processes")]
            WRONG_LENGTH => ReceiveError::WrongLength,
            _ => ReceiveError::ConnectionFailure(ConnectionFailure::of(code + FROM_RECEIVE)),
        }
    }

    /// The code of the C header.
    #[must_use]
    pub fn code(self) -> u32 {
        match self {
            ReceiveError::ExceedsMaxBorrows => sys::RECEIVE_ERROR_EXCEEDS_MAX_BORROWS,
            ReceiveError::ConnectionFailure(failure) => failure.code() - FROM_RECEIVE,
            ReceiveError::AfterFork => AFTER_FORK,
            #[cfg(feature = "processes")]
            ReceiveError::Damaged => sys::processes::PROCESSES_DAMAGED,
            #[cfg(feature = "processes")]
            ReceiveError::Diverged => sys::processes::PROCESSES_DIVERGED,
            #[cfg(feature = "processes")]
            ReceiveError::WrongLength => WRONG_LENGTH,
        }
    }
}

impl fmt::Display for ReceiveError {
    fn fmt(&self, f: &mut fmt::Formatter<'_>) -> fmt::Result {
        f.write_str(text(self.code()))
    }
}

impl Error for ReceiveError {
    fn source(&self) -> Option<&(dyn Error + 'static)> {
        match self {
            ReceiveError::ConnectionFailure(failure) => Some(failure),
            _ => None,
        }
    }
}

// A failed connection has a code of its own for each call that it fails. The codes differ by these numbers.
const FROM_SEND: u32 =
    sys::CONNECTION_FAILURE_OUT_OF_MEMORY - sys::SEND_ERROR_CONNECTION_OUT_OF_MEMORY;
const FROM_RECEIVE: u32 =
    sys::CONNECTION_FAILURE_OUT_OF_MEMORY - sys::RECEIVE_ERROR_CONNECTION_OUT_OF_MEMORY;
