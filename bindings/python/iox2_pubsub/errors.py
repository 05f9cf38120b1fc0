# SPDX-License-Identifier: Apache-2.0 OR MIT
"""Why a call was refused: iceoryx2's names, each a class, below one for each kind of call and Python's own where that fits.

>>> issubclass(LoanExceedsMaxLoans, LoanError), LoanExceedsMaxLoans.code
(True, 11)
>>> print(LoanExceedsMaxLoans())
as many loans of the publisher are out as may be: send or discard one, or allow more by max_loaned_samples
"""
from __future__ import annotations

from typing import TYPE_CHECKING

from . import _core

if TYPE_CHECKING:
    from ._core import Blocked


class Error(Exception):
    """A call was refused. `code` is that of iox2_pubsub.h."""

    code = 0
    _text = ""

    def __init__(self, text: str | None = None) -> None:
        super().__init__(self._text if text is None else text)


class DomainCreateError(Error):
    """A domain wasn't made."""


class PublisherCreateError(Error):
    """A publisher wasn't made."""


class SubscriberCreateError(Error):
    """A subscriber wasn't made."""


class ConnectionFailure(Error):
    """An update of connections failed; the other connections were made all the same."""


class LoanError(Error):
    """A loan was refused."""


class SendError(Error):
    """A send failed."""


class ReceiveError(Error):
    """A receive failed."""


class ChannelError(Error):
    """A call on a channel was refused."""


class NotifyError(Error):
    """A notification was refused."""


class NoDomain(Error):
    """The domain was closed."""

    code = 1
    _text = "the domain was closed: make another one"


class NotLive(Error):
    """A port was closed, or a send has ended."""

    code = 2
    _text = "the port was closed, or the send has ended: make another one"


class OutOfMemory(DomainCreateError, MemoryError):
    """There is no memory for the domain."""

    code = 4
    _text = "there is no memory for the domain: lower its settings"


class SendBlocked(SendError, TimeoutError):
    """A subscriber's buffer is full, and the time is up or waits are stopped. The send still waits: `blocked` is retried, or given up
    with this exception."""

    code = 6
    _text = "a subscriber's buffer is full: retry `blocked` of this exception, or let go of it to give the send up"
    blocked: Blocked


class PublisherIsBlocked(LoanError, SendError, ConnectionFailure):
    """An earlier send of the publisher waits, and nothing was done."""

    code = 7
    _text = "an earlier send of the publisher waits: retry that or give it up first, or say a timeout"


class LoanOutOfMemory(LoanError, MemoryError):
    """Each slot is in use, or memory may not grow further."""

    code = 10
    _text = "each slot of the publisher is in use: let go of samples, or make it with more preallocated_samples"


class LoanExceedsMaxLoans(LoanError):
    """As many loans are out as the publisher may have."""

    code = 11
    _text = "as many loans of the publisher are out as may be: send or discard one, or allow more by max_loaned_samples"


class LoanExceedsMaxLoanSize(LoanError, ValueError):
    """Longer than the publisher's longest message, and its memory doesn't grow."""

    code = 12
    _text = "longer than the publisher's messages may be: make the domain with a greater max_len, or the publisher with an allocation_strategy"


class LoanInternalFailure(LoanError, MemoryError):
    """Memory is to grow and can't, or no number is left for a message."""

    code = 13
    _text = "memory is to grow and can't: lend shorter messages, or create a domain of processes with more payload_room"


class SendConnectionBrokenSinceSenderNoLongerExists(SendError):
    """The loan's publisher is closed, and the loan is gone."""

    code = 20
    _text = "the loan's publisher is closed: keep it open until its loans are sent"


class SendUnableToDeliver(SendError):
    """A handler let the send fail at a full buffer; others may have the message."""

    code = 22
    _text = "a subscriber's buffer is full and the publisher's handler lets the send fail; others may have the message"


class SendConnectionOutOfMemory(SendError, MemoryError):
    """Memory for a connection was refused, and nobody has the message."""

    code = 25
    _text = "memory for a connection was refused, and nobody has the message: free some and send again"


class ReceiveExceedsMaxBorrows(ReceiveError):
    """Messages wait, but of each of their publishers as many samples are held as may be."""

    code = 30
    _text = "messages wait, but as many samples are held as may be, arrays included: let go of one, or allow more by subscriber_max_borrowed_samples"


class ReceiveConnectionOutOfMemory(ReceiveError, MemoryError):
    """Memory for a connection was refused, and nothing was received."""

    code = 35
    _text = "memory for a connection was refused, and nothing was received: free some and receive again"


class ReceiveConnectionExpiredBufferFull(ReceiveError):
    """The subscriber has samples of more closed publishers than there is room for, and nothing was received."""

    code = 36
    _text = "samples of too many closed publishers are held: let go of them, or allow more by subscriber_expired_connection_buffer"


class ConnectionOutOfMemory(ConnectionFailure, MemoryError):
    """Memory for a connection was refused, and the port is one that fails then."""

    code = 45
    _text = "memory for a connection was refused: free some and update again"


class ConnectionExpiredBufferFull(ConnectionFailure):
    """The subscriber has samples of more closed publishers than there is room for."""

    code = 46
    _text = "samples of too many closed publishers are held: let go of them, or allow more by subscriber_expired_connection_buffer"


class PublisherExceedsMaxSupportedPublishers(PublisherCreateError):
    """As many publishers are open as the domain allows."""

    code = 50
    _text = "as many publishers are open as the domain allows: close one, or make the domain with a greater max_publishers"


class PublisherUnableToCreateDataSegment(PublisherCreateError, MemoryError):
    """Memory for its messages was refused, or there can't be that much."""

    code = 51
    _text = "memory for the publisher's messages was refused: lower max_len, preallocated_samples or limits, or create a domain of processes with more payload_room"


class PublisherFailedToDeployThreadsafetyPolicy(PublisherCreateError, MemoryError):
    """Other memory was refused."""

    code = 52
    _text = "memory for the publisher was refused: lower the domain's limits"


class PublisherUnableToCreatePortTag(PublisherCreateError):
    """No id is left for a port."""

    code = 53
    _text = "no id is left for a port: make another domain"


class SubscriberExceedsMaxSupportedSubscribers(SubscriberCreateError):
    """As many subscribers are there as the domain allows; a closed one counts until its last sample is released."""

    code = 60
    _text = "as many subscribers are there as the domain allows: close one and let go of its samples, or raise max_subscribers"


class SubscriberBufferSizeExceedsMax(SubscriberCreateError, ValueError):
    """A larger buffer than the domain allows."""

    code = 61
    _text = "a larger buffer than the domain allows: lower buffer_size, or make the domain with a greater subscriber_max_buffer_size"


class SubscriberFailedToDeployThreadsafetyPolicy(SubscriberCreateError, MemoryError):
    """Memory was refused."""

    code = 62
    _text = "memory for the subscriber was refused: lower the domain's limits"


class SubscriberUnableToCreatePortTag(SubscriberCreateError):
    """No id is left for a port."""

    code = 63
    _text = "no id is left for a port: make another domain"


class NoSuchChannel(ChannelError, IndexError):
    """A connection has no channel with this number."""

    code = 70
    _text = "a connection has no channel with this number: make the domain with a greater number_of_channels"


class InvalidPayloadSize(DomainCreateError, ValueError):
    """max_len values aren't a multiple of the alignment."""

    code = 81
    _text = "a message's longest size is a multiple of its alignment: change max_len or alignment"


class InvalidPayloadAlignment(DomainCreateError, ValueError):
    """The alignment is none of 1, 2, 4, 8 and 16."""

    code = 82
    _text = "alignment is 1, 2, 4, 8 or 16"


class InvalidBackpressureStrategy(DomainCreateError, PublisherCreateError, ValueError):
    """No BackpressureStrategy."""

    code = 83
    _text = "backpressure_strategy is a BackpressureStrategy"


class InvalidBackpressureHandler(PublisherCreateError, ValueError):
    """No BackpressureHandler."""

    code = 84
    _text = "backpressure_handler is a BackpressureHandler"


class InvalidDegradation(PublisherCreateError, SubscriberCreateError, ValueError):
    """No DegradationAction."""

    code = 85
    _text = "degradation is a DegradationAction"


class InvalidAllocationStrategy(PublisherCreateError, ValueError):
    """No AllocationStrategy."""

    code = 86
    _text = "allocation_strategy is an AllocationStrategy"


class InvalidInitialMaxSliceLen(PublisherCreateError, ValueError):
    """Not a multiple of the alignment, or 0 where memory may grow."""

    code = 87
    _text = "initial_max_slice_len makes a multiple of the domain's alignment, and isn't 0 where memory may grow"


class WorstCaseTooLarge(DomainCreateError, OverflowError):
    """The number of slots doesn't fit a size."""

    code = 89
    _text = "the worst case of slots is too large: lower the domain's limits, or the number of loans"


class DomainOpenError(Error):
    """A domain that processes share wasn't opened or created, and nothing is left of it. The text says more."""


class OpenDoesNotExist(DomainOpenError, FileNotFoundError):
    """No process has a domain with this name."""

    code = 200
    _text = "no process has a domain with this name: start the one that creates it, or call open_or_create"


class OpenIncompatibleTypes(DomainOpenError, TypeError):
    """Those who have the domain have messages of another type, size or alignment."""

    code = 201
    _text = "the domain has messages of another type: say the same dtype, max_len and type_name in all processes"


class OpenIncompatibleSettings(DomainOpenError, ValueError):
    """Those who have the domain have other settings."""

    code = 202
    _text = "the domain has other settings: say the same ones in all processes, service_id among them"


class OpenVersionMismatch(DomainOpenError, ImportError):
    """Those who have the domain have another version or build of the library."""

    code = 203
    _text = "the domain is of another version or build: end all its processes, and start them with one"


class OpenInsufficientPermissions(DomainOpenError, PermissionError):
    """The files belong to another user."""

    code = 204
    _text = "the files of the domain belong to another user: create it with wider permissions"


class OpenServiceInCorruptedState(DomainOpenError, OSError):
    """A file with this name is another program's, or was written over or cut short."""

    code = 205
    _text = "a file of this name is another program's, or was written over: remove it, or take another name"


class OpenExceedsMaxNumberOfNodes(DomainOpenError):
    """As many processes have the domain as may."""

    code = 206
    _text = "as many processes have the domain as may: end one, or create it with a greater max_processes"


class OpenAddressInUse(DomainOpenError, OSError):
    """This process has something where the domain has to lie, as the domain itself."""

    code = 207
    _text = "this process has something at the address of the domain, as the domain itself: open it once in each process"


class OpenInvalidArgument(DomainOpenError, ValueError):
    """What can't be a name, or an option."""

    code = 208
    _text = "no such name or options: a name has 1 to 255 bytes of UTF-8, as 'My/Service', and no part '.' or '..'; lower what is too large"


class OpenInternalFailure(DomainOpenError, OSError):
    """The system refuses."""

    code = 209
    _text = "the system refuses it, as for want of shared memory: free some in /dev/shm"


class CreateAlreadyExists(DomainOpenError, FileExistsError):
    """A process has a domain with this name."""

    code = 210
    _text = "a process has a domain with this name: open it, or take another name"


class ProcessesDamaged(Error, RuntimeError):
    """The domain's files were written over, or this process was left behind for too long."""

    code = 220
    _text = "the domain's files were written over, or this process was stopped for too long: close the domain, and open it anew"


class ProcessesDiverged(Error, RuntimeError):
    """The domain has replied otherwise in another process than in this one."""

    code = 221
    _text = "the domain isn't the same in each process: end all processes that have it"


class ProcessesNotShared(Error, RuntimeError):
    """The domain is of one process."""

    code = 224
    _text = "the domain is of one process: open it by a name, as Domain.open_or_create does"


class NotifyEventIdOutOfBounds(NotifyError, ValueError):
    """No event has this id."""

    code = 225
    _text = "the id of an event is a number from 0 to 255, EVENT_ID_MAX_VALUE"


class AfterFork(Error, RuntimeError):
    """The domain is that of the process that was forked, and this is its child."""

    code = 0xFFFFFFFD
    _text = "the domain is of the process that this one was forked from: make one here, or start processes by the method 'spawn'"


class OtherVersion(Error, ImportError):
    """The domain's owner has the archive of another version."""

    code = 0xFFFFFFFF
    _text = "the domain's owner has the archive of another version: build both with one release"


__all__ = [
    "Error", "DomainCreateError", "PublisherCreateError", "SubscriberCreateError", "ConnectionFailure", "LoanError", "SendError",
    "ReceiveError", "ChannelError", "DomainOpenError", "OpenDoesNotExist", "OpenIncompatibleTypes", "OpenIncompatibleSettings",
    "OpenVersionMismatch", "OpenInsufficientPermissions", "OpenServiceInCorruptedState", "OpenExceedsMaxNumberOfNodes",
    "OpenAddressInUse", "OpenInvalidArgument", "OpenInternalFailure", "CreateAlreadyExists", "ProcessesDamaged", "ProcessesDiverged", "ProcessesNotShared",
    "NotifyError", "NotifyEventIdOutOfBounds",
    "NoDomain", "NotLive", "OutOfMemory", "SendBlocked", "PublisherIsBlocked", "LoanOutOfMemory",
    "LoanExceedsMaxLoans", "LoanExceedsMaxLoanSize", "LoanInternalFailure", "SendConnectionBrokenSinceSenderNoLongerExists",
    "SendUnableToDeliver", "SendConnectionOutOfMemory", "ReceiveExceedsMaxBorrows", "ReceiveConnectionOutOfMemory",
    "ReceiveConnectionExpiredBufferFull", "ConnectionOutOfMemory", "ConnectionExpiredBufferFull",
    "PublisherExceedsMaxSupportedPublishers", "PublisherUnableToCreateDataSegment", "PublisherFailedToDeployThreadsafetyPolicy",
    "PublisherUnableToCreatePortTag", "SubscriberExceedsMaxSupportedSubscribers", "SubscriberBufferSizeExceedsMax",
    "SubscriberFailedToDeployThreadsafetyPolicy", "SubscriberUnableToCreatePortTag", "NoSuchChannel", "InvalidPayloadSize",
    "InvalidPayloadAlignment", "InvalidBackpressureStrategy", "InvalidBackpressureHandler", "InvalidDegradation",
    "InvalidAllocationStrategy", "InvalidInitialMaxSliceLen", "WorstCaseTooLarge", "AfterFork", "OtherVersion"
]
_core.errors.update({kind.code: kind for kind in map(globals().__getitem__, __all__) if kind.code})
