# SPDX-License-Identifier: Apache-2.0 OR MIT
"""Settings and answers, as iceoryx2 names them."""
from __future__ import annotations

from enum import IntEnum
from typing import NamedTuple

from . import _core

CHANNEL_STATE_OPEN = 0  #: that of a new channel
CHANNEL_STATE_CLOSED = (1 << 64) - 1  #: of a channel that takes no message
EVENT_ID_MAX_VALUE = 255  #: the largest id of an event


class BackpressureStrategy(IntEnum):
    """What a publisher does where a subscriber's buffer is full and the domain doesn't overflow."""

    RETRY_UNTIL_DELIVERED = 0
    DISCARD_DATA = 1


class BackpressureHandler(IntEnum):
    """What always answers in place of the strategy."""

    NONE = 0
    FOLLOW_STRATEGY = 1
    RETRY = 2
    DISCARD_DATA = 3
    DISCARD_DATA_AND_FAIL = 4


class DegradationAction(IntEnum):
    """What a port does where memory for a connection is refused."""

    IGNORE = 0
    WARN = 1
    FAIL = 2


class AllocationStrategy(IntEnum):
    """How a publisher's memory grows where a loan doesn't fit."""

    STATIC = 0
    BEST_FIT = 1
    POWER_OF_TWO = 2


class WarningKind(IntEnum):
    """What a warning is of."""

    EXPIRED_BUFFER_RAISED = 100
    PUBLISHER_PARTLY_CONNECTED = 101
    SUBSCRIBER_PARTLY_CONNECTED = 102
    CONNECTION_NOT_MADE = 103
    EXPIRED_DATA_DISCARDED = 104


class DomainSettings(NamedTuple):
    """What a domain was made with.

    >>> import iox2_pubsub as ps
    >>> ps.Domain(7, bytes, 64, history_size=3).settings.history_size
    3
    """

    service_id: int
    node_id: int
    payload_size: int
    payload_alignment: int
    max_publishers: int
    max_subscribers: int
    subscriber_max_buffer_size: int
    subscriber_max_borrowed_samples: int
    history_size: int
    number_of_channels: int
    subscriber_expired_connection_buffer: int
    publisher_max_loaned_samples: int
    enable_safe_overflow: bool
    backpressure_strategy: BackpressureStrategy


class PublisherSettings(NamedTuple):
    """What a publisher was made with. `initial_max_slice_len` counts values; `preallocated_samples` is None for as many as it may need.

    >>> import iox2_pubsub as ps
    >>> ps.Domain(7, bytes, 64).publisher(max_loaned_samples=3).settings.max_loaned_samples
    3
    """

    max_loaned_samples: int
    initial_max_slice_len: int
    preallocated_samples: int | None
    backpressure_strategy: BackpressureStrategy
    backpressure_handler: BackpressureHandler
    degradation: DegradationAction
    allocation_strategy: AllocationStrategy


class SubscriberSettings(NamedTuple):
    """What a subscriber was made with.

    >>> import iox2_pubsub as ps
    >>> ps.Domain(7, bytes, 64).subscriber(buffer_size=1).settings
    SubscriberSettings(buffer_size=1, degradation=<DegradationAction.WARN: 1>)
    """

    buffer_size: int
    degradation: DegradationAction


class Header(NamedTuple):
    """Where a message comes from."""

    node_id: int
    publisher: int
    number_of_elements: int


class Warning(NamedTuple):
    """Something that a domain did or left undone without failing the call."""

    kind: WarningKind
    publisher: int | None
    subscriber: int | None
    failure: int | None


class Recording(NamedTuple):
    """The first calls of a domain. `missed` says how many commands aren't in the text, which ends before the first of them."""

    text: str
    missed: int


def _warning(kind: int, publisher: int | None, subscriber: int | None, failure: int | None) -> Warning:
    return Warning(WarningKind(kind), publisher, subscriber, failure)


class NodeState(IntEnum):
    """Whether a process lives."""

    ALIVE = 0
    DEAD = 1


class Node(NamedTuple):
    """A process that has a domain. What it has of a dead one nobody has given back yet. `pid` is the number that it knows itself by:
    another container has other numbers.

    >>> import iox2_pubsub as ps
    >>> with ps.Domain.create("My/Node", "f8") as domain:
    ...     domain.nodes()[0].state
    <NodeState.ALIVE: 0>
    """

    node_id: int
    pid: int
    state: NodeState
    number_of_publishers: int
    number_of_subscribers: int
    number_of_loans: int
    number_of_samples: int


class PortKind(IntEnum):
    """Which port it is."""

    PUBLISHER = 0
    SUBSCRIBER = 1


class PortInfo(NamedTuple):
    """A port of any process, and which has it."""

    id: int
    node_id: int
    kind: PortKind


def _node(node_id: int, pid: int, state: int, publishers: int, subscribers: int, loans: int, samples: int) -> Node:
    return Node(node_id, pid, NodeState(state), publishers, subscribers, loans, samples)


def _port(port_id: int, node_id: int, kind: int) -> PortInfo:
    return PortInfo(port_id, node_id, PortKind(kind))


_core.parts.update(Header=Header, Warning=_warning, Recording=Recording, Node=_node, PortInfo=_port)


class DomainInfo(NamedTuple):
    """A domain that processes have by a name."""

    name: str
    type_name: str
    payload_size: int
    payload_alignment: int
    max_processes: int
    processes: int
