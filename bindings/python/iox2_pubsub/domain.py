# SPDX-License-Identifier: Apache-2.0 OR MIT
"""Domains."""
from __future__ import annotations

from numbers import Real
from operator import index
from typing import Any, Callable

from . import _core
from ._core import Notifier
from .listener import Listener
from .nodes import DeadNodes
from .publisher import Publisher
from .settings import AllocationStrategy, BackpressureHandler, BackpressureStrategy, DegradationAction, DomainInfo, DomainSettings
from .subscriber import Subscriber
from .values import type_name_of, values_of

MOST = 2**63 - 1  # bytes, which no memory holds
MOST_SECONDS = 4_000_000  # some 46 days
ROOMS = ("book_room", "payload_room")
ENUMS = {
    "backpressure_strategy": BackpressureStrategy, "backpressure_handler": BackpressureHandler, "degradation": DegradationAction,
    "allocation_strategy": AllocationStrategy,
}  # fmt: skip
OPTIONS = (*ROOMS, "max_processes", "calls", "permissions", "spins")  # of a domain that processes share


def _given(**settings: int | None) -> dict[str, int]:
    """Those that were said."""
    given = {name: value for name, value in settings.items() if value is not None}
    for name in given.keys() & ENUMS.keys():
        if not hasattr(given[name], "__index__"):
            raise TypeError(f"{name} is one of {', '.join(f'{one.__class__.__name__}.{one.name}' for one in ENUMS[name])}, not {given[name]!r}")
    return given


def _milliseconds(reap_every: float) -> int:
    if not isinstance(reap_every, Real):
        raise TypeError(f"reap_every is a number of seconds, not {reap_every!r}")
    if not 0 < reap_every <= MOST_SECONDS:
        raise ValueError(f"reap_every is a number of seconds above 0, {MOST_SECONDS} at most, not {reap_every!r}")
    return max(1, round(reap_every * 1000))


def _integer(what: str, number: Any, least: int, most: int) -> int:
    """A number from the least to the most, by what it is for."""
    try:
        read = index(number)
    except TypeError as error:
        raise TypeError(f"{what} is an integer, not {number!r}") from error
    if not least <= read <= most:
        raise ValueError(f"{what} is a number from {least} to {most}, not {number!r}")
    return read


def _recorded(record: Any) -> tuple[int, int]:
    if not (isinstance(record, (tuple, list)) and len(record) == 2):
        raise TypeError(f"record is a pair: for how many commands there is room, and how many bytes of each message are kept, not {record!r}")
    commands, kept = record
    return _integer("the number of commands in record", commands, 0, MOST), _integer("the number of bytes in record", kept, 0, MOST)


def _commands(how: str, record: Any) -> int:
    if how != "create":
        raise TypeError("record is for Domain.create: who opens a domain finds it recorded or not")
    return _integer("record, for how many commands there is room,", record, 0, MOST)


def _type_and_settings(
    dtype: Any, max_len: int | None, alignment: int | None, **settings: int | None
) -> tuple[tuple[int, bool, tuple[Any, tuple[int, ...] | None, Any, Callable[[Any], Any] | None]], dict[str, int]]:
    """What is made of a dtype, and the settings that are said."""
    is_single = max_len is None and dtype is not bytes
    values = values_of(dtype, is_single)
    if max_len is None and dtype is bytes:
        raise TypeError("max_len is missing: the greatest number of bytes of a message")
    most = 1 if max_len is None else _integer("max_len, the greatest number of values of a message,", max_len, 1, MOST // values.size)
    size, aligned = values.size * most, values.alignment if alignment is None else alignment
    return (values.size, is_single, values[2:]), _given(payload_size=size, payload_alignment=aligned, **settings)


class Domain(_core.Domain):
    """A service whose messages are of one type: of the numpy dtype that is given, or bytes.

    `max_len` says how many values a message may have. Without it a message is one value. What isn't set is as in iox2_pubsub.h.
    All threads may use a domain and what is in it. `with` closes it.

    >>> import iox2_pubsub as ps
    >>> with ps.Domain(7, bytes, 64) as domain:
    ...     publisher, subscriber = domain.publisher(), domain.subscriber()
    ...     publisher.send_copy(b"hello")
    ...     bytes(subscriber.receive())
    1
    b'hello'
    """

    def __new__(
        cls,
        service_id: int,
        dtype: Any = bytes,
        max_len: int | None = None,
        *,
        alignment: int | None = None,
        node_id: int | None = None,
        max_publishers: int | None = None,
        max_subscribers: int | None = None,
        subscriber_max_buffer_size: int | None = None,
        subscriber_max_borrowed_samples: int | None = None,
        history_size: int | None = None,
        number_of_channels: int | None = None,
        subscriber_expired_connection_buffer: int | None = None,
        publisher_max_loaned_samples: int | None = None,
        enable_safe_overflow: bool | None = None,
        backpressure_strategy: BackpressureStrategy | None = None,
        record: tuple[int, int] | None = None,
    ) -> Domain:
        type_of, settings = _type_and_settings(
            dtype,
            max_len,
            alignment,
            service_id=service_id,
            node_id=node_id,
            max_publishers=max_publishers,
            max_subscribers=max_subscribers,
            subscriber_max_buffer_size=subscriber_max_buffer_size,
            subscriber_max_borrowed_samples=subscriber_max_borrowed_samples,
            history_size=history_size,
            number_of_channels=number_of_channels,
            subscriber_expired_connection_buffer=subscriber_expired_connection_buffer,
            publisher_max_loaned_samples=publisher_max_loaned_samples,
            enable_safe_overflow=enable_safe_overflow,
            backpressure_strategy=backpressure_strategy,
        )
        return super().__new__(cls, *type_of, settings, *([] if record is None else [_recorded(record)]))

    @classmethod
    def open_or_create(cls, name: str, dtype: Any = bytes, max_len: int | None = None, **settings: Any) -> Domain:
        """A domain that processes share by this name, as "My/Service": opened where a process has it, and else created.

        Beside the settings of Domain, with service_id 0 unless it is said, there are `type_name` (by which processes compare types: that
        of a program in Rust or C++), `max_processes`, `calls`, `book_room`, `payload_room`, `permissions` and, in seconds, `reap_every`.
        All processes say the same settings, and have the same build. DomainOpenError says why it isn't so.

        >>> import iox2_pubsub as ps
        >>> domain = ps.Domain.open_or_create("My/Doctest", bytes, 64)
        >>> ps.Domain.exists("My/Doctest")
        True
        >>> domain.close()
        """
        return cls._named("any", name, dtype, max_len, settings)

    @classmethod
    def open(cls, name: str, dtype: Any = bytes, max_len: int | None = None, **settings: Any) -> Domain:
        """As open_or_create, where a process has it: OpenDoesNotExist otherwise.

        >>> import iox2_pubsub as ps
        >>> ps.Domain.open("My/Nobody", bytes, 64)
        Traceback (most recent call last):
        iox2_pubsub.errors.OpenDoesNotExist: no process has a domain with this name: start the one that creates it, or call open_or_create \
(there is no /dev/shm/iox2ps.My%2fNobody.calls)
        """
        return cls._named("open", name, dtype, max_len, settings)

    @classmethod
    def create(cls, name: str, dtype: Any = bytes, max_len: int | None = None, **settings: Any) -> Domain:
        """As open_or_create, where no process has it: CreateAlreadyExists otherwise. `record` is for how many commands there is room.

        >>> import iox2_pubsub as ps
        >>> with ps.Domain.create("My/Created", "f8") as domain:
        ...     domain.publisher().send_copy(20.5)
        0
        """
        return cls._named("create", name, dtype, max_len, settings)

    @staticmethod
    def exists(name: str) -> bool:
        """Whether a process has a domain with this name that this one may read.

        >>> import iox2_pubsub as ps
        >>> ps.Domain.exists("My/Nobody")
        False
        """
        return _core.exists(name)

    @staticmethod
    def list() -> tuple[DomainInfo, ...]:
        """The domains that processes have by a name and this one may read.

        >>> import iox2_pubsub as ps
        >>> with ps.Domain.create("My/Listed", "f8"):
        ...     [one.type_name for one in ps.Domain.list() if one.name == "My/Listed"]
        ['f64']
        """
        return tuple(DomainInfo(*one) for one in _core.domains())

    @classmethod
    def _named(cls, how: str, name: str, dtype: Any, max_len: int | None, settings: dict[str, Any]) -> Domain:
        if not isinstance(name, str):
            raise TypeError(f"a name is a text, as 'My/Service', not {name!r}")
        given: dict[str, Any] = {"service_id": 0, **settings}
        options = _given(**{option: given.pop(option, None) for option in OPTIONS})
        reap_every, record, alignment = given.pop("reap_every", None), given.pop("record", None), given.pop("alignment", None)
        type_name = given.pop("type_name", None)
        if reap_every is not None:
            options["reap_every_ms"] = _milliseconds(reap_every)
        if empty := [room for room in ROOMS if options.get(room) == 0]:
            raise ValueError(f"{empty[0]} is a number of bytes above 0")
        type_of, made = _type_and_settings(dtype, max_len, alignment, **given)
        if type_name is None:
            type_name = type_name_of(dtype, type_of[1])
        if not isinstance(type_name, str):
            raise TypeError(f"type_name is a text, not {type_name!r}")
        return cls._open(how, name, type_name, *type_of, made, options, *([] if record is None else [_commands(how, record)]))

    @classmethod
    def join(cls, capsule: Any, dtype: Any = bytes) -> Domain:
        """A domain of C++ or Rust in this process, which both use from now on: `capsule` has what its share() gave.

        `dtype` is the type of a value there; `bytes` takes any. Calls take the other language's lock, and its listeners are called on
        the thread that sends, with the GIL.
        """
        is_single, size, alignment = cls._shared(capsule)
        values = values_of(dtype, is_single)
        if dtype is bytes:
            values = values._replace(size=size)
        if values.size != size or alignment % values.alignment:
            raise ValueError(
                f"{dtype} has {values.size} bytes aligned to {values.alignment}, and a value of the domain {size} aligned to {alignment}: "
                "say the type that the other language has"
            )
        return cls._join(capsule, values.size, values[2:])

    def __enter__(self) -> Domain:
        return self

    def __exit__(self, *_: object) -> None:
        self.close()

    @property
    def settings(self) -> DomainSettings:
        """What it was made with.

        >>> import iox2_pubsub as ps
        >>> ps.Domain(7, bytes, 64).settings.subscriber_max_buffer_size
        2
        """
        settings = self._config
        settings["enable_safe_overflow"] = bool(settings["enable_safe_overflow"])
        settings["backpressure_strategy"] = BackpressureStrategy(settings["backpressure_strategy"])
        return DomainSettings(**settings)

    def publisher(
        self,
        *,
        max_loaned_samples: int | None = None,
        initial_max_slice_len: int | None = None,
        preallocated_samples: int | None = None,
        backpressure_strategy: BackpressureStrategy | None = None,
        backpressure_handler: BackpressureHandler | None = None,
        degradation: DegradationAction | None = None,
        allocation_strategy: AllocationStrategy | None = None,
    ) -> Publisher:
        """Makes a publisher, with what isn't set as the domain's settings say. `initial_max_slice_len` counts values. NoDomain,
        PublisherCreateError.

        >>> import iox2_pubsub as ps
        >>> publisher = ps.Domain(7, bytes, 64).publisher(allocation_strategy=ps.AllocationStrategy.POWER_OF_TWO)
        >>> len(publisher.loan(1000))
        1000
        """
        if initial_max_slice_len is not None:
            initial_max_slice_len = self._unit * _integer("initial_max_slice_len", initial_max_slice_len, 0, MOST // self._unit)
        options = _given(
            max_loaned_samples=max_loaned_samples,
            initial_max_slice_len=initial_max_slice_len,
            preallocated_samples=preallocated_samples,
            backpressure_strategy=backpressure_strategy,
            backpressure_handler=backpressure_handler,
            degradation=degradation,
            allocation_strategy=allocation_strategy,
        )
        return Publisher(self, options)

    def subscriber(self, *, buffer_size: int | None = None, degradation: DegradationAction | None = None) -> Subscriber:
        """Makes a subscriber, with what isn't set as the domain's settings say. The domain's publishers connect to it at once, and hand
        it their history. NoDomain, SubscriberCreateError.

        >>> import iox2_pubsub as ps
        >>> domain = ps.Domain(7, bytes, 64, history_size=1)
        >>> domain.publisher().send_copy(b"earlier")
        0
        >>> domain.subscriber(buffer_size=1).buffer_size
        1
        """
        return Subscriber(self, _given(buffer_size=buffer_size, degradation=degradation))

    def notifier(self, default_event_id: int = 0) -> Notifier:
        """Makes a notifier of a domain that was opened by a name. NotifyEventIdOutOfBounds, ProcessesNotShared, NoDomain.

        >>> import iox2_pubsub as ps
        >>> with ps.Domain.create("My/Notifier", bytes, 64) as domain:
        ...     domain.notifier(default_event_id=3).notify()
        0
        """
        return Notifier(self, default_event_id)

    def listener(self) -> Listener:
        """Makes a listener, which hears of notifications from now on. OutOfMemory, ProcessesNotShared, NoDomain.

        >>> import iox2_pubsub as ps
        >>> with ps.Domain.create("My/Events", bytes, 64) as domain:
        ...     domain.listener().wait_one(timeout=0.01)
        """
        return Listener(self)

    def dead_nodes(self, since: int | None = None) -> DeadNodes:
        """Hears of processes that die from now on, or of all but the first `since`. ProcessesNotShared.

        >>> import iox2_pubsub as ps
        >>> with ps.Domain.create("My/Dead", bytes, 64) as domain:
        ...     domain.dead_nodes().wait_one(timeout=0.01)
        """
        return DeadNodes(self, since)
