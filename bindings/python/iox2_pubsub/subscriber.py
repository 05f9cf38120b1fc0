# SPDX-License-Identifier: Apache-2.0 OR MIT
"""Subscribers."""
from __future__ import annotations

from functools import partial
from typing import AsyncIterator, Iterator

from . import _core
from ._core import Sample
from .settings import DegradationAction, SubscriberSettings
from .waits import MESSAGE, until_done


class Subscriber(_core.Subscriber):
    """Receives the messages of every publisher of its domain. `Domain.subscriber` makes one, and `with` closes it.

    >>> import iox2_pubsub as ps
    >>> domain = ps.Domain(7, bytes, 64)
    >>> publisher, subscriber = domain.publisher(), domain.subscriber()
    >>> publisher.send_copy(b"abc"), publisher.send_copy(b"de")
    (1, 1)
    >>> [bytes(sample) for sample in subscriber]
    [b'abc', b'de']
    """

    @property
    def settings(self) -> SubscriberSettings:
        """What it was made with.

        >>> import iox2_pubsub as ps
        >>> ps.Domain(7, bytes, 64).subscriber().settings.degradation
        <DegradationAction.WARN: 1>
        """
        return SubscriberSettings(self.buffer_size, DegradationAction(self._options["degradation"]))

    def __iter__(self) -> Iterator[Sample]:
        """What waits, one message after the other. A `for` has one sample while it asks for the next.

        >>> import iox2_pubsub as ps
        >>> domain = ps.Domain(7, bytes, 64)
        >>> publisher, subscriber = domain.publisher(), domain.subscriber()
        >>> publisher.send_copy(b"abc")
        1
        >>> [bytes(sample) for sample in subscriber]
        [b'abc']
        """
        return iter(self.receive, None)

    def follow(self, timeout: float | None = None) -> Iterator[Sample]:
        """Waits for one message after the other. It ends where none came for so many seconds, or where waits are stopped.

        >>> import iox2_pubsub as ps
        >>> domain = ps.Domain(7, bytes, 64)
        >>> publisher, subscriber = domain.publisher(), domain.subscriber()
        >>> publisher.send_copy(b"abc")
        1
        >>> for sample in subscriber.follow(timeout=0.01):
        ...     print(bytes(sample))
        b'abc'
        """
        return iter(partial(self.receive, timeout), None)

    async def receive_async(self) -> Sample | None:
        """The next message, for which it waits in the event loop; None where waits are stopped.

        >>> import asyncio, iox2_pubsub as ps
        >>> domain = ps.Domain(7, bytes, 64)
        >>> publisher, subscriber = domain.publisher(), domain.subscriber()
        >>> publisher.send_copy(b"abc")
        1
        >>> bytes(asyncio.run(subscriber.receive_async()))
        b'abc'
        """
        return await until_done(self, MESSAGE, self.receive)

    async def __aiter__(self) -> AsyncIterator[Sample]:
        """Waits in the event loop for one message after the other, until waits are stopped.

        >>> import asyncio, iox2_pubsub as ps
        >>> domain = ps.Domain(7, bytes, 64)
        >>> publisher, subscriber = domain.publisher(), domain.subscriber()
        >>> async def read():
        ...     async for sample in subscriber:
        ...         return bytes(sample)
        >>> publisher.send_copy(b"abc")
        1
        >>> asyncio.run(read())
        b'abc'
        """
        while (sample := await self.receive_async()) is not None:
            yield sample
            del sample  # or it would be held while the next is waited for
