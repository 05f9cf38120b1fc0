# SPDX-License-Identifier: Apache-2.0 OR MIT
"""Listeners, who hear of events."""
from __future__ import annotations

from functools import partial
from typing import AsyncIterator, Iterator

from . import _core
from .waits import EVENT, until_done


class Listener(_core.Listener):
    """Hears of what notifiers of its domain tell, in whichever process: each id once, however often it came since it was heard last, and
    none is lost. Who hears of one finds the message that was sent before it. `Domain.listener` makes one, and `with` closes it.

    >>> import iox2_pubsub as ps
    >>> with ps.Domain.create("My/Listener", bytes, 64) as domain:
    ...     notifier, listener = domain.notifier(), domain.listener()
    ...     notifier.notify(3), notifier.notify(5), list(listener)
    (1, 1, [3, 5])
    """

    def __iter__(self) -> Iterator[int]:
        """The ids of those that came.

        >>> import iox2_pubsub as ps
        >>> with ps.Domain.create("My/Listener", bytes, 64) as domain:
        ...     listener = domain.listener()
        ...     domain.notifier(7).notify(), list(listener)
        (1, [7])
        """
        return iter(self.wait_one, None)

    def follow(self, timeout: float | None = None) -> Iterator[int]:
        """Waits for one after the other. It ends where none came for so many seconds, or where waits are stopped.

        >>> import iox2_pubsub as ps
        >>> with ps.Domain.create("My/Listener", bytes, 64) as domain:
        ...     listener = domain.listener()
        ...     domain.notifier(7).notify(), list(listener.follow(timeout=0.01))
        (1, [7])
        """
        return iter(partial(self.wait_one, timeout), None)

    async def wait_one_async(self) -> int | None:
        """The id of an event, for which it waits in the event loop; None where waits are stopped.

        >>> import asyncio, iox2_pubsub as ps
        >>> with ps.Domain.create("My/Listener", bytes, 64) as domain:
        ...     listener = domain.listener()
        ...     domain.notifier(7).notify(), asyncio.run(listener.wait_one_async())
        (1, 7)
        """
        return await until_done(self, EVENT, self.wait_one)

    async def wait_all_async(self) -> frozenset[int]:
        """The ids of all events that came, for which it waits in the event loop; none where waits are stopped.

        >>> import asyncio, iox2_pubsub as ps
        >>> with ps.Domain.create("My/Listener", bytes, 64) as domain:
        ...     listener = domain.listener()
        ...     domain.notifier(7).notify(), set(asyncio.run(listener.wait_all_async()))
        (1, {7})
        """
        return await until_done(self, EVENT, lambda: self.wait_all() or None) or frozenset()

    async def __aiter__(self) -> AsyncIterator[int]:
        """Waits in the event loop for one after the other, until waits are stopped.

        >>> import asyncio, iox2_pubsub as ps
        >>> async def first(listener):
        ...     async for event_id in listener:
        ...         return event_id
        >>> with ps.Domain.create("My/Listener", bytes, 64) as domain:
        ...     listener = domain.listener()
        ...     domain.notifier(7).notify(), asyncio.run(first(listener))
        (1, 7)
        """
        while (event_id := await self.wait_one_async()) is not None:
            yield event_id
