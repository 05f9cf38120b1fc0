# SPDX-License-Identifier: Apache-2.0 OR MIT
"""Processes that died."""
from __future__ import annotations

from functools import partial
from typing import AsyncIterator, Iterator

from . import _core
from .settings import Node
from .waits import DEAD_NODE, until_done


class DeadNodes(_core.DeadNodes):
    """Hears of each process of a domain that died. `Domain.dead_nodes` makes one, and `with` closes it.

    >>> import iox2_pubsub as ps
    >>> with ps.Domain.create("My/DeadNodes", bytes, 64) as domain, domain.dead_nodes() as dead:
    ...     [node.pid for node in dead]
    []
    """

    def __iter__(self) -> Iterator[Node]:
        """Those that are known.

        >>> import iox2_pubsub as ps
        >>> with ps.Domain.create("My/DeadNodes", bytes, 64) as domain:
        ...     list(domain.dead_nodes(since=0))
        []
        """
        return iter(self.wait_one, None)

    def follow(self, timeout: float | None = None) -> Iterator[Node]:
        """Waits for one after the other. It ends where nobody died for so many seconds, or where waits are stopped.

        >>> import iox2_pubsub as ps
        >>> with ps.Domain.create("My/DeadNodes", bytes, 64) as domain:
        ...     list(domain.dead_nodes().follow(timeout=0.01))
        []
        """
        return iter(partial(self.wait_one, timeout), None)

    async def wait_one_async(self) -> Node | None:
        """The next, for which it waits in the event loop; None where waits are stopped.

        >>> import asyncio, iox2_pubsub as ps
        >>> with ps.Domain.create("My/DeadNodes", bytes, 64) as domain:
        ...     domain.stop_waits()
        ...     asyncio.run(domain.dead_nodes().wait_one_async())
        """
        return await until_done(self, DEAD_NODE, self.wait_one)

    async def __aiter__(self) -> AsyncIterator[Node]:
        """Waits in the event loop for one after the other, until waits are stopped.

        >>> import asyncio, iox2_pubsub as ps
        >>> async def pids(dead):
        ...     return [node.pid async for node in dead]
        >>> with ps.Domain.create("My/DeadNodes", bytes, 64) as domain:
        ...     domain.stop_waits()
        ...     asyncio.run(pids(domain.dead_nodes()))
        []
        """
        while (node := await self.wait_one_async()) is not None:
            yield node
