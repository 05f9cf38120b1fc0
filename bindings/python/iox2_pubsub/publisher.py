# SPDX-License-Identifier: Apache-2.0 OR MIT
"""Publishers."""
from __future__ import annotations

from functools import partial
from typing import Any

from . import _core
from ._core import Loan
from .settings import AllocationStrategy, BackpressureHandler, BackpressureStrategy, DegradationAction, PublisherSettings
from .waits import UP, lend_async, send_async


class Publisher(_core.Publisher):
    """Sends messages to every subscriber of its domain. `Domain.publisher` makes one, and `with` closes it.

    >>> import iox2_pubsub as ps
    >>> domain = ps.Domain(7, bytes, 64)
    >>> with domain.publisher() as publisher:
    ...     publisher.send_copy(b"to nobody")
    0
    >>> publisher.is_open
    False
    """

    @property
    def settings(self) -> PublisherSettings:
        """What it was made with.

        >>> import iox2_pubsub as ps
        >>> ps.Domain(7, bytes, 64).publisher().settings.allocation_strategy
        <AllocationStrategy.STATIC: 0>
        """
        made = self._options
        return PublisherSettings(
            made["max_loaned_samples"],
            self.initial_max_slice_len,
            made["preallocated_samples"] or None,
            BackpressureStrategy(made["backpressure_strategy"]),
            BackpressureHandler(made["backpressure_handler"]),
            DegradationAction(made["degradation"]),
            AllocationStrategy(made["allocation_strategy"]),
        )

    @property
    def backpressure_strategy(self) -> BackpressureStrategy:
        """What it does where a subscriber's buffer is full and the domain doesn't overflow.

        >>> import iox2_pubsub as ps
        >>> ps.Domain(7, bytes, 64).publisher().backpressure_strategy
        <BackpressureStrategy.RETRY_UNTIL_DELIVERED: 0>
        """
        return BackpressureStrategy(self._backpressure_strategy)

    async def loan_async(self, count: int | None = None) -> Loan:
        """As `loan`, and waits in the event loop for a slot.

        >>> import asyncio, iox2_pubsub as ps
        >>> publisher = ps.Domain(7, bytes, 64).publisher()
        >>> len(asyncio.run(publisher.loan_async(3)))
        3
        """
        return await lend_async(self, partial(self.loan, count, UP))

    async def loan_uninit_async(self, count: int | None = None) -> Loan:
        """As `loan_uninit`, and waits in the event loop for a slot.

        >>> import asyncio, iox2_pubsub as ps
        >>> publisher = ps.Domain(7, bytes, 64).publisher()
        >>> len(asyncio.run(publisher.loan_uninit_async(3)))
        3
        """
        return await lend_async(self, partial(self.loan_uninit, count, UP))

    async def send_copy_async(self, message: Any) -> int:
        """Sends a copy, and waits in the event loop where a subscriber's buffer is full; returns how many subscribers took it. Where the
        task is cancelled meanwhile, the exception has the send as `blocked`, which is retried or given up with it.

        >>> import asyncio, iox2_pubsub as ps
        >>> domain = ps.Domain(7, bytes, 64)
        >>> publisher, subscriber = domain.publisher(), domain.subscriber()
        >>> asyncio.run(publisher.send_copy_async(b"abc"))
        1
        """
        return await send_async(self, partial(self.send_copy, message, UP))
