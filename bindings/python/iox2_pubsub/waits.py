# SPDX-License-Identifier: Apache-2.0 OR MIT
"""Calls that wait in an event loop. Each has a descriptor of its own, which those calls raise that may help it: no thread, no poll."""
from __future__ import annotations

import asyncio
from functools import partial
from typing import Any, Callable, TypeVar

from . import _core
from ._core import Blocked, Loan
from .errors import LoanExceedsMaxLoans, LoanOutOfMemory, PublisherIsBlocked, SendBlocked

MESSAGE, ROOM, FREE, LOAN, EVENT, DEAD_NODE = 1, 2, 4, 8, 32, 64  # what is waited for, as Brings of waits.h

# A time that is up: a call tries as one that waits does, and doesn't wait. So a loan takes back what waited for closed subscribers.
UP = 5e-324

Result = TypeVar("Result")


def _finish(raised: asyncio.Future[None]) -> None:
    if not raised.done():
        raised.set_result(None)


async def _is_raised(wait: _core.Wait) -> None:
    loop, fd = asyncio.get_running_loop(), wait.fileno()
    raised = loop.create_future()
    loop.add_reader(fd, _finish, raised)
    try:
        await raised
    finally:
        loop.remove_reader(fd)


async def until_done(port: _core.Port, brings: int, call: Callable[[], Result | None]) -> Result | None:
    """What the call returns once that isn't None. None where waits are stopped."""
    result = call()
    if result is not None:
        return result
    with _core.Wait(port, brings) as wait:
        while True:
            wait.lower()  # before the call that looks
            result = call()
            if result is not None or port.domain.waits_are_stopped:
                return result
            await _is_raised(wait)


def _patient(call: Callable[[], Result]) -> Callable[[], Result | None]:
    """The call, and None where it is refused for now."""

    def patient() -> Result | None:
        try:
            return call()
        except (LoanExceedsMaxLoans, LoanOutOfMemory, PublisherIsBlocked):
            return None

    return patient


async def lend_async(publisher: _core.Publisher, lend: Callable[[], Loan]) -> Loan:
    """A loan, once it isn't refused."""
    loan = await until_done(publisher, LOAN | FREE, _patient(lend))
    return lend() if loan is None else loan


async def retry_async(blocked: Blocked, publisher: _core.Publisher) -> int:
    """How many took the message, once each subscriber had room. An exception has the send that waits on."""
    try:
        receivers = await until_done(publisher, ROOM, blocked.retry)
        if receivers is None:
            raise SendBlocked
        return receivers
    except BaseException as error:
        error.blocked = blocked  # type: ignore[attr-defined]
        raise


async def send_async(publisher: _core.Publisher, send: Callable[[], int]) -> int:
    """How many took the message that this sends without waiting."""

    def begin() -> int | Blocked:
        try:
            return send()
        except SendBlocked as error:
            return error.blocked

    begun: int | Blocked | None = await until_done(publisher, LOAN | FREE, _patient(begin))
    if begun is None:
        return send()
    if isinstance(begun, Blocked):
        return await retry_async(begun, publisher)
    return begun


async def send_loan_async(loan: Loan, publisher: _core.Publisher) -> int:
    """As Loan.send, in the event loop."""
    return await send_async(publisher, partial(loan.send, 0))


_core.parts.update(retry_async=retry_async, send_loan_async=send_loan_async)
