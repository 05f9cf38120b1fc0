# SPDX-License-Identifier: Apache-2.0 OR MIT
"""Event loops: descriptors, and calls of asyncio."""
import asyncio
import os
import select
import selectors

import pytest
from helpers import Beside, is_idle, pair, value, waiting

import iox2_pubsub as ps


def is_readable(port):
    return bool(select.select([port], [], [], 0)[0])


def test_the_descriptor_of_a_subscriber_says_whether_something_may_wait():
    publisher, subscriber = pair()
    assert is_readable(subscriber) and subscriber.fileno() == subscriber.fileno()
    for n in range(3):
        while subscriber.receive() is not None:
            pass
        assert not is_readable(subscriber)
        publisher.send_copy(n), publisher.send_copy(n)
        assert is_readable(subscriber) and value(subscriber.receive()) == n and is_readable(subscriber)


def test_the_descriptor_of_a_publisher_says_whether_it_may_go_on():
    publisher, subscriber = pair(enable_safe_overflow=False)
    assert is_readable(publisher)
    publisher.send_copy(1), publisher.send_copy(2)
    with pytest.raises(ps.SendBlocked) as refused:
        publisher.send_copy(3, timeout=0)
    assert not is_readable(publisher)
    assert value(subscriber.receive()) == 1 and is_readable(publisher)
    assert refused.value.blocked.retry() == 1


def test_a_descriptor_and_a_thread_that_waits_are_both_told():
    publisher, subscriber = pair()
    assert is_readable(subscriber) and subscriber.receive() is None
    beside = waiting(publisher.domain, subscriber.receive, None)
    publisher.send_copy(1)
    assert is_readable(subscriber) and value(beside.result()) == 1


def test_a_closed_port_has_no_descriptor_and_is_readable_where_one_was_asked_for():
    publisher, subscriber = pair()
    fd = subscriber.fileno()
    assert subscriber.receive() is None and not select.select([fd], [], [], 0)[0]
    subscriber.close()
    assert select.select([fd], [], [], 0)[0]
    for port in (subscriber, publisher):
        port.close()
        with pytest.raises(ps.NotLive):
            port.fileno()


class Idle(selectors.DefaultSelector):
    """Of a loop that does one of these whenever it would sleep, and that sleeps by no clock."""

    def __init__(self, *actions):
        super().__init__()
        self.actions, self.sleeps = list(actions), 0

    def select(self, timeout=None):
        assert not timeout, "the loop polls"
        if timeout is None:
            self.sleeps += 1
            assert self.sleeps < 100, "something is raised for good, and the loop doesn't sleep"
            if not super().select(0):
                self.actions.pop(0)()
        return super().select(timeout)


def run(main, *actions):
    """Runs it in a loop that does these where it sleeps; how often it slept."""
    idle = Idle(*actions)
    loop = asyncio.SelectorEventLoop(idle)
    loop._selector = idle
    try:
        loop.run_until_complete(main)
    finally:
        loop.close()
    assert not idle.actions
    return idle.sleeps


def test_an_idle_loop_sleeps_once_for_a_message_without_a_poll():
    publisher, subscriber = pair()

    async def main():
        assert [value(await subscriber.receive_async()) for _ in range(3)] == [0, 1, 2]

    assert run(main(), *[lambda n=n: publisher.send_copy(n) for n in range(3)]) == 3
    assert publisher.domain.waiting == 0


def test_an_idle_loop_makes_no_call_of_the_system():
    publisher, subscriber = pair()

    async def main():
        return value(await subscriber.receive_async())

    others = set(os.listdir("/proc/self/task"))
    reader = waiting(publisher.domain, lambda: asyncio.run(main()))
    assert set(os.listdir("/proc/self/task")) - others == {str(reader.native_id)}, "a thread beside the loop's"
    assert is_idle(reader)
    publisher.send_copy(5)
    assert reader.result() == 5


def test_messages_are_iterated_until_waits_are_stopped():
    publisher, subscriber = pair()

    async def main():
        assert [value(sample) async for sample in subscriber] == [1, 2]
        assert await subscriber.receive_async() is None

    run(main(), lambda: (publisher.send_copy(1), publisher.send_copy(2)), publisher.domain.stop_waits)


def test_a_loop_and_another_thread():
    publisher, subscriber = pair(enable_safe_overflow=False)
    domain = publisher.domain

    async def main():
        return [value(await subscriber.receive_async()) for _ in range(300)]

    reader = waiting(domain, lambda: asyncio.run(main()))
    [publisher.send_copy(n) for n in range(300)]
    assert reader.result() == list(range(300))


def test_two_loops_at_one_subscriber():
    publisher, subscriber = pair(enable_safe_overflow=False, subscriber_max_borrowed_samples=4)
    got = []

    async def main():
        async for sample in subscriber:
            got.append(value(sample))
            if len(got) == 200:
                publisher.domain.stop_waits()

    readers = [Beside(lambda: asyncio.run(main())) for _ in range(2)]
    [publisher.send_copy(n) for n in range(200)]
    [reader.result() for reader in readers]
    assert sorted(got) == list(range(200))


def test_several_tasks_wait_at_one_subscriber():
    publisher, subscriber = pair(subscriber_max_buffer_size=4, subscriber_max_borrowed_samples=4)

    async def main():
        tasks = [asyncio.create_task(subscriber.receive_async()) for _ in range(3)]
        assert sorted(value(sample) for sample in await asyncio.gather(*tasks)) == [0, 1, 2]

    run(main(), lambda: [publisher.send_copy(n) for n in range(3)])


def test_tasks_that_were_woken_for_nothing_sleep_again():
    publisher, subscriber = pair(subscriber_max_borrowed_samples=4)

    async def main():
        tasks = [asyncio.create_task(subscriber.receive_async()) for _ in range(3)]
        assert sorted(value(sample) for sample in await asyncio.gather(*tasks)) == [0, 1, 2]

    assert run(main(), *[lambda n=n: publisher.send_copy(n) for n in range(3)]) == 3


def test_an_iteration_holds_no_message_that_its_body_let_go():
    publisher, subscriber = pair(subscriber_max_borrowed_samples=1)
    got = []

    async def main():
        async for sample in subscriber:
            got.append(sample.array.item())
            del sample

    run(main(), lambda: (publisher.send_copy(1), publisher.send_copy(2)), publisher.domain.stop_waits)
    assert got == [1, 2]


def test_tasks_send_at_one_publisher():
    publisher, subscriber = pair(enable_safe_overflow=False)

    async def send(n):
        if n % 2:
            return await publisher.send_copy_async(n)
        loan = await publisher.loan_async()
        loan.array[()] = n
        return await loan.send_async()

    async def main():
        tasks = [asyncio.create_task(send(n)) for n in range(20)]
        got = [value(await subscriber.receive_async()) for _ in range(20)]
        assert sorted(got) == list(range(20)) and await asyncio.gather(*tasks) == [1] * 20

    run(main())


def test_a_loan_is_waited_for():
    publisher, _ = pair()
    kept = [publisher.loan(), publisher.loan()]

    async def main():
        loan = await publisher.loan_uninit_async()
        assert loan.is_live

    run(main(), lambda: kept.pop().discard())


def test_a_loan_is_waited_for_at_a_closed_subscriber():
    domain = ps.Domain(7, "i8")
    publisher, subscriber = domain.publisher(preallocated_samples=1), domain.subscriber()
    publisher.send_copy(1)

    async def main():
        assert await publisher.send_copy_async(2) == 0

    run(main(), subscriber.close)


def test_stopped_waits_end_sends_and_loans():
    publisher, subscriber = pair(enable_safe_overflow=False)
    publisher.send_copy(1), publisher.send_copy(2)

    async def main():
        with pytest.raises(ps.SendBlocked) as stopped:
            await publisher.send_copy_async(3)
        with pytest.raises(ps.PublisherIsBlocked):
            await publisher.loan_async()
        with pytest.raises(ps.PublisherIsBlocked):
            await publisher.send_copy_async(3)
        publisher.domain.stop_waits(False)
        assert value(subscriber.receive()) == 1
        assert await stopped.value.blocked.retry_async() == 1

    run(main(), publisher.domain.stop_waits)


def test_a_cancelled_task_leaves_nothing():
    publisher, subscriber = pair()

    async def main():
        task = asyncio.create_task(subscriber.receive_async())
        await asyncio.sleep(0)
        await asyncio.sleep(0)
        assert publisher.domain.waiting == 1
        task.cancel()
        with pytest.raises(asyncio.CancelledError):
            await task
        assert publisher.domain.waiting == 0
        publisher.send_copy(5)
        assert value(await subscriber.receive_async()) == 5

    run(main())


def test_a_cancelled_send_isn_t_lost():
    publisher, subscriber = pair(enable_safe_overflow=False)
    publisher.send_copy(1), publisher.send_copy(2)

    async def main():
        task = asyncio.create_task(publisher.send_copy_async(3))
        await asyncio.sleep(0)
        await asyncio.sleep(0)
        task.cancel()
        try:
            await task
        except asyncio.CancelledError as cancelled:
            blocked = cancelled.blocked
        assert publisher.is_blocked and blocked.retry() is None
        del blocked, task
        await asyncio.sleep(0)  # the loop lets go of the task
        assert not publisher.is_blocked and value(subscriber.receive()) == 1

    run(main())


def test_a_close_ends_a_task():
    publisher, subscriber = pair()

    async def main():
        with pytest.raises(ps.NotLive):
            await subscriber.receive_async()

    run(main(), subscriber.close)


def test_an_exception_of_a_task_goes_to_its_awaiter():
    publisher, subscriber = pair(subscriber_max_borrowed_samples=1)

    async def main():
        kept = await subscriber.receive_async()
        with pytest.raises(ps.ReceiveExceedsMaxBorrows):
            await subscriber.receive_async()
        del kept

    run(main(), lambda: (publisher.send_copy(1), publisher.send_copy(2)))
