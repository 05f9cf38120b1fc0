# SPDX-License-Identifier: Apache-2.0 OR MIT
"""Events over processes: notifiers and listeners. None of the tests looks at a clock."""
import asyncio
import gc
import os
import select
import weakref
from itertools import islice

import pytest
from helpers import PATIENCE, fork, go_on, hear, kill, value, waiting, wants_processes

import iox2_pubsub as ps
from other_process import opened

wants_processes()
IDS = range(ps.EVENT_ID_MAX_VALUE + 1)
HOUR = 3600  # seconds, after which who waits looks by itself


def test_each_id_is_heard_once_by_all(name):
    domain = opened(name)
    notifier, both = domain.notifier(default_event_id=9), [domain.listener(), domain.listener()]
    for _ in range(3):
        assert notifier.notify() == notifier.notify(0) == notifier.notify(event_id=255) == 2
    assert notifier.default_event_id == 9 and notifier.domain is domain
    for listener in both:
        assert listener.wait_all() == {0, 9, 255} and isinstance(listener.wait_all(), frozenset)
        assert listener.wait_all() == frozenset() == listener.wait_all(timeout=0.001) and listener.wait_one() is None
    notifier.notify(4)
    assert [list(listener) for listener in both] == [[4], [4]] and both[0].id != both[1].id


def test_every_id_is_told_by_turns(name):
    domain = opened(name)
    notifier, listener = domain.notifier(), domain.listener()
    assert [notifier.notify(event_id) for event_id in IDS] == [1] * 256
    assert sorted(listener) == list(IDS)
    heard = set()
    for _ in range(2):  # an id that comes again and again keeps none back
        notifier.notify(7), notifier.notify(8)
        heard.add(listener.wait_one())
    assert heard == {7, 8}


def test_a_listener_hears_what_comes_after_its_creation(name):
    domain = opened(name)
    assert domain.notifier().notify(3) == 0
    with domain.listener() as listener:
        assert listener.wait_one() is None and domain.notifier().notify(4) == 1 and listener.wait_one() == 4
    assert domain.notifier().notify(5) == 0 and not listener.is_open


def test_events_come_from_another_process_with_what_was_sent_before(name, start):
    domain = opened(name)
    subscriber, listener = domain.subscriber(), domain.listener()
    process = start("notifies", name)
    assert hear(process) == "is here"
    for number in range(1, 6):
        assert listener.wait_one() is None
        go_on(process)
        assert listener.wait_one(timeout=None) == number and value(subscriber.receive()) == number


def test_threads_hear_an_event_of_another_process_and_of_this_one(name, start):
    domain = opened(name, reap_every=HOUR)
    both = [domain.listener(), domain.listener()]
    process = start("notifies", name)
    assert hear(process) == "is here"
    for number in range(1, 6):
        threads = [waiting(domain, listener.wait_one, None) for listener in both]
        go_on(process)
        assert [thread.result() for thread in threads] == [number, number]
        threads = [waiting(domain, listener.wait_all, None) for listener in both]
        assert domain.notifier().notify(number) == 2
        assert [thread.result() for thread in threads] == [{number}, {number}]


def test_who_waits_for_a_message_isn_t_woken_by_an_event(name):
    domain = opened(name, reap_every=HOUR)
    publisher, subscriber, listener = domain.publisher(), domain.subscriber(), domain.listener()
    receives = waiting(domain, subscriber.receive, None)
    wakes = domain._wakes
    assert domain.notifier().notify() == 1 and domain._wakes == wakes
    hears = waiting(domain, listener.follow(None).__next__)
    assert hears.result() == 0
    publisher.send_copy(1)
    assert value(receives.result()) == 1


def test_an_iteration_waits_for_one_after_the_other(name, start):
    domain = opened(name)
    process = start("notifies", name)
    assert hear(process) == "is here"
    listener = domain.listener()
    follows = waiting(domain, lambda: list(islice(listener.follow(), 3)))
    for number in range(1, 4):
        go_on(process)
        assert hear(process) == str(number)
    assert sorted(follows.result()) == [1, 2, 3] and list(listener.follow(timeout=0.001)) == []


def test_tasks_hear_of_events(name, start):
    domain = opened(name)
    process = start("notifies", name)
    assert hear(process) == "is here"
    listener = domain.listener()

    async def hear_of_all():
        for number in range(1, 5):
            task = asyncio.create_task(listener.wait_one_async() if number % 2 else listener.wait_all_async())
            await asyncio.sleep(0)
            go_on(process)
            assert await task in (number, {number})
        go_on(process)
        async for event_id in listener:
            assert event_id == 5
            domain.stop_waits()
        assert await listener.wait_all_async() == frozenset() and await listener.wait_one_async() is None

    asyncio.run(asyncio.wait_for(hear_of_all(), PATIENCE))
    assert domain.waiting == 0


def test_a_descriptor_is_readable_when_an_event_came(name, start):
    domain = opened(name, reap_every=HOUR)
    listener = domain.listener()
    process = start("notifies", name)
    assert hear(process) == "is here"
    for number in range(1, 6):
        while select.select([listener], [], [], 0)[0]:
            assert listener.wait_one() is None
        go_on(process)
        event_id = None
        while event_id is None:
            assert select.select([listener], [], [], PATIENCE)[0]
            event_id = listener.wait_one()
        assert event_id == number


def test_a_killed_process_listens_no_more(name, start):
    domain = opened(name)
    process = start("listens", name)
    assert hear(process) == "is here" and domain.notifier().notify() == 1
    kill(process)
    assert domain.cleanup_dead_nodes() == 1 and domain.notifier().notify() == 0


@pytest.mark.parametrize("close", ["port", "domain"])
def test_a_close_ends_a_wait_for_an_event(name, close):
    domain = opened(name)
    listener, notifier = domain.listener(), domain.notifier()
    waits = [waiting(domain, call, None) for call in (listener.wait_one, listener.wait_all)]
    (listener if close == "port" else domain).close()
    ended = (ps.NotLive, ps.NoDomain)
    for call in (*(wait.result for wait in waits), listener.wait_one, listener.wait_all, lambda: list(listener), listener.fileno):
        with pytest.raises(ended, match="make another one"):
            call()
    listener.close()
    if close == "port":
        assert notifier.notify() == 0
    else:
        for call in (notifier.notify, domain.notifier, domain.listener):
            with pytest.raises(ps.NoDomain):
                call()
    assert domain.waiting == 0


def test_stopped_waits_end(name):
    domain = opened(name)
    listener = domain.listener()
    waits = [waiting(domain, call, None) for call in (listener.wait_one, listener.wait_all)]
    domain.stop_waits()
    assert [wait.result() for wait in waits] == [None, frozenset()] and list(listener.follow()) == []


@pytest.mark.parametrize("wrong, kind", [(256, ps.NotifyEventIdOutOfBounds), (1 << 63, ps.NotifyEventIdOutOfBounds), (-1, ValueError), (1 << 64, ValueError), ("1", TypeError), (1.5, TypeError)])
def test_an_id_that_no_event_has_is_refused(name, wrong, kind):
    domain = opened(name)
    notifier, listener = domain.notifier(), domain.listener()
    for call in (domain.notifier, notifier.notify):
        with pytest.raises(kind, match="from 0 to|integer"):
            call(wrong)
    assert listener.wait_all() == frozenset()
    assert issubclass(ps.NotifyEventIdOutOfBounds, (ps.NotifyError, ValueError)) and ps.NotifyEventIdOutOfBounds.code == 225


@pytest.mark.parametrize("timeout, kind", [(-1, ValueError), (float("nan"), ValueError), ("1", TypeError)])
def test_a_timeout_that_is_none_is_refused(name, timeout, kind):
    listener = opened(name).listener()
    for call in (listener.wait_one, listener.wait_all, lambda t: next(listener.follow(t))):
        with pytest.raises(kind, match="a timeout is a number of seconds"):
            call(timeout)


def test_a_domain_of_one_process_has_no_events():
    domain = ps.Domain(7, "i8")
    for call in (domain.notifier, domain.listener):
        with pytest.raises(ps.ProcessesNotShared, match="open it by a name"):
            call()


def test_a_child_of_fork_is_told(name):
    domain = opened(name)
    listener, notifier = domain.listener(), domain.notifier()
    child = fork()
    if child == 0:
        try:
            for call in (listener.wait_one, listener.wait_all, listener.close, listener.fileno, notifier.notify, domain.listener, domain.notifier):
                with pytest.raises(ps.AfterFork):
                    call()
            del listener, notifier
            os._exit(0)
        finally:
            os._exit(1)
    assert os.waitpid(child, 0)[1] == 0
    assert notifier.notify(6) == 1 and listener.wait_one() == 6


def test_they_keep_their_domain_no_longer_than_they_live(name):
    domain = opened(name)
    gone, notifier, listener = weakref.ref(domain), domain.notifier(), domain.listener()
    domain.kept = notifier, listener  # a cycle
    del domain
    gc.collect()
    assert notifier.notify() == 1 and listener.wait_one() == 0
    del notifier, listener
    gc.collect()
    assert gone() is None and not ps.Domain.exists(name)
