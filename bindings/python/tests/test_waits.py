# SPDX-License-Identifier: Apache-2.0 OR MIT
"""Calls that wait: what wakes them, what doesn't, and what ends them."""
import math
import signal
import threading

import numpy as np
import pytest
from helpers import Beside, pair, until, value, waiting

import iox2_pubsub as ps


def test_a_message_wakes_a_receive_and_other_threads_run_meanwhile():
    publisher, subscriber = pair()
    beside = waiting(publisher.domain, subscriber.receive, None)
    assert publisher.domain.waiting == 1
    publisher.send_copy(5)
    assert value(beside.result()) == 5 and publisher.domain.waiting == 0


def test_a_time_that_is_up_gives_none():
    _, subscriber = pair()
    for timeout in (0, 0.0, 1e-9, 0.001, np.float32(0.001)):
        assert subscriber.receive(timeout) is None
        assert list(subscriber.follow(timeout)) == []


@pytest.mark.parametrize("timeout, kind", [(-1, ValueError), (math.nan, ValueError), ("1", TypeError), (1j, TypeError)])
def test_a_timeout_that_is_none_is_refused(timeout, kind):
    publisher, subscriber = pair()
    for call in (subscriber.receive, lambda t: publisher.send_copy(1, t), lambda t: publisher.loan(timeout=t), lambda t: publisher.loan().send(t)):
        with pytest.raises(kind, match="a timeout is a number of seconds.*, or None to wait for good, not"):
            call(timeout)
    assert publisher.send_copy(1, math.inf) == 1 and value(subscriber.receive(1e300)) == 1


def test_a_message_that_waits_is_received_without_a_wait():
    publisher, subscriber = pair()
    publisher.send_copy(1)
    assert value(subscriber.receive(None)) == 1


def test_room_wakes_a_send():
    publisher, subscriber = pair(enable_safe_overflow=False)
    publisher.send_copy(1), publisher.send_copy(2)
    beside = waiting(publisher.domain, publisher.send_copy, 3)
    assert publisher.is_blocked
    assert value(subscriber.receive()) == 1
    assert beside.result() == 1 and [value(sample) for sample in subscriber] == [2, 3]


def test_the_end_of_a_send_wakes_another_send_and_a_loan():
    publisher, subscriber = pair(enable_safe_overflow=False, publisher_max_loaned_samples=3)
    publisher.send_copy(1), publisher.send_copy(2)
    kept = publisher.loan()
    kept.array[()] = 4
    first = waiting(publisher.domain, publisher.send_copy, 3)
    second, third = waiting(publisher.domain, kept.send), waiting(publisher.domain, publisher.loan, None, None)
    assert publisher.domain.waiting == 3
    got = [value(sample) for _, sample in zip(range(4), subscriber.follow(None))]
    assert got == [1, 2, 3, 4] and first.result() == second.result() == 1
    assert third.result().is_live


def test_a_loan_that_comes_back_wakes_a_loan():
    publisher, _ = pair()
    first, second = publisher.loan(), publisher.loan()
    beside = waiting(publisher.domain, publisher.loan, None, None)
    first.discard()
    assert beside.result().is_live and second.is_live


def test_a_sample_that_goes_wakes_a_loan_of_a_publisher_with_few_slots():
    domain = ps.Domain(7, "i8")
    publisher, subscriber = domain.publisher(preallocated_samples=1), domain.subscriber()
    publisher.send_copy(1)
    sample = subscriber.receive()
    with pytest.raises(ps.LoanOutOfMemory, match="let go of samples"):
        publisher.loan()
    beside = waiting(domain, publisher.loan, None, None)
    del sample
    assert beside.result().is_live


@pytest.mark.parametrize("call", ["loan", "loan_uninit", "send_copy"])
def test_a_closed_subscriber_gives_its_slots_to_a_call_that_waits(call):
    domain = ps.Domain(7, "i8")
    publisher, subscriber = domain.publisher(preallocated_samples=1), domain.subscriber()
    publisher.send_copy(1)
    beside = waiting(domain, getattr(publisher, call), 1, None)
    subscriber.close()
    assert beside.result() == 0 if call == "send_copy" else beside.result().is_live


def test_a_refused_call_wakes_nobody_who_waits_for_a_message():
    domain = ps.Domain(7, "i8", max_publishers=1, max_subscribers=2, enable_safe_overflow=False, history_size=1)
    publisher, subscriber, other = domain.publisher(), domain.subscriber(), domain.subscriber()
    beside = waiting(domain, subscriber.receive, None)
    wakes = domain._wakes
    kept = [publisher.loan(), publisher.loan()]
    for refused, call in [
        (ps.PublisherExceedsMaxSupportedPublishers, domain.publisher),
        (ps.InvalidDegradation, lambda: domain.publisher(degradation=9)),
        (ps.SubscriberExceedsMaxSupportedSubscribers, domain.subscriber),
        (ps.SubscriberBufferSizeExceedsMax, lambda: domain.subscriber(buffer_size=99)),
        (ps.LoanExceedsMaxLoans, publisher.loan),
        (ps.LoanExceedsMaxLoans, lambda: publisher.send_copy(1, timeout=0)),
        (ValueError, lambda: publisher.send_copy([1, 2])),
        (ps.NoSuchChannel, lambda: kept[0].deliver_offset_to_connection(1, 0)),
    ]:
        with pytest.raises(refused):
            call()
    kept.clear()
    assert other.receive() is None and not other.has_samples()
    other.update_connections()
    assert domain._wakes == wakes
    publisher.send_copy(3)
    assert value(beside.result()) == 3
    assert domain._wakes == wakes + 1  # by the message alone


def test_a_refused_loan_wakes_nobody_where_no_history_is_kept():
    domain = ps.Domain(7, "i8", max_publishers=2)
    publisher, other, subscriber = domain.publisher(preallocated_samples=1), domain.publisher(), domain.subscriber()
    kept = publisher.loan()
    beside = waiting(domain, subscriber.receive, None)
    wakes = domain._wakes
    for call in (publisher.loan, lambda: publisher.send_copy(1, timeout=0), lambda: publisher.loan(timeout=0.001)):
        with pytest.raises(ps.LoanOutOfMemory):
            call()
    assert domain._wakes == wakes
    other.send_copy(3)
    assert value(beside.result()) == 3 and kept.is_live


def test_a_retry_that_is_blocked_where_it_was_wakes_nobody():
    publisher, full = pair(enable_safe_overflow=False)
    domain = publisher.domain
    later = domain.subscriber()
    publisher.send_copy(1), publisher.send_copy(2)
    assert [value(sample) for sample in later] == [1, 2]
    with pytest.raises(ps.SendBlocked) as blocked:
        publisher.send_copy(3, timeout=0)
    beside, wakes = waiting(domain, later.receive, None), domain._wakes
    assert blocked.value.blocked.retry() is None and blocked.value.blocked.retry(timeout=0.001) is None
    assert domain._wakes == wakes
    assert value(full.receive()) == 1 and blocked.value.blocked.retry() == 2
    assert value(beside.result()) == 3


def test_a_retry_that_is_blocked_elsewhere_wakes_those_that_it_reached():
    publisher, first = pair(enable_safe_overflow=False)
    domain = publisher.domain
    between, last = domain.subscriber(), domain.subscriber()
    publisher.send_copy(1), publisher.send_copy(2)
    assert [value(sample) for sample in between] == [1, 2]
    with pytest.raises(ps.SendBlocked) as blocked:
        publisher.send_copy(3, timeout=0)
    beside = waiting(domain, between.receive, None)
    assert value(first.receive()) == 1 and blocked.value.blocked.retry() is None
    assert value(beside.result()) == 3 and blocked.value.blocked.subscriber == last.id


def late_history(publisher, first, subscribe):
    """A subscriber that comes while a send is blocked is connected by the next update alone: here by that of a loan that waits. What
    holds the publisher's first slot."""
    publisher.send_copy(1)
    try:
        publisher.send_copy(2, timeout=0)
    except ps.SendBlocked as error:
        blocked = error.blocked  # a kept exception would keep what this holds
    late = subscribe()
    held = first.receive()
    assert blocked.retry() == 1
    return late, held


@pytest.mark.parametrize("call", ["loan", "send_copy"])
def test_an_update_for_a_loan_that_waits_wakes_who_gets_its_history(call):
    domain = ps.Domain(7, "i8", history_size=1, subscriber_max_buffer_size=1, enable_safe_overflow=False)
    publisher, first = domain.publisher(preallocated_samples=2), domain.subscriber()
    late, held = late_history(publisher, first, domain.subscriber)
    receives = waiting(domain, late.receive, None)
    lends = Beside(getattr(publisher, call), 1, None)
    assert value(receives.result()) == 2
    del held
    assert first.receive() is not None and lends.result() is not None


def refuse_all(domain, publisher):
    """Calls of a blocked publisher and its domain that are refused."""
    for refused, call in [
        (ps.PublisherIsBlocked, publisher.loan),
        (ps.PublisherIsBlocked, lambda: publisher.send_copy(4, timeout=0)),
        (ps.PublisherIsBlocked, publisher.close),
        (ps.PublisherIsBlocked, publisher.update_connections),
        (ps.PublisherExceedsMaxSupportedPublishers, domain.publisher),
        (ps.SubscriberBufferSizeExceedsMax, lambda: domain.subscriber(buffer_size=99)),
    ]:
        with pytest.raises(refused):
            call()


def test_a_refused_call_wakes_nobody_who_waits_for_room():
    publisher, subscriber = pair(enable_safe_overflow=False, max_publishers=1)
    domain = publisher.domain
    publisher.send_copy(1), publisher.send_copy(2)
    beside = waiting(domain, publisher.send_copy, 3)
    wakes = domain._wakes
    refuse_all(domain, publisher)
    assert domain._wakes == wakes
    first = subscriber.receive()
    assert beside.result() == 1 and domain._wakes == wakes + 1  # by the room alone
    assert value(first) == 1


def test_a_refused_call_wakes_nobody_who_waits_for_a_loan():
    publisher, subscriber = pair(enable_safe_overflow=False, max_publishers=2)
    domain = publisher.domain
    other = domain.publisher()
    kept = [other.loan(), other.loan()]
    publisher.send_copy(1), publisher.send_copy(2)
    with pytest.raises(ps.SendBlocked) as blocked:
        publisher.send_copy(3, timeout=0)
    beside = waiting(domain, other.loan, None, None)
    wakes = domain._wakes
    refuse_all(domain, publisher)
    with pytest.raises(ps.LoanExceedsMaxLoans):
        other.loan()
    held = subscriber.receive()  # which gives back nothing yet
    assert domain._wakes == wakes
    kept.pop().discard()
    assert beside.result().is_live and domain._wakes == wakes + 1  # by that loan alone
    assert value(held) == 1 and blocked.value.blocked.retry() == 1


def test_stopped_waits_end_and_begin_again():
    publisher, subscriber = pair(enable_safe_overflow=False)
    domain = publisher.domain
    publisher.send_copy(1), publisher.send_copy(2)
    idle, sends = domain.subscriber(), waiting(domain, publisher.send_copy, 3)
    receives = waiting(domain, idle.receive, None)
    domain.stop_waits()
    assert domain.waits_are_stopped and receives.result() is None
    with pytest.raises(ps.SendBlocked) as stopped:
        sends.result()
    assert list(idle.follow(None)) == [] and idle.receive(None) is None
    domain.stop_waits(False)
    assert not domain.waits_are_stopped
    assert value(subscriber.receive()) == 1 and stopped.value.blocked.retry(None) == 2
    assert value(waiting(domain, idle.receive, None).result()) == 3


@pytest.mark.parametrize("close", ["port", "domain"])
def test_a_close_ends_a_wait(close):
    publisher, subscriber = pair()
    domain = publisher.domain
    kept = [publisher.loan(), publisher.loan()]
    receives, lends = waiting(domain, subscriber.receive, None), waiting(domain, publisher.loan, None, None)
    if close == "domain":
        domain.close()
    else:
        subscriber.close(), publisher.close()
    for ended in (receives, lends):
        with pytest.raises(ps.NotLive, match="make another one"):
            ended.result()
    assert domain.waiting == 0
    del kept


def test_a_domain_that_is_closed_lets_a_send_that_waits_go_past_its_subscribers():
    publisher, subscriber = pair(enable_safe_overflow=False)
    publisher.send_copy(1), publisher.send_copy(2)
    beside = waiting(publisher.domain, publisher.send_copy, 3)
    publisher.domain.close()
    assert beside.result() == 0 and not publisher.is_open and not subscriber.is_open


def test_a_publisher_whose_send_waits_is_closed_when_that_has_ended():
    publisher, subscriber = pair(enable_safe_overflow=False)
    with publisher:
        publisher.send_copy(1), publisher.send_copy(2)
        beside = waiting(publisher.domain, publisher.send_copy, 3)
    assert publisher.is_open
    assert value(subscriber.receive()) == 1 and beside.result() == 1
    assert not publisher.is_open and [value(sample) for sample in subscriber] == [2, 3]


class Interrupt(Exception):
    """What the handler of a signal raises."""


@pytest.fixture
def interrupt():
    """Sends a signal to this thread once somebody waits in the domain."""

    def handle(*_):
        raise Interrupt

    before = signal.signal(signal.SIGUSR1, handle)
    here = threading.get_ident()

    def once_one_waits(domain):
        def send():
            until(lambda: domain.waiting)
            signal.pthread_kill(here, signal.SIGUSR1)

        return Beside(send)

    yield once_one_waits
    signal.signal(signal.SIGUSR1, before)


def test_a_signal_interrupts_a_receive(interrupt):
    publisher, subscriber = pair()
    beside = interrupt(publisher.domain)
    with pytest.raises(Interrupt):
        subscriber.receive(None)
    beside.result()
    assert publisher.domain.waiting == 0 and publisher.send_copy(1) == 1 and value(subscriber.receive()) == 1


@pytest.mark.usefixtures("interrupt")
def test_a_signal_just_before_the_sleep_isn_t_lost():
    publisher, subscriber = pair()
    here, domain = threading.get_ident(), publisher.domain

    def send():
        while not domain.waiting:
            pass  # it runs as soon as the wait lets other threads run, which is before the sleep
        signal.pthread_kill(here, signal.SIGUSR1)

    for _ in range(1000):
        beside = Beside(send)
        with pytest.raises(Interrupt):
            subscriber.receive(None)
        beside.result()


def test_a_signal_interrupts_a_send_which_isn_t_lost(interrupt):
    publisher, subscriber = pair(enable_safe_overflow=False)
    publisher.send_copy(1), publisher.send_copy(2)
    beside = interrupt(publisher.domain)
    with pytest.raises(Interrupt) as interrupted:
        publisher.send_copy(3)
    beside.result()
    assert interrupted.value.blocked.retry() is None  # it waits on
    assert value(subscriber.receive()) == 1 and interrupted.value.blocked.retry() == 1


def test_a_signal_interrupts_a_loan_s_send_before_it_is_sent(interrupt):
    publisher, subscriber = pair(enable_safe_overflow=False)
    loan = publisher.loan()
    publisher.send_copy(1), publisher.send_copy(2)
    first = waiting(publisher.domain, publisher.send_copy, 3)
    until(lambda: publisher.is_blocked)
    here, domain = threading.get_ident(), publisher.domain

    def send():
        until(lambda: domain.waiting == 2)
        signal.pthread_kill(here, signal.SIGUSR1)

    beside = Beside(send)
    with pytest.raises(Interrupt) as interrupted:
        loan.send()
    beside.result()
    assert not hasattr(interrupted.value, "blocked") and loan.is_live
    assert value(subscriber.receive()) == 1 and first.result() == 1
    loan.discard()


def test_a_signal_without_an_exception_leaves_a_wait():
    publisher, subscriber = pair()
    seen = []
    before = signal.signal(signal.SIGUSR1, lambda *_: seen.append(1))
    here, domain = threading.get_ident(), publisher.domain

    def send():
        until(lambda: domain.waiting)
        signal.pthread_kill(here, signal.SIGUSR1)
        until(lambda: seen)
        publisher.send_copy(5)

    beside = Beside(send)
    assert value(subscriber.receive(None)) == 5 and seen == [1]
    beside.result()
    signal.signal(signal.SIGUSR1, before)
