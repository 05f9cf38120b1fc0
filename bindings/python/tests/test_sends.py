# SPDX-License-Identifier: Apache-2.0 OR MIT
"""Sends at full buffers."""
import gc

import pytest
from helpers import pair, value

import iox2_pubsub as ps


def full(**options):
    """A publisher whose subscriber has no room, in a domain that loses nothing."""
    domain = ps.Domain(7, "i8", enable_safe_overflow=False)
    publisher, subscriber = domain.publisher(**options), domain.subscriber()
    publisher.send_copy(1), publisher.send_copy(2)
    return publisher, subscriber


def blocked(publisher, number=3):
    with pytest.raises(ps.SendBlocked, match="retry `blocked` of this exception") as refused:
        publisher.send_copy(number, timeout=0)
    assert isinstance(refused.value, TimeoutError) and refused.value.code == 6
    return refused.value.blocked


def test_a_send_that_is_blocked_is_retried():
    publisher, subscriber = full()
    waits = blocked(publisher)
    assert publisher.is_blocked and waits.subscriber == subscriber.id
    assert waits.retry() is None and waits.retry(timeout=0.001) is None
    assert value(subscriber.receive()) == 1
    assert waits.retry() == 1 and not publisher.is_blocked
    assert [value(sample) for sample in subscriber] == [2, 3]


def test_a_send_that_has_ended_is_refused():
    publisher, subscriber = full()
    waits = blocked(publisher)
    assert value(subscriber.receive()) == 1 and waits.retry() == 1
    for call in (waits.retry, waits.give_up, lambda: waits.subscriber):
        with pytest.raises(ps.NotLive, match="the send has ended"):
            call()


def test_a_send_is_given_up_at_one_subscriber_after_the_other():
    publisher, subscriber = full()
    other = publisher.domain.subscriber()
    waits = blocked(publisher)
    assert waits.subscriber == subscriber.id and waits.give_up() == 1
    waits = blocked(publisher, 4)
    assert waits.give_up() == 1
    waits = blocked(publisher, 5)
    assert waits.give_up() is None and waits.subscriber == other.id
    assert waits.give_up() == 0
    assert [value(sample) for sample in subscriber] == [1, 2] and [value(sample) for sample in other] == [3, 4]


def test_a_send_that_is_dropped_is_given_up():
    publisher, subscriber = full()
    try:
        publisher.send_copy(3, timeout=0)
    except ps.SendBlocked as refused:
        kept = refused.blocked
    with pytest.raises(ps.PublisherIsBlocked):
        publisher.loan()
    del kept
    gc.collect()
    assert not publisher.is_blocked
    assert value(subscriber.receive()) == 1 and publisher.send_copy(4) == 1
    assert [value(sample) for sample in subscriber] == [2, 4]


def test_a_loan_that_is_blocked_is_consumed():
    publisher, subscriber = full()
    loan = publisher.loan()
    with pytest.raises(ps.SendBlocked) as refused:
        loan.send(timeout=0)
    assert not loan.is_live
    loan.discard()  # nothing is left of it
    assert value(subscriber.receive()) == 1 and refused.value.blocked.retry() == 1


def test_a_blocked_publisher_keeps_its_loans():
    publisher, subscriber = full()
    loan = publisher.loan()
    waits = blocked(publisher)
    for call in (publisher.loan, publisher.close, publisher.update_connections, lambda: loan.send(0), lambda: publisher.send_copy(4, 0)):
        with pytest.raises(ps.PublisherIsBlocked, match="retry that or give it up first"):
            call()
    assert loan.is_live and waits.give_up() == 0
    assert value(subscriber.receive()) == 1 and loan.send(0) == 1


def test_a_long_copy_that_is_blocked_is_retried():
    publisher, subscriber = pair("u4", 10_000, enable_safe_overflow=False)
    publisher.send_copy([1]), publisher.send_copy([2])
    with pytest.raises(ps.SendBlocked) as refused:
        publisher.send_copy([3] * 10_000, timeout=0)
    assert len(subscriber.receive()) == 1 and refused.value.blocked.retry() == 1
    assert [sample.array.sum() for sample in subscriber] == [2, 30_000]


def test_a_closed_subscriber_lets_a_send_go_on():
    publisher, subscriber = full()
    waits = blocked(publisher)
    subscriber.close()
    assert waits.subscriber == subscriber.id and waits.retry() == 0


def test_a_loan_of_a_closed_publisher_is_refused():
    publisher, _ = pair()
    loan = publisher.loan()
    publisher.close()
    with pytest.raises(ps.SendConnectionBrokenSinceSenderNoLongerExists, match="keep it open"):
        loan.send()
    assert not loan.is_live
    loan.discard()


@pytest.mark.parametrize(
    "options, third",
    [
        ({}, "blocked"),
        ({"backpressure_strategy": ps.BackpressureStrategy.RETRY_UNTIL_DELIVERED}, "blocked"),
        ({"backpressure_strategy": ps.BackpressureStrategy.DISCARD_DATA}, 0),
        ({"backpressure_handler": ps.BackpressureHandler.NONE}, "blocked"),
        ({"backpressure_handler": ps.BackpressureHandler.FOLLOW_STRATEGY}, "blocked"),
        ({"backpressure_handler": ps.BackpressureHandler.RETRY, "backpressure_strategy": ps.BackpressureStrategy.DISCARD_DATA}, "blocked"),
        ({"backpressure_handler": ps.BackpressureHandler.DISCARD_DATA}, 0),
        ({"backpressure_handler": ps.BackpressureHandler.DISCARD_DATA_AND_FAIL}, "failed"),
    ],
)
def test_each_strategy_and_handler_answers_at_a_full_buffer(options, third):
    publisher, subscriber = full(**options)
    assert publisher.backpressure_strategy is options.get("backpressure_strategy", ps.BackpressureStrategy.RETRY_UNTIL_DELIVERED)
    if third == "blocked":
        assert blocked(publisher).give_up() == 0
    elif third == "failed":
        with pytest.raises(ps.SendUnableToDeliver, match="others may have the message"):
            publisher.send_copy(3)
    else:
        assert publisher.send_copy(3) == third
    assert [value(sample) for sample in subscriber] == [1, 2]
