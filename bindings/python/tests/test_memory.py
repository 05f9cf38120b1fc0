# SPDX-License-Identifier: Apache-2.0 OR MIT
"""Python has no memory: each allocation of a call is refused in turn, and what was there before is there afterwards."""
import gc

import pytest
from helpers import pair, value

import iox2_pubsub as ps

_testcapi = pytest.importorskip("_testcapi", reason="this Python has no module for its own tests")
MOST = 2000


def refused_at(call, number):
    """Tries the call while this allocation is refused: what it raised and what it returned, one of which is None."""
    _testcapi.set_nomemory(number, number + 1)
    try:
        return None, call()
    except MemoryError as error:
        return error, None
    finally:
        _testcapi.remove_mem_hooks()


def refused_in_turn(call):
    """The same of one allocation after the other, until the call makes no more."""
    for number in range(MOST):
        refused, result = refused_at(call, number)
        yield refused, result
        if refused is None:
            return
    raise AssertionError("it is refused for good")


def test_a_receive_holds_nothing():
    publisher, subscriber = pair(subscriber_max_borrowed_samples=1)
    publisher.send_copy(0)
    for number, (refused, sample) in enumerate(refused_in_turn(subscriber.receive)):
        if refused:
            publisher.send_copy(number)
            assert value(subscriber.receive()) == number
            publisher.send_copy(number)
    assert number > 0 and value(sample) == number - 1


@pytest.mark.parametrize("call", ["loan", "loan_uninit"])
def test_a_loan_that_is_refused_holds_nothing(call):
    publisher, _ = pair(publisher_max_loaned_samples=1)
    for number, (_, loan) in enumerate(refused_in_turn(getattr(publisher, call))):
        assert loan is not None or publisher.loan().is_live
    assert number > 0 and loan.is_live


def test_a_copy_is_sent_whole_or_not_at_all():
    publisher, subscriber = pair("u4", 10_000)
    sent = bytes(range(4)) * 10_000
    for number, (refused, _) in enumerate(refused_in_turn(lambda: publisher.send_copy(sent))):
        got = [bytes(sample) for sample in subscriber]
        assert got == [sent] or (refused and got == [])
    assert number > 0 and got == [sent]


def blocked_send(publisher):
    """What a send at a full buffer leaves."""
    try:
        publisher.send_copy(3, timeout=0)
    except ps.SendBlocked as error:
        return error.blocked


def test_a_send_that_is_blocked_is_given_up_with_its_exception():
    publisher, subscriber = pair(enable_safe_overflow=False)
    publisher.send_copy(1), publisher.send_copy(2)
    for number in range(MOST):
        refused, blocked = refused_at(lambda: blocked_send(publisher), number)
        if blocked is not None:
            break
        del refused
        gc.collect()
        assert not publisher.is_blocked
    assert number > 0 and publisher.is_blocked and blocked.give_up() == 0
    assert [value(sample) for sample in subscriber] == [1, 2]


@pytest.mark.parametrize("call", ["publisher", "subscriber"])
def test_a_port_that_is_refused_isn_t_there(call):
    domain = ps.Domain(7, "i8", max_publishers=1, max_subscribers=1)
    for number, (_, port) in enumerate(refused_in_turn(getattr(domain, call))):
        if port is None:
            getattr(domain, call)().close()
    assert number > 0 and port.is_open


def ask(domain):
    return domain.settings, domain.warnings, domain.recording(), domain.worst_case_slots(), domain.book_count


def test_a_domain_and_its_answers_are_refused():
    for number, (_, domain) in enumerate(refused_in_turn(lambda: ps.Domain(7, "i8", subscriber_expired_connection_buffer=1, record=(20, 8)))):
        pass
    assert number > 0
    subscriber = domain.subscriber()
    for number, (_, answers) in enumerate(refused_in_turn(lambda: ask(domain))):
        pass
    assert number > 0 and answers == ask(domain) and len(answers[1]) == 1 and subscriber.is_open
