# SPDX-License-Identifier: Apache-2.0 OR MIT
"""Channels of connections."""
import pytest
from helpers import pair, value, waiting

import iox2_pubsub as ps

OPEN, CLOSED = ps.CHANNEL_STATE_OPEN, ps.CHANNEL_STATE_CLOSED


@pytest.mark.parametrize("number", [1, 3])
def test_number_of_channels(number):
    publisher, subscriber = pair(number_of_channels=number)
    connection = publisher.get_connection_id_of(subscriber.id)
    for channel in range(number):
        assert publisher.has_channel_state(channel, connection, OPEN) and subscriber.at_least_one_channel_has_state(channel, OPEN)
    loan = publisher.loan()
    for call in (
        lambda: publisher.has_channel_state(number, connection, OPEN),
        lambda: publisher.has_disconnect_hint(number, connection, OPEN),
        lambda: publisher.close_channel(number, connection, OPEN),
        lambda: subscriber.set_channel_state(number, OPEN),
        lambda: subscriber.at_least_one_channel_has_state(number, OPEN),
        lambda: subscriber.close_channel(number, OPEN),
        lambda: subscriber.set_disconnect_hint(number, OPEN),
        lambda: loan.deliver_offset_to_connection(number, connection),
    ):
        with pytest.raises(ps.NoSuchChannel, match="number_of_channels"):
            call()
    assert loan.is_live


def test_a_closed_channel_takes_no_message():
    publisher, subscriber = pair()
    connection = publisher.get_connection_id_of(subscriber.id)
    subscriber.close_channel(0, 5)  # it isn't in this state
    assert publisher.send_copy(1) == 1
    subscriber.close_channel(channel=0, expected=OPEN)
    assert publisher.has_channel_state(0, connection, CLOSED) and publisher.send_copy(2) == 0
    assert subscriber.set_channel_state(0, 5) and not subscriber.set_channel_state(0, 6)
    assert publisher.has_channel_state(0, connection, 5) and publisher.send_copy(3) == 1
    publisher.close_channel(0, connection, 5)
    assert subscriber.at_least_one_channel_has_state(0, CLOSED) and not subscriber.at_least_one_channel_has_state(0, 5)
    assert [value(sample) for sample in subscriber] == [1, 3]


def test_a_hint_goes_with_a_change_of_the_state():
    publisher, subscriber = pair()
    connection = publisher.get_connection_id_of(subscriber.id)
    subscriber.set_disconnect_hint(0, 9)
    assert not publisher.has_disconnect_hint(0, connection, OPEN)
    subscriber.set_disconnect_hint(0, OPEN)
    assert publisher.has_disconnect_hint(0, connection, OPEN) and not publisher.has_disconnect_hint(0, connection, 9)
    subscriber.close_channel(0, OPEN)
    assert not publisher.has_disconnect_hint(0, connection, CLOSED)


def test_a_message_goes_to_one_connection():
    publisher, subscriber = pair(number_of_channels=2)
    other = publisher.domain.subscriber()
    connection = publisher.get_connection_id_of(other.id)
    assert connection != publisher.get_connection_id_of(subscriber.id) and publisher.get_connection_id_of(1 << 100) is None
    for channel, to, took in [(0, connection, 1), (1, connection, 1), (0, 99, 0)]:
        loan = publisher.loan()
        loan.array[()] = 7
        assert loan.deliver_offset_to_connection(channel, to) == took and not loan.is_live
    assert subscriber.receive() is None and [value(sample) for sample in other] == [7]


def test_a_send_to_one_connection_waits_for_room_in_its_channel():
    publisher, subscriber = pair(enable_safe_overflow=False)
    connection = publisher.get_connection_id_of(subscriber.id)
    publisher.send_copy(1), publisher.send_copy(2)
    with pytest.raises(ps.SendBlocked) as refused:
        publisher.loan().deliver_offset_to_connection(0, connection, timeout=0)
    assert refused.value.blocked.give_up() == 0
    beside = waiting(publisher.domain, publisher.loan().deliver_offset_to_connection, 0, connection)
    subscriber.close_channel(0, OPEN)  # which it goes past
    assert beside.result() == 0


@pytest.mark.parametrize("state", [-1, 1 << 64])
def test_a_state_has_64_bits(state):
    _, subscriber = pair()
    with pytest.raises(ValueError, match="a channel's state is a number from 0"):
        subscriber.close_channel(0, state)
    with pytest.raises(ValueError, match="an id is a number from 0 to 2"):
        subscriber.domain.publisher().get_connection_id_of(1 << 128)


def test_a_channel_and_a_connection_are_numbers():
    publisher, subscriber = pair()
    loan = publisher.loan()
    for wrong, kind, words in [("0", TypeError, "is an integer, not '0'"), (-1, ValueError, "is a number from 0"), (1 << 64, ValueError, "is a number from 0")]:
        for call in (
            lambda: loan.deliver_offset_to_connection(wrong, 0), lambda: subscriber.close_channel(wrong, 0), lambda: subscriber.set_channel_state(wrong, 0),
            lambda: publisher.has_disconnect_hint(wrong, 0, 0),
        ):  # fmt: skip
            with pytest.raises(kind, match=f"a channel {words}"):
                call()
        for call in (lambda: loan.deliver_offset_to_connection(0, wrong), lambda: publisher.has_disconnect_hint(0, wrong, 0)):
            with pytest.raises(kind, match=f"a connection {words}"):
                call()
    assert loan.is_live
