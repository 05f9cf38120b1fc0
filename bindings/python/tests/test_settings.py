# SPDX-License-Identifier: Apache-2.0 OR MIT
"""Each setting by two values, and what is read back."""
import numpy as np
import pytest
from helpers import pair, value

import iox2_pubsub as ps


def test_settings_are_read_back():
    given = dict(
        service_id=7 << 100, node_id=1 << 127, max_publishers=3, max_subscribers=4, subscriber_max_buffer_size=5,
        subscriber_max_borrowed_samples=6, history_size=1, number_of_channels=2, subscriber_expired_connection_buffer=9,
        publisher_max_loaned_samples=8, enable_safe_overflow=False, backpressure_strategy=ps.BackpressureStrategy.DISCARD_DATA,
    )  # fmt: skip
    read = ps.Domain(dtype="f4", max_len=10, **given).settings
    assert read == ps.DomainSettings(payload_size=40, payload_alignment=4, **given)
    assert read.enable_safe_overflow is False and read.backpressure_strategy is ps.BackpressureStrategy.DISCARD_DATA
    defaults = ps.Domain(0, bytes, 3).settings
    assert defaults[:8] == (0, 0, 3, 1, 2, 8, 2, 2) and defaults.enable_safe_overflow is True


def test_numbers_of_numpy_are_settings():
    assert ps.Domain(np.int64(7), "f4", np.uint8(3), history_size=np.int32(2)).settings.history_size == 2


@pytest.mark.parametrize("number", [1, 3])
def test_max_publishers(number):
    domain = ps.Domain(7, "i8", max_publishers=number)
    kept = [domain.publisher() for _ in range(number)]
    with pytest.raises(ps.PublisherExceedsMaxSupportedPublishers, match="max_publishers"):
        domain.publisher()
    kept.pop().close()
    assert domain.publisher().is_open


@pytest.mark.parametrize("number", [1, 3])
def test_max_subscribers(number):
    domain = ps.Domain(7, "i8", max_subscribers=number)
    kept = [domain.subscriber() for _ in range(number)]
    with pytest.raises(ps.SubscriberExceedsMaxSupportedSubscribers, match="max_subscribers"):
        domain.subscriber()
    del kept


@pytest.mark.parametrize("number", [1, 4])
def test_subscriber_max_buffer_size_and_buffer_size(number):
    domain = ps.Domain(7, "i8", subscriber_max_buffer_size=number)
    publisher, subscriber, short = domain.publisher(), domain.subscriber(), domain.subscriber(buffer_size=1)
    assert subscriber.buffer_size == number and short.buffer_size == 1
    [publisher.send_copy(n) for n in range(6)]
    assert [value(sample) for sample in subscriber] == list(range(6 - number, 6)) and [value(sample) for sample in short] == [5]
    with pytest.raises(ps.SubscriberBufferSizeExceedsMax, match="lower buffer_size"):
        domain.subscriber(buffer_size=number + 1)


@pytest.mark.parametrize("number", [1, 3])
def test_subscriber_max_borrowed_samples(number):
    publisher, subscriber = pair(subscriber_max_borrowed_samples=number, subscriber_max_buffer_size=8)
    [publisher.send_copy(n) for n in range(5)]
    kept = [subscriber.receive() for _ in range(number)]
    with pytest.raises(ps.ReceiveExceedsMaxBorrows, match="subscriber_max_borrowed_samples"):
        subscriber.receive()
    kept.clear()
    assert value(subscriber.receive()) == number


@pytest.mark.parametrize("number", [0, 2])
def test_history_size(number):
    domain = ps.Domain(7, "i8", history_size=number, subscriber_max_buffer_size=8)
    publisher = domain.publisher()
    [publisher.send_copy(n) for n in range(5)]
    assert [value(sample) for sample in domain.subscriber()] == list(range(5 - number, 5))


@pytest.mark.parametrize("number", [1, 3])
def test_publisher_max_loaned_samples_and_max_loaned_samples(number):
    domain = ps.Domain(7, "i8", publisher_max_loaned_samples=number)
    for publisher, many in [(domain.publisher(), number), (domain.publisher(max_loaned_samples=2), 2)]:
        kept = [publisher.loan() for _ in range(many)]
        with pytest.raises(ps.LoanExceedsMaxLoans, match="max_loaned_samples"):
            publisher.loan()
        del kept


@pytest.mark.parametrize("overflows", [True, False])
def test_enable_safe_overflow(overflows):
    publisher, subscriber = pair(enable_safe_overflow=overflows, backpressure_strategy=ps.BackpressureStrategy.DISCARD_DATA)
    assert [publisher.send_copy(n) for n in range(3)] == [1, 1, overflows]
    assert [value(sample) for sample in subscriber] == ([1, 2] if overflows else [0, 1])


@pytest.mark.parametrize("strategy", ps.BackpressureStrategy)
def test_backpressure_strategy_of_the_domain(strategy):
    publisher, _ = pair(enable_safe_overflow=False, backpressure_strategy=strategy)
    assert publisher.backpressure_strategy is strategy
    publisher.send_copy(1), publisher.send_copy(2)
    if strategy is ps.BackpressureStrategy.DISCARD_DATA:
        assert publisher.send_copy(3) == 0
    else:
        with pytest.raises(ps.SendBlocked):
            publisher.send_copy(3, timeout=0)


@pytest.mark.parametrize("number", [1, 3])
def test_subscriber_expired_connection_buffer(number):
    domain = ps.Domain(7, "i8", max_publishers=1, subscriber_max_borrowed_samples=1, subscriber_expired_connection_buffer=number)
    subscriber, kept = domain.subscriber(), []
    for n in range(number + 1):
        with domain.publisher() as publisher:
            publisher.send_copy(n)
            kept.append(subscriber.receive())
        if n < number:
            subscriber.update_connections()
    for call in (subscriber.update_connections, subscriber.has_samples):
        with pytest.raises(ps.ConnectionExpiredBufferFull, match="subscriber_expired_connection_buffer"):
            call()
    with pytest.raises(ps.ReceiveConnectionExpiredBufferFull, match="let go of them"):
        subscriber.receive()
    assert kept.pop().array == number
    assert subscriber.receive() is None


@pytest.mark.parametrize("alignment", [1, 16])
def test_alignment(alignment):
    publisher, _ = pair("u1", 48, alignment=alignment)
    assert publisher.domain.settings.payload_alignment == alignment
    assert publisher.loan().array.ctypes.data % alignment == 0


@pytest.mark.parametrize("number", [3, 5])
def test_max_len_and_initial_max_slice_len(number):
    domain = ps.Domain(7, "f4", number)
    publisher, longer = domain.publisher(), domain.publisher(initial_max_slice_len=7)
    assert publisher.initial_max_slice_len == number and longer.initial_max_slice_len == 7
    assert len(publisher.loan(number)) == len(publisher.loan()) == number and len(longer.loan()) == 7
    with pytest.raises(ps.LoanExceedsMaxLoanSize, match="max_len"):
        publisher.loan_uninit(number + 1)


@pytest.mark.parametrize("slots", [1, 3])
def test_preallocated_samples(slots):
    publisher = ps.Domain(7, "i8", publisher_max_loaned_samples=5).publisher(preallocated_samples=slots)
    kept = [publisher.loan() for _ in range(slots)]
    with pytest.raises(ps.LoanOutOfMemory, match="preallocated_samples"):
        publisher.loan()
    del kept


@pytest.mark.parametrize("strategy", ps.AllocationStrategy)
def test_allocation_strategy(strategy):
    domain = ps.Domain(7, "u1", 4)
    publisher, subscriber = domain.publisher(allocation_strategy=strategy), domain.subscriber()
    kept = publisher.loan(4)
    kept.array[:] = 1
    if strategy is ps.AllocationStrategy.STATIC:
        with pytest.raises(ps.LoanExceedsMaxLoanSize, match="allocation_strategy"):
            publisher.loan(100)
        return
    long = publisher.loan(100)
    assert long.array.shape == (100,) and not long.array.any()
    assert long.send() == 1 and len(subscriber.receive()) == 100
    assert kept.array.tolist() == [1] * 4  # the earlier memory stays
    assert publisher.send_copy(bytes(5000)) == 1 and len(subscriber.receive()) == 5000


def recording_of(**settings):
    """Of a message of two bytes."""
    publisher, subscriber = pair("u2", **settings)
    publisher.send_copy(0x0201)
    assert value(subscriber.receive()) == 0x0201
    return publisher.domain.recording()


def test_as_much_is_recorded_as_is_asked():
    assert recording_of() == ("", 0)
    one, two = recording_of(record=(20, 1)), recording_of(record=(20, 2))
    assert "send 4 = delivered 1" in one.text and (" 1 = value 2\n" in one.text, " 1 = value 2\n" in two.text) == (False, True)
    assert one.missed == two.missed == 0 and recording_of(record=(2, 20)).missed > 0


REFUSED = 1 << 50  # a buffer so long that a connection can't be made


def refusal(publishing=None, subscribing=None):
    """The warnings of a domain where the port that is made last is refused its connection."""
    domain = ps.Domain(7, "u1", subscriber_max_buffer_size=REFUSED)
    ignores = ps.DegradationAction.IGNORE
    kept = [domain.subscriber()] if subscribing is None else [domain.publisher(preallocated_samples=1, degradation=ignores)]
    if subscribing is None:
        kept.append(domain.publisher(preallocated_samples=1, degradation=publishing))
    else:
        kept.append(domain.subscriber(degradation=subscribing))
    assert domain.refused_connections == (1 if subscribing is None else 2)  # by the publishers too, which connect at once
    return domain.warnings, kept


@pytest.mark.parametrize(
    "degradation, of_publisher, of_subscriber",
    [
        (ps.DegradationAction.IGNORE, None, None),
        (ps.DegradationAction.WARN, ps.WarningKind.CONNECTION_NOT_MADE, ps.WarningKind.CONNECTION_NOT_MADE),
        (ps.DegradationAction.FAIL, ps.WarningKind.PUBLISHER_PARTLY_CONNECTED, ps.WarningKind.SUBSCRIBER_PARTLY_CONNECTED),
    ],
)
def test_a_refused_connection_is_ignored_warned_of_or_fails_the_call(degradation, of_publisher, of_subscriber):
    warnings, (_, publisher) = refusal(publishing=degradation)
    assert [warning.kind for warning in warnings] == ([] if of_publisher is None else [of_publisher])
    assert all(warning.publisher == publisher.id for warning in warnings)
    warnings, (_, subscriber) = refusal(subscribing=degradation)
    assert [warning.kind for warning in warnings] == ([] if of_subscriber is None else [of_subscriber])
    assert all(warning.subscriber == subscriber.id for warning in warnings)
    if degradation is ps.DegradationAction.FAIL:
        assert warnings[0].failure == ps.ConnectionOutOfMemory.code


@pytest.mark.parametrize("degradation", ps.DegradationAction)
def test_a_subscriber_whose_connection_is_refused_later_answers_as_its_options_say(degradation):
    domain = ps.Domain(7, "u1", subscriber_max_buffer_size=REFUSED)
    subscriber = domain.subscriber(degradation=degradation)
    for refused, call in [(ps.ConnectionOutOfMemory, subscriber.update_connections), (ps.ReceiveConnectionOutOfMemory, subscriber.receive)]:
        with domain.publisher(preallocated_samples=1):
            if degradation is not ps.DegradationAction.FAIL:
                assert call() is None
                continue
            with pytest.raises(refused, match="memory for a connection was refused") as error:
                call()
            assert isinstance(error.value, MemoryError)


def test_answers_of_a_domain():
    publisher, subscriber = pair(history_size=3)
    domain = publisher.domain
    assert (domain.connection_count, domain.book_count, domain.refused_connections) == (1, 1, 0)
    assert domain.worst_case_slots() == 8 * (2 + 2) + 3 + 2 and domain.worst_case_slots(loans=9) == 8 * 4 + 3 + 9
    subscriber.close()
    publisher.update_connections()
    assert domain.connection_count == 0


@pytest.mark.parametrize("borrowed", [3, 4])
def test_less_room_than_borrowed_samples_is_warned_of(borrowed):
    domain = ps.Domain(7, "u1", subscriber_expired_connection_buffer=3, subscriber_max_borrowed_samples=borrowed)
    subscriber = domain.subscriber()
    warned = ps.Warning(ps.WarningKind.EXPIRED_BUFFER_RAISED, None, subscriber.id, None)
    assert domain.warnings == ([] if borrowed == 3 else [warned])


def test_lost_messages_of_closed_publishers_are_warned_of():
    domain = ps.Domain(7, "u1", max_publishers=1, subscriber_max_borrowed_samples=1, subscriber_expired_connection_buffer=1)
    subscriber = domain.subscriber()
    for n in range(3):
        with domain.publisher() as publisher:
            subscriber.update_connections()
            if n < 2:
                publisher.send_copy(1)
    assert [warning.kind for warning in domain.warnings] == [ps.WarningKind.EXPIRED_DATA_DISCARDED]


@pytest.mark.parametrize(
    "settings, kind, words",
    [
        ({"buffer": 3}, TypeError, "buffer"),
        ({"backpressure_strategy": 9}, ps.InvalidBackpressureStrategy, "is a BackpressureStrategy"),
        ({"backpressure_strategy": "retry"}, TypeError, "is one of BackpressureStrategy.RETRY_UNTIL_DELIVERED, .*, not 'retry'"),
        ({"max_subscribers": -1}, ValueError, "max_subscribers is a number from 0"),
        ({"max_subscribers": 1 << 64}, ValueError, "max_subscribers is a number from 0"),
        ({"history_size": "3"}, TypeError, "history_size is an integer, not '3'"),
        ({"history_size": 1.5}, TypeError, "integer"),
        ({"node_id": -1}, ValueError, "node_id is a number from 0 to 2"),
        ({"service_id": 1 << 128}, ValueError, "service_id is a number from 0 to 2"),
        ({"service_id": "x"}, TypeError, "service_id is an integer, not 'x'"),
        ({"alignment": 3}, ps.InvalidPayloadAlignment, "1, 2, 4, 8 or 16"),
        ({"alignment": 32}, ps.InvalidPayloadAlignment, "1, 2, 4, 8 or 16"),
        ({"alignment": 16}, ps.InvalidPayloadSize, "max_len or alignment"),
        *(({"max_len": wrong}, ValueError, "max_len, the greatest number of values of a message, is a number from 1") for wrong in (0, -1, 1 << 60, 1 << 63)),
        *(({"max_len": wrong}, TypeError, "max_len, .*, is an integer") for wrong in (1.5, "3")),
        ({"record": 5}, TypeError, "record is a pair"),
        ({"record": (1, 2, 3)}, TypeError, "record is a pair"),
        *(({"record": wrong}, ValueError, "number of (commands|bytes) in record is a number from 0") for wrong in ((-1, 1), (1, -1), (1 << 63, 1), (1, 1 << 70))),
        *(({"record": wrong}, TypeError, "number of (commands|bytes) in record is an integer") for wrong in (("1", 1), (1, 1.5))),
        ({"max_len": None, "dtype": bytes}, TypeError, "max_len is missing"),
        ({"record": (1 << 62, 1)}, ps.OutOfMemory, "no memory"),
    ],
)
def test_bad_settings_are_refused_in_words(settings, kind, words):
    with pytest.raises(kind, match=words):
        ps.Domain(**{"service_id": 7, "dtype": "i8", "max_len": 3, **settings}).publisher()


@pytest.mark.parametrize(
    "options, kind",
    [
        ({"backpressure_strategy": 2}, ps.InvalidBackpressureStrategy),
        ({"backpressure_handler": 5}, ps.InvalidBackpressureHandler),
        ({"degradation": 1 << 40}, ps.InvalidDegradation),
        ({"allocation_strategy": 3}, ps.InvalidAllocationStrategy),
        *(({name: "x"}, TypeError) for name in ("backpressure_strategy", "backpressure_handler", "degradation", "allocation_strategy")),
        ({"allocation_strategy": 1, "initial_max_slice_len": 0}, ps.InvalidInitialMaxSliceLen),
        ({"max_loaned_samples": -1}, ValueError),
        ({"max_loaned_samples": (1 << 64) - 1}, ps.PublisherCreateError),
        ({"initial_max_slice_len": 1 << 61}, ValueError),
        ({"initial_max_slice_len": -1}, ValueError),
        ({"initial_max_slice_len": "3"}, TypeError),
        ({"initial_max_slice_len": 1.5}, TypeError),
        ({"other": 1}, TypeError),
    ],
)
def test_bad_options_of_a_publisher_are_refused(options, kind):
    domain = ps.Domain(7, "i8", 3)
    with pytest.raises(kind, match="|".join((*(f"{name} (is|makes) " for name in options), "lower .* limits|keyword argument"))):
        domain.publisher(**options)
    assert domain.publisher().is_open


@pytest.mark.parametrize("preallocated", [None, 5])
def test_settings_of_a_publisher_are_read_back(preallocated):
    domain = ps.Domain(7, "f4", 10)
    given = {
        "max_loaned_samples": 3, "initial_max_slice_len": 7, "preallocated_samples": preallocated,
        "backpressure_strategy": ps.BackpressureStrategy.DISCARD_DATA, "backpressure_handler": ps.BackpressureHandler.RETRY,
        "degradation": ps.DegradationAction.FAIL, "allocation_strategy": ps.AllocationStrategy.POWER_OF_TWO,
    }  # fmt: skip
    read = domain.publisher(**given).settings
    assert read._asdict() == given
    assert [type(one) for one in read[3:]] == [ps.BackpressureStrategy, ps.BackpressureHandler, ps.DegradationAction, ps.AllocationStrategy]


def test_settings_of_a_publisher_by_default_are_the_domain_s():
    domain = ps.Domain(7, "f4", 10, publisher_max_loaned_samples=6, backpressure_strategy=ps.BackpressureStrategy.DISCARD_DATA)
    assert domain.publisher().settings == (
        6, 10, None, ps.BackpressureStrategy.DISCARD_DATA, ps.BackpressureHandler.NONE, ps.DegradationAction.WARN, ps.AllocationStrategy.STATIC
    )


def test_settings_of_a_subscriber_are_read_back():
    domain = ps.Domain(7, "f4", subscriber_max_buffer_size=4)
    assert domain.subscriber().settings == (4, ps.DegradationAction.WARN)
    with domain.subscriber(buffer_size=0, degradation=ps.DegradationAction.IGNORE) as subscriber:
        pass
    assert subscriber.settings == (1, ps.DegradationAction.IGNORE)
