# SPDX-License-Identifier: Apache-2.0 OR MIT
"""Calls that can't be right: each is an exception whose text says what to do, and leaves everything as it was."""
import gc
from datetime import datetime, timedelta

import numpy as np
import pytest
from helpers import pair, value

import iox2_pubsub as ps
from iox2_pubsub import _core


@pytest.mark.parametrize(
    "dtype, kind, words",
    [
        ("O", TypeError, "objects, which are references"),
        ([("a", "i4"), ("b", "O")], TypeError, "objects, which are references"),
        ("V0", ValueError, "no bytes: say a length"),
        ("S", ValueError, "no bytes: say a length"),
        (("i4", (0, 3)), ValueError, "no bytes"),
        ("no type", TypeError, "no type"),
        (object(), TypeError, ""),
    ],
)
def test_a_dtype_that_no_message_has_is_refused(dtype, kind, words):
    for max_len in (None, 3):
        with pytest.raises(kind, match=words):
            ps.Domain(7, dtype, max_len)


def test_a_dtype_s_alignment_is_the_slots():
    for dtype in ("u1", "u2", "f4", "f8", np.longdouble, np.dtype([("a", "u1"), ("b", "f8")]), np.dtype([("a", "u1"), ("b", "f8")], align=True)):
        publisher, subscriber = pair(dtype)
        with publisher.loan() as loan:
            assert loan.array.ctypes.data % np.dtype(dtype).alignment == 0
            assert loan.array.flags.aligned or np.dtype(dtype).alignment == 1
            loan.send()
        assert subscriber.receive().array.dtype == dtype


def test_a_packed_array_is_sent_aligned():
    packed = np.zeros(3, np.dtype([("a", "u1"), ("b", "f8")]))["b"]
    packed[:] = 1, 2, 3
    assert not packed.flags.aligned
    publisher, subscriber = pair("f8", 4)
    assert publisher.send_copy(packed) == 1 and subscriber.receive().array.tolist() == [1, 2, 3]


@pytest.mark.parametrize(
    "max_len, message",
    [
        (None, [1, 2, 3]),
        (None, np.zeros((1,))),
        (None, np.zeros((0,))),
        (8, 5),
        (8, np.zeros((2, 3))),
        (8, [[1, 2], [3, 4]]),
    ],
)
def test_a_wrong_shape_is_refused(max_len, message):
    publisher, subscriber = pair("f4", max_len)
    with pytest.raises(ValueError, match="a message of this domain has the shape .*: reshape the array"):
        publisher.send_copy(message)
    assert subscriber.receive() is None


@pytest.mark.parametrize("message", [np.zeros(3), np.float64(1.5), "abc", {"a": 1}, [1, None], np.zeros(3, "O")])
def test_a_wrong_type_is_refused(message):
    publisher, subscriber = pair("i4", 8)
    with pytest.raises(TypeError, match="has no values of int32: make them of it"):
        publisher.send_copy(message)
    assert subscriber.receive() is None


PAIR, NESTED = [("a", "u1"), ("b", "f4")], [("pose", [("x", "i4"), ("t", "M8[s]")]), ("v", "f4", (3,)), ("tag", "S2")]
NOON = np.datetime64("2026-11-30T12:00:00")


@pytest.mark.parametrize(
    "dtype, message",
    [
        ("f8", None), ("f8", "1.5"), ("f8", 1j), ("i4", 1.0), ("i4", 1 << 40), ("u1", 300), ("u1", -1), ("u8", -1), ("u8", 1 << 64),
        ("i1", np.int64(200)), ("u2", np.int32(-1)), ("i4", "7"), ("U3", "long"), ("S2", "long"), ("?", 2),
        ("f4", 1e300), ("f4", np.float64(-1e300)), ("f2", 70_000), ("c8", 1e300j), ("M8[D]", NOON), ("M8[D]", "2026-11-30T12:00"),
        ("M8[s]", datetime(2026, 11, 30, microsecond=1)), ("m8[s]", timedelta(milliseconds=1)), ("M8[s]", np.timedelta64(1, "s")),
        (PAIR, (300, 1.5)), (PAIR, (1, 1e300)), (PAIR, (1.5, 1)), (PAIR, (None, 1)), (PAIR, (1, None)), (PAIR, np.array((300, 1), [("a", "i4"), ("b", "f4")])),
        (NESTED, ((1, NOON), [1, 2, 3], b"long")), (NESTED, ((1, NOON + np.timedelta64(1, "ms")), [1, 2, 3], b"")), (NESTED, ((1 << 40, NOON), [1, 2, 3], b"")),
    ],
)  # fmt: skip
def test_what_would_become_another_value_is_refused(dtype, message):
    publisher, subscriber = pair(dtype)
    with pytest.raises((TypeError, ValueError), match="has no room for .*: make the domain of a wider type|has no values of .*: make them of it"):
        publisher.send_copy(message)
    assert subscriber.receive() is None


@pytest.mark.parametrize(
    "dtype, message",
    [
        (PAIR, 5), (PAIR, "ab"), (PAIR, {"a": 1, "b": 2}), (PAIR, None), (PAIR, np.int64(5)), (PAIR, np.array((1, 2), [("b", "u1"), ("a", "f4")])),
        (PAIR, np.array((1, 2), [("a", "u1"), ("c", "f4")])), (PAIR, np.zeros((), "V5")), (NESTED, (5, [1, 2, 3], b"")),
    ],
)  # fmt: skip
def test_what_has_no_such_fields_is_refused(dtype, message):
    publisher, subscriber = pair(dtype)
    with pytest.raises(TypeError, match="a struct of .* (is given as a tuple, or by an array|isn't made of .*: name its fields so)"):
        publisher.send_copy(message)
    publisher, _ = pair(dtype, 3)
    with pytest.raises(TypeError, match="a struct of .* (is given as a tuple, or by an array|isn't made of .*: name its fields so)"):
        publisher.send_copy([message, message])
    assert subscriber.receive() is None


@pytest.mark.parametrize("message", [(1,), (1, 2, 3, 4), ((1, NOON), [1, 2], b""), ((1, NOON), 1.5, b""), ((1, NOON), np.zeros((1, 3)), b"")])
def test_a_struct_of_another_shape_is_refused(message):
    publisher, subscriber = pair(NESTED)
    with pytest.raises(ValueError, match="structure with 3 fields|v has the shape .*: reshape it"):
        publisher.send_copy(message)
    assert subscriber.receive() is None


@pytest.mark.parametrize("layout", [{}, {"align": True}])
def test_a_struct_is_sent_from_tuples_and_from_arrays_with_its_fields(layout):
    message = ((1, NOON), [1, 2, 3], b"ab")
    wanted = np.array([message, message], np.dtype(NESTED, **layout))
    wider = wanted.astype([("pose", [("x", "i8"), ("t", "M8[us]")]), ("v", "f8", (3,)), ("tag", "S4")])
    publisher, subscriber = pair(wanted.dtype, 4)
    for given in ([message, message], wanted, wider, [wanted[0], message], list(wanted)):
        assert publisher.send_copy(given) == 1 and str(subscriber.receive().array) == str(wanted)
    publisher, subscriber = pair(wanted.dtype)
    for given in (message, wanted[0], wider[1], wanted[:1].reshape(()), np.rec.array(wanted)[0]):
        assert publisher.send_copy(given) == 1 and str(subscriber.receive().array) == str(wanted[0])


@pytest.mark.parametrize("dtype", ["i4", "f8", PAIR, ("u1", (2, 4))])
def test_bytes_are_sent_as_they_are_and_so_is_another_message(dtype):
    publisher, subscriber = pair(dtype, 4)
    size = np.dtype(dtype).itemsize
    sent = bytes(range(1, 2 * size + 1))
    for given in (sent, bytearray(sent), memoryview(sent)):
        assert publisher.send_copy(given) == 1 and bytes(subscriber.receive()) == sent
        with pytest.raises(ValueError, match="bytes are no message: one value of the domain has"):
            publisher.send_copy(given[1:] if size > 1 else given * 3)
    publisher.send_copy(sent)
    loan, sample = publisher.loan(1), subscriber.receive()
    memoryview(loan)[:] = sent[:size]
    for given, wanted in ((sample, sent), (memoryview(sample), sent), (sample.array, sent), (loan, sent[:size])):
        assert publisher.send_copy(given) == 1 and bytes(subscriber.receive()) == wanted


@pytest.mark.parametrize(
    "dtype, message",
    [
        ("f8", 3), ("f4", 1.5), ("f8", True), ("i4", True), ("u1", 255), ("i1", -128), ("u8", (1 << 64) - 1), ("u2", np.int64(7)),
        ("i4", np.uint8(7)), ("c16", 1.5), ("U3", "abc"), ("?", True), ("M8[s]", NOON), ("M8[s]", "2026-11-30"), ("M8[s]", datetime(2026, 11, 30)), ("M8[s]", 5),
        ("m8[s]", timedelta(seconds=3)), ("f4", float("inf")), ("f2", 65_504), ("f4", np.float64(0.5)),
    ],
)  # fmt: skip
def test_what_keeps_its_value_is_sent(dtype, message):
    publisher, subscriber = pair(dtype)
    assert publisher.send_copy(message) == 1 and subscriber.receive().array == np.asarray(message, dtype)


@pytest.mark.parametrize("dtype", ["f4", "M8[s]"])
def test_a_number_is_rounded_and_what_is_none_stays_so(dtype):
    publisher, subscriber = pair(dtype, 2)
    nothing = np.dtype(dtype).type("nan" if dtype == "f4" else "NaT")
    publisher.send_copy([0.1, nothing] if dtype == "f4" else [NOON, nothing])
    got = subscriber.receive().array
    assert np.isnan(got).tolist() == [False, True] and got[0] == (np.float32(0.1) if dtype == "f4" else NOON)


def test_a_list_of_nothing_is_an_empty_message():
    publisher, subscriber = pair("i4", 3)
    assert publisher.send_copy([]) == 1 and subscriber.receive().array.shape == (0,)


@pytest.mark.parametrize("message", [b"", b"abc", bytes(9)])
def test_a_wrong_number_of_bytes_is_refused(message):
    publisher, _ = pair("f8")
    with pytest.raises(ValueError, match=f"{len(message)} bytes are no message: one value of the domain has 8"):
        publisher.send_copy(message)


@pytest.mark.parametrize("message", [3, None, "text", [1, 2]])
def test_what_is_no_buffer_is_no_message_of_bytes(message):
    publisher, _ = pair(bytes, 8)
    with pytest.raises(TypeError, match="bytes-like"):
        publisher.send_copy(message)


def test_a_buffer_with_gaps_is_refused():
    publisher, _ = pair(bytes, 8)
    with pytest.raises(BufferError, match="contiguous"):
        publisher.send_copy(memoryview(bytes(8))[::2])


@pytest.mark.parametrize(
    "count, kind",
    [
        (9, ps.LoanExceedsMaxLoanSize), (1 << 62, ps.LoanExceedsMaxLoanSize), (1 << 63, ps.LoanExceedsMaxLoanSize),
        ((1 << 64) - 1, ps.LoanExceedsMaxLoanSize), (1 << 64, ValueError), (-1, ValueError), ("3", TypeError), (1.5, TypeError)
    ],
)  # fmt: skip
def test_a_length_that_no_message_has_is_refused(count, kind):
    publisher, _ = pair("f8", 8)
    for call in (publisher.loan, publisher.loan_uninit):
        with pytest.raises(kind):
            call(count)
    assert len(publisher.loan(np.int64(3))) == 3
    for strategy in (ps.AllocationStrategy.BEST_FIT, ps.AllocationStrategy.POWER_OF_TWO):
        growing = ps.Domain(7, "f8", 8).publisher(allocation_strategy=strategy)
        if count != 9:
            with pytest.raises((ps.LoanError, kind)):
                growing.loan(count)
        assert len(growing.loan(9)) == 9


def test_a_message_of_one_value_has_no_other_length():
    publisher, _ = pair("f8")
    for count in (0, 2, 1 << 63):
        with pytest.raises(ValueError, match="is one value: make the domain with max_len"):
            publisher.loan(count)
    assert len(publisher.loan(1)) == 1


def test_closed_ports_are_refused():
    publisher, subscriber = pair()
    waits = subscriber.receive
    with publisher, subscriber:
        pass
    assert not publisher.is_open and not subscriber.is_open
    for call in (
        publisher.loan, publisher.loan_uninit, lambda: publisher.send_copy(1), publisher.update_connections, lambda: publisher.is_blocked,
        waits, lambda: subscriber.receive(None), subscriber.has_samples, subscriber.update_connections, publisher.fileno, subscriber.fileno,
        lambda: list(subscriber), lambda: subscriber.close_channel(0, 0), lambda: publisher.get_connection_id_of(1)
    ):  # fmt: skip
        with pytest.raises(ps.NotLive, match="the port was closed"):
            call()


def test_a_closed_domain_is_refused_and_its_messages_stay():
    publisher, subscriber = pair("i8", 4)
    with publisher.domain as domain:
        publisher.send_copy([1, 2]), publisher.send_copy([3])
        sample, loan = subscriber.receive(), publisher.loan()
        array, view = subscriber.receive().array, loan.array
    assert domain.is_closed and not publisher.is_open and not subscriber.is_open
    domain.close()
    for call in (domain.publisher, domain.subscriber):
        with pytest.raises(ps.NoDomain, match="the domain was closed: make another one"):
            call()
    with pytest.raises(ps.NotLive):
        publisher.loan()
    assert sample.array.tolist() == [1, 2] and array.tolist() == [3] and sample.header.publisher == publisher.id
    view[:] = 7
    del view
    with pytest.raises(ps.SendConnectionBrokenSinceSenderNoLongerExists):
        loan.send()
    del sample
    assert array.tolist() == [3] and domain.book_count == 1
    del array
    for call in (publisher.loan, subscriber.receive, lambda: domain.book_count, lambda: domain.warnings, domain.recording):
        with pytest.raises(ps.NoDomain):
            call()
    assert domain.settings.service_id == 7 and repr(domain)


def test_a_view_outlives_its_domain():
    publisher, subscriber = pair("i8", 4)
    publisher.send_copy([1, 2, 3])
    with publisher.domain:
        kept = subscriber.receive().array[1:]
    del publisher, subscriber
    gc.collect()
    assert kept.tolist() == [2, 3]


def test_a_domain_is_closed_while_a_send_is_blocked():
    publisher, subscriber = pair(enable_safe_overflow=False)
    domain = publisher.domain
    publisher.send_copy(1), publisher.send_copy(2)
    with pytest.raises(ps.SendBlocked) as refused:
        publisher.send_copy(3, timeout=0)
    domain.close()
    assert publisher.is_open and not subscriber.is_open
    assert refused.value.blocked.retry() == 0 and not publisher.is_open
    with pytest.raises(ps.NoDomain):
        domain.book_count


def test_nothing_of_the_core_is_made_by_hand():
    for kind in (ps.Loan, ps.Sample, ps.Blocked, _core.Port):
        with pytest.raises(TypeError, match="cannot create"):
            kind()
    for kind in (ps.Publisher, ps.Subscriber, _core.Publisher, _core.Subscriber):
        for args in ((), (1, {}), (ps.Domain(7, "i8"), 1), (ps.Domain(7, "i8"), {"other": 1})):
            with pytest.raises(TypeError):
                kind(*args)
    with pytest.raises(TypeError):
        _core.Wait(1, 1)
    for kind in (ps.Loan, ps.Sample, ps.Blocked):
        with pytest.raises(TypeError, match="immutable"):
            kind.send = None
        with pytest.raises(TypeError, match="not an acceptable base"):
            type("Sub", (kind,), {})


def test_an_array_that_keeps_no_buffer_is_refused():
    publisher, subscriber = pair("i8", 4)
    publisher.send_copy([1, 2])
    for message in (publisher.loan(), subscriber.receive()):
        with pytest.raises(BufferError, match="keeps no buffer: take `array`"):
            np.ndarray(2, "i8", message)
        for kept in (lambda m: np.frombuffer(m, "i8"), np.asarray, lambda m: np.asarray(memoryview(m)), lambda m: m.array):
            array = kept(message)
            with pytest.raises(BufferError):
                message.discard() if isinstance(message, ps.Loan) else message.release()
            del array


class Raises:
    """Whatever is asked of it."""

    def __index__(self, *_):
        raise ZeroDivisionError

    __float__ = __array__ = __index__


def test_an_exception_of_the_caller_s_objects_comes_through():
    publisher, subscriber = pair("f8", 8)
    for call in (
        lambda: publisher.loan(Raises()), lambda: publisher.send_copy(Raises()), lambda: subscriber.receive(Raises()),
        lambda: publisher.send_copy(1, Raises()), lambda: ps.Domain(Raises(), "f8"), lambda: ps.Domain(7, "f8", history_size=Raises()),
        lambda: publisher.domain.publisher(max_loaned_samples=Raises()), lambda: subscriber.close_channel(Raises(), 0),
        lambda: publisher.get_connection_id_of(Raises()), lambda: publisher.domain.worst_case_slots(Raises())
    ):  # fmt: skip
        with pytest.raises(ZeroDivisionError):
            call()
    assert publisher.send_copy([1]) == 1 and len(subscriber.receive()) == 1


class Closes:
    """Closes a port while a call of it reads its arguments."""

    def __init__(self, port):
        self.port = port

    def __index__(self):
        self.port.close()
        return 1

    def __float__(self):
        return float(self.__index__())

    def __array__(self, *_):
        return np.zeros(self.__index__())


def test_a_port_that_an_argument_closes_is_refused():
    for call in (lambda p: p.loan(Closes(p)), lambda p: p.send_copy(Closes(p)), lambda p: p.loan(timeout=Closes(p)), lambda p: p.get_connection_id_of(Closes(p))):
        publisher, subscriber = pair("f8", 8)
        with pytest.raises(ps.NotLive):
            call(publisher)
    with pytest.raises(ps.NotLive):
        subscriber.receive(Closes(subscriber))


def test_the_buffer_of_an_argument_is_given_back():
    publisher, _ = pair(bytes, 8)
    sent = bytearray(b"abc")
    for _ in range(2):
        publisher.send_copy(sent)
        with pytest.raises(ps.LoanExceedsMaxLoanSize):
            publisher.send_copy(bytearray(9))
    sent.append(1)  # a bytearray with a view can't


def test_a_loan_is_no_message_of_its_own_domain_while_it_is_out():
    publisher, subscriber = pair(bytes, 8)
    loan = publisher.loan(3)
    memoryview(loan)[:] = b"abc"
    assert publisher.send_copy(loan) == 1 and loan.is_live and bytes(subscriber.receive()) == b"abc"


def test_cycles_are_collected():
    domain = ps.Domain(7, "i8")
    domain.publisher_of_mine = domain.publisher()
    domain.subscriber_of_mine = domain.subscriber()
    domain.publisher_of_mine.send_copy(1)
    domain.publisher_of_mine.loan_of_mine = domain.publisher_of_mine.loan()
    domain.sample_of_mine = domain.subscriber_of_mine.receive()

    class Gone:
        pass

    seen = []
    domain.gone = Gone()
    type(domain.gone).__del__ = lambda _: seen.append(1)
    del domain
    gc.collect()
    assert seen == [1]


def test_a_value_of_another_message_isn_t_shown_in_a_text():
    publisher, subscriber = pair()
    assert "Publisher" in repr(publisher) and "Subscriber" in repr(subscriber)
    publisher.send_copy(1)
    assert value(subscriber.receive()) == 1
