# SPDX-License-Identifier: Apache-2.0 OR MIT
"""Loans and samples: written and read in place, and never another message."""
import ctypes
import gc

import numpy as np
import pytest

import iox2_pubsub as ps

POSE = np.dtype([("x", "f8"), ("n", "u4"), ("tag", "S4")], align=True)


def pair(dtype=POSE, max_len=None, **settings):
    domain = ps.Domain(7, dtype, max_len, **settings)
    return domain.publisher(), domain.subscriber()


def test_a_struct_is_written_and_read_in_place():
    publisher, subscriber = pair()
    with publisher.loan() as loan:
        loan.array["x"] = 1.5
        loan.array["n"], loan.array["tag"] = 3, b"ab"
        assert loan.send() == 1
    with subscriber.receive() as sample:
        assert sample.array["x"] == 1.5 and sample.array["tag"] == b"ab"
        assert sample.array.dtype == POSE and sample.array.shape == ()
        assert sample.origin == publisher.id and sample.subscriber == subscriber.id
        with pytest.raises(ValueError, match="read-only"):
            sample.array["x"] = 2
    assert subscriber.receive() is None


def test_nothing_is_copied_from_loan_to_sample():
    publisher, subscriber = pair("f4", 1 << 18)
    loan = publisher.loan_uninit()
    at = loan.array.ctypes.data
    assert at % 4 == 0 and loan.array.shape == (1 << 18,)
    loan.send()
    assert subscriber.receive().array.ctypes.data == at


def test_a_loan_is_zeros_and_an_uninit_one_is_what_lay_there():
    publisher, subscriber = pair("u4", 4)
    for _ in range(100):  # until each slot was used
        publisher.send_copy([7, 7, 7, 7])
        subscriber.receive()
    assert publisher.loan_uninit().array.tolist() == [7] * 4
    assert publisher.loan().array.tolist() == [0] * 4


def test_a_frame_is_an_array_of_its_shape():
    publisher, subscriber = pair(np.dtype(("u1", (4, 6, 3))))
    with publisher.loan() as loan:
        loan.array[2, 3] = 1, 2, 3
        loan.send()
    frame = subscriber.receive().array
    assert frame.shape == (4, 6, 3) and frame[2, 3].tolist() == [1, 2, 3] and frame.sum() == 6
    publisher, subscriber = pair(np.dtype(("u1", (2, 2))), 3)
    assert publisher.send_copy(np.ones((2, 2, 2), "u1")) == 1
    sample = subscriber.receive()
    assert sample.array.shape == (2, 2, 2) and len(sample) == 2


def test_slices_and_copies():
    publisher, subscriber = pair("f4", 8)
    assert publisher.send_copy([1, 2, 3]) == 1
    assert publisher.send_copy(np.arange(10, dtype="f8")[::2]) == 1
    first, second = subscriber
    assert first.array.tolist() == [1, 2, 3] and second.array.tolist() == [0, 2, 4, 6, 8] and len(second) == 5
    del first, second
    assert publisher.send_copy(np.float32([9]).tobytes()) == 1 and subscriber.receive().array.tolist() == [9]


def test_a_long_copy_is_whole():
    publisher, subscriber = pair("u4", 1 << 16)
    sent = np.arange(1 << 16, dtype="u4")
    assert publisher.send_copy(sent) == 1
    assert (subscriber.receive().array == sent).all()


def test_an_empty_message():
    publisher, subscriber = pair("f4", 8)
    loan = publisher.loan(0)
    assert len(loan) == 0 and loan.array.size == 0
    assert loan.send() == 1 and publisher.send_copy([]) == 1
    assert [len(sample) for sample in subscriber] == [0, 0]


def test_bytes_are_memoryviews():
    publisher, subscriber = pair(bytes, 5)
    publisher.send_copy(b"hello")
    sample = subscriber.receive()
    assert bytes(sample) == b"hello" and sample.array.readonly and isinstance(sample.array, memoryview)
    loan = publisher.loan(3)
    with loan.array as view:
        view[:] = b"abc"
    loan.send()
    assert subscriber.receive().array == b"abc"
    assert publisher.send_copy(bytearray(b"de")) == 1 and subscriber.receive().array == b"de"


def test_a_struct_of_ctypes_is_a_dtype():
    class Pose(ctypes.Structure):
        _fields_ = [("x", ctypes.c_double), ("n", ctypes.c_uint32)]

    publisher, subscriber = pair(Pose)
    with publisher.loan() as loan:
        Pose.from_buffer(loan).n = 3
        gc.collect()  # ctypes' object is in a cycle
        loan.send()
    assert subscriber.receive().array["n"] == 3


def test_a_view_that_outlives_its_sample_keeps_the_slot():
    publisher, subscriber = pair("i8", 4)
    publisher.send_copy([1, 2, 3, 4])
    with subscriber.receive() as sample:
        kept = sample.array[1:]
    del sample
    for n in range(200):  # each slot is used again, but that one
        publisher.send_copy([n] * 4)
        subscriber.receive()
    assert kept.tolist() == [2, 3, 4]
    publisher.send_copy([0]), publisher.send_copy([0])
    one = subscriber.receive()
    with pytest.raises(ps.ReceiveExceedsMaxBorrows):
        subscriber.receive()  # the view counts as borrowed
    del kept
    assert subscriber.receive() is not None
    del one


def test_a_loan_with_a_view_is_not_sent():
    publisher, subscriber = pair("i8", 4)
    loan = publisher.loan()
    view = loan.array
    for call in (loan.send, loan.discard, lambda: loan.deliver_offset_to_connection(0, 0)):
        with pytest.raises(BufferError, match=r"are alive \(1\): let go of them first"):
            call()
    view[:] = 7
    del view
    assert loan.send() == 1
    for call in (lambda: loan.array, lambda: memoryview(loan), lambda: len(loan), loan.send, loan.__enter__):
        with pytest.raises(ValueError, match="sent or discarded"):
            call()
    assert subscriber.receive().array.tolist() == [7] * 4


def test_a_sample_with_a_view_is_not_released():
    publisher, subscriber = pair("i8")
    publisher.send_copy(1)
    sample = subscriber.receive()
    view = sample.array
    with pytest.raises(BufferError, match="release"):
        sample.release()
    assert view == 1 and sample.is_live
    del view
    sample.release(), sample.release()
    for call in (lambda: sample.array, lambda: memoryview(sample), lambda: len(sample), sample.__enter__):
        with pytest.raises(ValueError, match="was released"):
            call()


def test_a_left_sample_goes_with_its_last_view():
    publisher, subscriber = pair("i8", subscriber_max_borrowed_samples=1)
    publisher.send_copy(1), publisher.send_copy(2)
    with subscriber.receive() as sample:
        kept = sample.array
    with pytest.raises(ValueError, match="released"):
        sample.array
    with pytest.raises(ps.ReceiveExceedsMaxBorrows):
        subscriber.receive()
    del kept
    assert not sample.is_live and subscriber.receive().array == 2


def test_what_is_left_is_given_back():
    publisher, subscriber = pair()
    for _ in range(10):
        publisher.loan()
        with publisher.loan() as loan:
            pass
        assert not loan.is_live
        publisher.send_copy((1, 2, b""))
        subscriber.receive()
    first, second = publisher.loan(), publisher.loan()
    with pytest.raises(ps.LoanExceedsMaxLoans, match="send or discard one") as refused:
        publisher.loan()
    assert refused.value.code == 11 and isinstance(refused.value, ps.LoanError)
    del first, second


def test_samples_outlive_their_ports_and_domain():
    publisher, subscriber = pair("i8", 4)
    publisher.send_copy([1])
    sample = subscriber.receive()
    publisher.close(), subscriber.close(), subscriber.close()
    del publisher, subscriber
    gc.collect()
    assert sample.array.tolist() == [1]


def test_a_kept_array_keeps_no_subscriber_open():
    publisher, subscriber = pair("i8", 4, max_subscribers=2)
    publisher.send_copy([1])
    kept = subscriber.receive().array
    other = publisher.domain.subscriber()
    assert publisher.send_copy([2]) == 2
    del subscriber
    gc.collect()
    assert publisher.send_copy([3]) == 1 and kept.tolist() == [1]
    with pytest.raises(ps.SubscriberExceedsMaxSupportedSubscribers):
        publisher.domain.subscriber()  # a closed one counts until its last sample is released
    del kept
    assert publisher.domain.subscriber().is_open and other.is_open


def test_a_loan_keeps_its_publisher_open():
    publisher, subscriber = pair("i8")
    loan = publisher.loan()
    loan.array[()] = 3
    del publisher
    gc.collect()
    assert loan.send() == 1 and subscriber.receive().array == 3


def test_numbers_tell_messages_apart():
    publisher, subscriber = pair("i8", node_id=5 << 64)
    loans = [publisher.loan(), publisher.loan()]
    numbers = [loan.number for loan in loans]
    assert numbers[0] != numbers[1] and all(loan.publisher == publisher.id for loan in loans)
    [loan.send() for loan in loans]
    samples = list(subscriber)
    assert [sample.number for sample in samples] == numbers
    assert samples[0].header == (5 << 64, publisher.id, 1)
