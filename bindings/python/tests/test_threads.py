# SPDX-License-Identifier: Apache-2.0 OR MIT
"""Threads that share ports."""
import threading

import pytest
from helpers import Beside, pair, until, value, waiting

import iox2_pubsub as ps


def test_everything_arrives_once_under_many_threads():
    domain = ps.Domain(7, "i8", max_publishers=3, enable_safe_overflow=False, subscriber_max_borrowed_samples=3)
    publishers, subscriber = [domain.publisher() for _ in range(3)], domain.subscriber()
    got, count, has_all = [], 200, threading.Event()

    def send(publisher, first):
        for n in range(count):
            publisher.send_copy(first + n)

    def read():
        for sample in subscriber.follow():
            got.append(value(sample))
            if len(got) == 3 * count:
                has_all.set()
                domain.stop_waits()

    senders = [Beside(send, publisher, 10_000 * k) for k, publisher in enumerate(publishers)]
    readers = [Beside(read), Beside(read)]
    [thread.result() for thread in senders + readers]
    assert has_all.is_set() and sorted(got) == [10_000 * k + n for k in range(3) for n in range(count)]


def test_threads_share_one_publisher():
    """One waits for room, the others for its end and for loans: each has to be woken by what helps it."""
    publisher, subscriber = pair(enable_safe_overflow=False)
    got, count = [], 100

    def send(first):
        for n in range(count):
            if n % 3:
                publisher.send_copy(first + n)
            else:
                loan = publisher.loan(timeout=None)
                loan.array[()] = first + n
                loan.send()

    senders = [Beside(send, 1000 * k) for k in range(4)]
    for _, sample in zip(range(4 * count), subscriber.follow()):
        got.append(value(sample))
    [sender.result() for sender in senders]
    assert sorted(got) == [1000 * k + n for k in range(4) for n in range(count)]


def test_a_loan_is_used_by_nobody_while_its_send_waits():
    publisher, subscriber = pair(enable_safe_overflow=False)
    loans = [publisher.loan(), publisher.loan()]
    for _ in range(2):
        loans[0].send()
        loans[0] = publisher.loan()
    first = waiting(publisher.domain, loans[0].send)
    second = waiting(publisher.domain, loans[1].send)  # waits for the end of the other, and isn't sent yet
    assert not loans[0].is_live and loans[1].is_live
    for call in (lambda: loans[1].array, lambda: memoryview(loans[1]), loans[1].send, loans[1].discard):
        with pytest.raises(ValueError, match="another thread sends the loan"):
            call()
    with pytest.raises(ValueError, match="sent or discarded"):
        loans[0].array
    assert [value(sample) for _, sample in zip(range(4), subscriber.follow())] == [0] * 4
    assert first.result() == second.result() == 1


def test_no_array_ever_shows_another_message():
    """Threads keep arrays for a while, over each use of the other slots."""
    domain = ps.Domain(7, "i8", 32, max_publishers=2, subscriber_max_borrowed_samples=6, subscriber_max_buffer_size=4)
    ended, wrong = threading.Event(), []

    def send(publisher, first):
        for n in range(first, 4000, 2):
            with publisher.loan_uninit() as loan:
                loan.array[:] = n
                if n % 5:
                    loan.send()

    def read(subscriber):
        kept, seen = [], 0
        while not ended.is_set():
            sample = subscriber.receive(None)
            if sample is None:
                break
            array, seen = sample.array, seen + 1
            kept.append((array[1:] if seen % 2 else array, int(array[0])))
            del sample, array
            if len(kept) > 5:
                array, number = kept.pop(len(kept) // 2)
                if (array != number).any():
                    wrong.append(number)
                del array
        return seen

    readers = [waiting(domain, read, domain.subscriber()) for _ in range(3)]
    senders = [Beside(send, domain.publisher(), k) for k in range(2)]
    [sender.result() for sender in senders]
    ended.set()
    domain.stop_waits()
    assert all(reader.result() > 0 for reader in readers) and not wrong


def test_a_thread_closes_a_port_that_others_use():
    publisher, subscriber = pair()
    readers = [waiting(publisher.domain, subscriber.receive, None) for _ in range(3)]
    assert publisher.domain.waiting == 3
    subscriber.close()
    for reader in readers:
        with pytest.raises(ps.NotLive):
            reader.result()


def test_handles_go_on_other_threads():
    publisher, subscriber = pair("i8", 4)
    publisher.send_copy([1, 2])
    sample = subscriber.receive()
    array = sample.array

    def drop(holder):
        holder.clear()

    holder = [sample, array, publisher.loan()]
    del sample, array
    Beside(drop, holder).result()
    until(lambda: not holder)
    assert publisher.domain.book_count == 1 and len([publisher.loan(), publisher.loan()]) == 2
