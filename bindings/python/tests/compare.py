# SPDX-License-Identifier: Apache-2.0 OR MIT
"""What a message costs in Python.

  compare.py times              a table of microseconds a message, beside Python's queues: each way in turn, round after round
  compare.py messages BYTES N   N messages in place, for a count of instructions
"""
import atexit
import multiprocessing
import os
import queue
import statistics
import sys
import time

import numpy as np

import iox2_pubsub as ps

ROUNDS = 9
SIZES = ((64, 4000), (1 << 20, 100))
# At most so much of multiprocessing.Queue's time a message takes to another process, at each of these.
MOST_OF_QUEUE = (0.5, 0.05)


def in_place(bytes_):
    """An array is written over the slot, and another reads it there."""
    domain = ps.Domain(7, "u8", bytes_ // 8)
    publisher, subscriber = domain.publisher(), domain.subscriber()

    def message(number):
        loan = publisher.loan_uninit()
        loan.array[0] = number
        loan.send()
        sample = subscriber.receive()
        return sample.array[0]

    return message


def in_memoryviews(bytes_):
    """The same without numpy: domains of bytes."""
    domain = ps.Domain(7, bytes, bytes_)
    publisher, subscriber = domain.publisher(), domain.subscriber()

    def message(number):
        loan = publisher.loan_uninit()
        with memoryview(loan) as view:
            view[0] = number & 255
        loan.send()
        return subscriber.receive().array[0]

    return message


def copied(bytes_):
    """An array is sent by a copy."""
    domain = ps.Domain(7, "u8", bytes_ // 8)
    publisher, subscriber, array = domain.publisher(), domain.subscriber(), np.zeros(bytes_ // 8, "u8")

    def message(number):
        array[0] = number
        publisher.send_copy(array)
        return subscriber.receive().array[0]

    return message


def by_queue(bytes_):
    """A queue of copies: of references, the sender's next write would change what the reader reads."""
    line, array = queue.Queue(), np.zeros(bytes_ // 8, "u8")

    def message(number):
        array[0] = number
        line.put(array.copy())
        return line.get()[0]

    return message


def copy_alone(bytes_):
    """numpy's copy."""
    array = np.zeros(bytes_ // 8, "u8")

    def message(number):
        array[0] = number
        return array.copy()[0]

    return message


def echo(asked, answered):
    """The other process."""
    while (array := asked.get()) is not None:
        answered.put(array[0])


class ByProcesses:
    """multiprocessing.Queue to another process, which answers by one number."""

    def __init__(self, bytes_):
        context = multiprocessing.get_context("spawn")
        self.array, self.asked, self.answered = np.zeros(bytes_ // 8, "u8"), context.Queue(), context.Queue()
        self.process = context.Process(target=echo, args=(self.asked, self.answered), daemon=True)
        self.process.start()

    def __call__(self, number):
        self.array[0] = number
        self.asked.put(self.array)
        return self.answered.get()


def answer_in_place(name, bytes_):
    """The other process, over domains that both share: what comes is read in its slot."""
    asked, answered = shared_domains(name, bytes_)
    subscriber, publisher = asked.subscriber(), answered.publisher()
    for sample in subscriber.follow():
        with sample:
            publisher.send_copy(sample.array[0])


def shared_domains(name, bytes_):
    """One for what is asked, and one for answers."""
    return ps.Domain.open_or_create(f"{name}/asked", "u8", bytes_ // 8), ps.Domain.open_or_create(f"{name}/answered", "u8")


class ByDomains:
    """Domains that both processes share by a name: an array is written in its slot, which the other process reads and answers."""

    def __init__(self, bytes_):
        name = f"test_compare/{os.getpid()}/{bytes_}"
        self.asked, self.answered = shared_domains(name, bytes_)
        self.publisher, self.subscriber = self.asked.publisher(), self.answered.subscriber()
        self.process = multiprocessing.get_context("spawn").Process(target=answer_in_place, args=(name, bytes_), daemon=True)
        self.process.start()
        while self.publisher.send_copy(np.zeros(bytes_ // 8, "u8")) == 0:
            time.sleep(0.01)  # it isn't there yet
        with self.subscriber.receive(timeout=None):
            pass
        atexit.register(self.close)

    def close(self):
        """Leaves no file."""
        self.process.kill()
        self.process.join()
        self.asked.close()
        self.answered.close()

    def __call__(self, number):
        with self.publisher.loan_uninit() as loan:
            loan.array[0] = number
            loan.send()
        with self.subscriber.receive(timeout=None) as sample:
            return sample.array[()]


QUEUE, SHARED = "`multiprocessing.Queue`, and an answer", "in place to another process, and an answer"
WAYS = (
    ("in place, arrays", in_place, 1),
    ("in place, memoryviews", in_memoryviews, 1),
    ("`send_copy` of an array", copied, 1),
    ("`queue.Queue` of copies", by_queue, 1),
    ("a numpy copy alone", copy_alone, 1),
    (QUEUE, ByProcesses, 20),
    (SHARED, ByDomains, 20),
)


def timed(message, messages):
    began = time.perf_counter()
    for number in range(messages):
        message(number)
    return (time.perf_counter() - began) / messages * 1e6


def times(bytes_, messages):
    """The median of each way, whose rounds take turns."""
    ways = [(way(bytes_), max(messages // fewer, 5)) for _, way, fewer in WAYS]
    for message, count in ways:
        timed(message, min(count, 100))  # takes the memory of all slots
    rounds = [[timed(message, count) for message, count in ways] for _ in range(ROUNDS)]
    return [statistics.median(column) for column in zip(*rounds)]


def main():
    if sys.argv[1] == "messages":
        message = in_place(int(sys.argv[2]))
        for number in range(int(sys.argv[3])):
            message(number)
        return
    columns = [times(bytes_, messages) for bytes_, messages in SIZES]
    rows = {name: row for (name, *_), *row in zip(WAYS, *columns)}
    print("| µs a message | 64 B | 1 MB |\n|---|---|---|")
    for name, row in rows.items():
        print(f"| {name} | " + " | ".join(f"{value:.1f}" for value in row) + " |")
    shares = [shared / queued for shared, queued in zip(rows[SHARED], rows[QUEUE])]
    if any(share > most for share, most in zip(shares, MOST_OF_QUEUE)):
        sys.exit(f"to another process it takes {shares} of the queue's time, and may take {MOST_OF_QUEUE}")


if __name__ == "__main__":
    main()
