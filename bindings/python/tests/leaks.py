# SPDX-License-Identifier: Apache-2.0 OR MIT
"""A million messages in place and by copies, beside loans that are refused, and some thousands of domains without any, after which the
process has no more memory than before: `leaks.py [MESSAGES [DOMAINS]]`."""
import gc
import sys
import time

import numpy as np

import iox2_pubsub as ps

MESSAGES, DOMAINS = (list(map(int, sys.argv[1:])) + [1_000_000, 20_000][len(sys.argv) - 1 :])[:2]
AT_ONCE = 20
# A leak of a single object a message would be 50 of these, and one of each domain 100.
MAY_GROW = 1 << 20


def taken():
    """How many bytes the process has taken, in memory or swapped. Pages of files aren't its own: the system drops and loads them."""
    gc.collect()
    with open("/proc/self/status", encoding="ascii") as lines:
        return sum(int(line.split()[1]) << 10 for line in lines if line.startswith(("RssAnon:", "VmSwap:")))


def in_place(publisher, subscriber):
    with publisher.loan_uninit() as loan:
        loan.array[0] = 1
        loan.send()
    with subscriber.receive() as sample:
        assert sample.array[0] == 1


def copied(publisher, subscriber):
    publisher.send_copy(COPY)
    for sample in subscriber:
        sample.release()


def viewed(publisher, subscriber):
    loan = publisher.loan(2)
    memoryview(loan).release()
    loan.send()
    kept = subscriber.receive().array
    assert kept.size == 2


def refused(publisher, subscriber):
    loans = [publisher.loan_uninit() for _ in range(2)]
    try:
        publisher.loan()
    except ps.LoanExceedsMaxLoans:
        for loan in loans:
            loan.discard()
    assert subscriber.receive() is None


COPY = np.arange(8.0)
WAYS = (in_place, in_place, copied, in_place, viewed, copied, in_place, copied, in_place, refused)


def run(messages):
    """So many messages, in domains of some thousands each."""
    for _ in range(-(-messages // (AT_ONCE * (len(WAYS) - 1)))):  # the last way sends none
        with ps.Domain(7, "f8", 8) as domain:
            publisher, subscriber = domain.publisher(), domain.subscriber()
            for _ in range(AT_ONCE):
                for way in WAYS:
                    way(publisher, subscriber)


def make(domains):
    """So many domains with ports, closed or left, and makings that are refused."""
    for number in range(domains):
        domain = ps.Domain(7, "f8", 8, max_publishers=1)
        kept = domain.publisher(), domain.subscriber()
        for refused in (domain.publisher, lambda: domain.subscriber(buffer_size=99), lambda: ps.Domain(7, "f8", alignment=3)):
            try:
                refused()
            except ps.Error:
                continue
            raise AssertionError("it isn't refused")
        if number % 2:
            domain.close()
        del domain, kept


run(MESSAGES // 10), make(DOMAINS // 10)
began, before = time.monotonic(), taken()
run(MESSAGES), make(DOMAINS)
grown = taken() - before
print(f"{MESSAGES} messages and {DOMAINS} domains in {time.monotonic() - began:.0f} s, {grown} bytes more")
sys.exit(grown > MAY_GROW)
