# SPDX-License-Identifier: Apache-2.0 OR MIT
"""What another process does in a test: other_process.py ROLE NAME. It says when it has come so far, and goes on when it is told."""
import os
import signal
import sys

import iox2_pubsub as ps

SETTINGS = {"service_id": 7, "enable_safe_overflow": False}


def opened(name, **more):
    return ps.Domain.open_or_create(name, "i8", **SETTINGS, **more)


def say(words):
    print(words, flush=True)


def wait_for_parent():
    """A parent that has no more to say ends this."""
    if not sys.stdin.readline():
        os._exit(0)


def sends(name):
    """As many numbers as it is asked for, by turns."""
    publisher = opened(name).publisher()
    say("is here")
    number = 0
    while True:
        wait_for_parent()
        number += 1
        publisher.send_copy(number, timeout=None)


def sends_many(name):
    publisher = opened(name).publisher()
    for number in range(1, 301):
        publisher.send_copy(number, timeout=None)
    wait_for_parent()


def notifies(name):
    """Sends a number and notifies by it, by turns."""
    domain = opened(name)
    publisher, notifier = domain.publisher(), domain.notifier()
    say("is here")
    number = 0
    while True:
        wait_for_parent()
        number += 1
        publisher.send_copy(number, timeout=None)
        notifier.notify(number)
        say(number)


def listens(name):
    with opened(name).listener():
        say("is here")
        wait_for_parent()


def receives(name):
    subscriber = opened(name).subscriber()
    say("is here")
    while True:
        wait_for_parent()
        with subscriber.receive(timeout=None) as sample:
            say(sample.array.item())


def keeps(name):
    """A sample, until it is told."""
    subscriber = opened(name).subscriber()
    say("is here")
    sample = subscriber.receive(timeout=None)
    say("has it")
    wait_for_parent()
    sample.release()
    wait_for_parent()


def has_some(name):
    """A publisher, a subscriber and a loan; it has sent a message."""
    domain = opened(name)
    publisher, subscriber = domain.publisher(), domain.subscriber()
    publisher.send_copy(5, timeout=0)
    kept = publisher.loan(), subscriber
    say(domain.node_id)
    wait_for_parent()
    del kept
    domain.close()


def has_all(name):
    domain = opened(name)
    publishers = [domain.publisher(), domain.publisher()]
    loans = [publisher.loan() for publisher in publishers]
    say("has all")
    wait_for_parent()
    del loans


def has_it(name):
    try:
        domain = opened(name, max_processes=2)
    except ps.DomainOpenError as refused:
        return say(type(refused).__name__)
    say("has it")
    wait_for_parent()
    domain.close()


def waits_for_good(name):
    signal.signal(signal.SIGINT, signal.default_int_handler)  # whoever runs the tests in the background ignores it
    subscriber = opened(name).subscriber()
    say("waits")
    try:
        subscriber.receive(timeout=None)
    except KeyboardInterrupt:
        say("interrupted")


if __name__ == "__main__":
    {call.__name__: call for call in (sends, sends_many, notifies, listens, receives, keeps, has_some, has_all, has_it, waits_for_good)}[sys.argv[1]](sys.argv[2])
