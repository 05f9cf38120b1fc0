# SPDX-License-Identifier: Apache-2.0 OR MIT
"""What the tests share. None of them looks at a clock: a thread has come to a place when the domain says so."""
import os
import threading
import time

import numpy  # noqa: F401, it may start threads of its own, before they are counted
import pytest

import iox2_pubsub as ps

PATIENCE = 120  # seconds, after which a thread that should have ended has failed


def threads_of_the_system():
    return len(os.listdir("/proc/self/task"))


# Threads that aren't Python's.
OTHERS = threads_of_the_system() - threading.active_count()


def let_threads_end():
    """Those that were joined. One that hasn't ended may hold a lock of the sanitizers' memory, which a child of fork would wait for."""
    for _ in range(1000):
        if threads_of_the_system() <= OTHERS + threading.active_count():
            return
        time.sleep(0.001)


def fork():
    let_threads_end()
    return os.fork()


def pair(dtype="i8", max_len=None, **settings):
    """A publisher and a subscriber of a domain of their own."""
    domain = ps.Domain(7, dtype, max_len, **settings)
    return domain.publisher(), domain.subscriber()


def until(condition):
    """Lets other threads run until this holds."""
    while not condition():
        time.sleep(0)


class Beside(threading.Thread):
    """A call on a thread of its own. `result` waits for it, and raises what it raised."""

    def __init__(self, call, *args):
        super().__init__(daemon=True)
        self._call, self._args, self._error = call, args, None
        self.start()

    def run(self):
        try:
            self._result = self._call(*self._args)
        except BaseException as error:
            self._error = error

    def result(self):
        self.join(PATIENCE)
        assert not self.is_alive(), "the call waits for good"
        if self._error is not None:
            raise self._error
        return self._result


def waiting(domain, call, *args):
    """The call on a thread of its own, which waits in the domain by now."""
    before = domain.waiting
    beside = Beside(call, *args)
    until(lambda: domain.waiting > before or not beside.is_alive())
    return beside


def value(sample):
    """Of a domain of single numbers."""
    with sample:
        return sample.array.item()


def switches(thread):
    """How often a thread began or ended to run."""
    with open(f"/proc/self/task/{thread.native_id}/status", encoding="ascii") as lines:
        return [line for line in lines if "ctxt_switches" in line]


def is_idle(thread, seconds=2):
    """Whether it didn't run for so long, as one that polls does. It may be on its way to sleep at first."""

    def sleeps():
        before = switches(thread)
        time.sleep(seconds)
        return switches(thread) == before

    return any(sleeps() for _ in range(5))


def wants_processes():
    """Passes a file of tests over where the package was built without the library for processes."""
    try:
        ps.Domain.exists("nobody")
    except NotImplementedError as missing:
        pytest.skip(str(missing), allow_module_level=True)


def go_on(process):
    """Lets another process go on."""
    process.stdin.write("go on\n")
    process.stdin.flush()


def hear(process):
    """What it says next."""
    return process.stdout.readline().strip()


def end(process):
    """Lets it end."""
    go_on(process)
    assert process.wait() == 0


def kill(process):
    """It is dead when this returns."""
    process.kill()
    process.wait()
