# SPDX-License-Identifier: Apache-2.0 OR MIT
"""Forks, other interpreters and a second import."""
import multiprocessing
import os
import subprocess
import sys

import pytest
from helpers import fork, let_threads_end, pair, value, waiting

import iox2_pubsub as ps


def in_child(check):
    """Whether the check holds in a child of this process."""
    child = fork()
    if child == 0:
        try:
            os._exit(0 if check() else 1)
        except BaseException as error:
            print(repr(error), file=sys.stderr, flush=True)
            os._exit(2)
    return os.waitpid(child, 0)[1] == 0


def is_refused(call):
    try:
        call()
    except ps.AfterFork as refused:
        return "make one here" in str(refused) and isinstance(refused, RuntimeError)
    return False


def test_a_child_that_touches_a_domain_of_its_parent_is_told():
    publisher, subscriber = pair()
    domain = publisher.domain
    publisher.send_copy(1), publisher.send_copy(2)
    sample, loan, fd = subscriber.receive(), publisher.loan(), subscriber.fileno()
    calls = [
        subscriber.receive, lambda: subscriber.receive(None), lambda: publisher.send_copy(2), publisher.loan, loan.send, domain.publisher,
        domain.subscriber, subscriber.close, domain.close, domain.stop_waits, subscriber.has_samples, publisher.fileno, lambda: sample.array,
        lambda: memoryview(loan), lambda: domain.warnings, lambda: sample.header, lambda: list(subscriber.follow()), publisher.update_connections
    ]  # fmt: skip
    assert in_child(lambda: all(is_refused(call) for call in calls))
    assert sample.array == 1 and loan.send() == 1 and fd == subscriber.fileno()
    assert [value(sample) for sample in [subscriber.receive()]] == [2]


def test_a_child_lets_go_without_touching_its_parent():
    publisher, subscriber = pair(enable_safe_overflow=False)
    domain = publisher.domain
    publisher.send_copy(1), publisher.send_copy(2)
    with pytest.raises(ps.SendBlocked) as blocked:
        publisher.send_copy(3, timeout=0)
    holder = [publisher, subscriber, domain, subscriber.fileno(), blocked.value.blocked, domain.subscriber(), subscriber.receive()]
    publisher.fileno()

    def check():
        nonlocal publisher, subscriber, domain, blocked
        array = holder[-1]
        del publisher, subscriber, domain, blocked
        holder.clear()
        return array.is_live

    assert in_child(check)
    assert publisher.is_blocked and blocked.value.blocked.retry() == 1


def test_a_child_has_domains_of_its_own():
    kept = pair()

    def check():
        publisher, subscriber = pair()
        publisher.send_copy(4)
        beside = waiting(publisher.domain, lambda: [value(sample) for _, sample in zip(range(2), subscriber.follow())])
        publisher.send_copy(5)
        return beside.result() == [4, 5]

    assert in_child(check)
    assert kept[0].send_copy(1) == 1


def test_a_process_is_forked_while_a_thread_waits():
    publisher, subscriber = pair()
    beside = waiting(publisher.domain, subscriber.receive, None)
    assert in_child(lambda: is_refused(lambda: publisher.send_copy(1)))
    publisher.send_copy(2)
    assert value(beside.result()) == 2


def receive_in_worker(_):
    return is_refused(RECEIVES)


def test_a_worker_of_multiprocessing_is_told():
    global RECEIVES
    RECEIVES = pair()[1].receive
    let_threads_end()
    with multiprocessing.get_context("fork").Pool(1) as pool:
        assert pool.map(receive_in_worker, [1]) == [True]


def test_messages_and_ports_aren_t_pickled():
    import pickle

    publisher, subscriber = pair()
    publisher.send_copy(1)
    for one in (subscriber.receive(), publisher.loan(), publisher, subscriber, publisher.domain):
        with pytest.raises(TypeError, match="cannot pickle|pickle"):
            pickle.dumps(one)


def run(program):
    """What a Python of its own prints."""
    done = subprocess.run([sys.executable, "-c", program], capture_output=True, text=True)
    assert done.returncode == 0, done.stderr
    return done.stdout


SECOND = """
import sys
import iox2_pubsub as ps
publisher = ps.Domain(7, bytes, 8).publisher()
for name in [name for name in sys.modules if name.startswith("iox2_pubsub")]:
    del sys.modules[name]
try:
    import iox2_pubsub
except ImportError as refused:
    print(refused)
try:
    publisher.loan(99)
except ps.LoanExceedsMaxLoanSize:
    print("goes on")
"""


def test_a_second_import_is_refused_and_the_first_goes_on():
    assert run(SECOND) == "iox2_pubsub was imported before: keep that module, and don't take it out of sys.modules\ngoes on\n"


INTERPRETER = """
try:
    import _interpreters as interpreters
except ImportError:
    import _xxsubinterpreters as interpreters
import sys
FIRST
one = interpreters.create()
program = '''
import sys
sys.path[:] = PATH
try:
    import iox2_pubsub
except ImportError as refused:
    print(refused)
'''.replace("PATH", repr(sys.path))
(interpreters.run_string if hasattr(interpreters, "run_string") else interpreters.exec)(one, program)
import iox2_pubsub as ps
print(ps.Domain(7, bytes, 8).publisher().send_copy(b"abc"))
"""


@pytest.mark.parametrize("first", ["", "import iox2_pubsub"])
def test_a_subinterpreter_is_refused(first):
    refused, works = run(INTERPRETER.replace("FIRST", first)).splitlines()
    assert refused.startswith("iox2_pubsub is for the main interpreter: import it there") and works == "0"


AT_EXIT = """
import threading
import numpy as np
import iox2_pubsub as ps
domain = ps.Domain(7, "i8", enable_safe_overflow=False)
publisher, subscriber = domain.publisher(), domain.subscriber()
publisher.send_copy(1), publisher.send_copy(2)
try:
    publisher.send_copy(3, timeout=0)
except ps.SendBlocked as error:
    kept = error, subscriber.receive().array, memoryview(ps.Domain(8, "i8").publisher().loan())
threading.Thread(target=subscriber.receive, args=(None,), daemon=True).start()
print("ends")
"""


def test_a_program_ends_with_all_of_it_alive():
    assert run(AT_EXIT) == "ends\n"


WITHOUT_NUMPY = """
import sys
sys.modules["numpy"] = None  # an import of it fails
import iox2_pubsub as ps
publisher = ps.Domain(7, bytes, 8).publisher()
subscriber = publisher.domain.subscriber()
publisher.send_copy(b"abc")
with publisher.loan(2) as loan, loan.array as view:
    view[:] = b"de"
    view.release()
    loan.send()
print([bytes(sample) for sample in subscriber])
try:
    ps.Domain(7, "f4")
except ImportError as refused:
    print(refused)
"""


def test_bytes_need_no_numpy():
    bytes_, refused = run(WITHOUT_NUMPY).splitlines()
    assert bytes_ == "[b'abc', b'de']" and "numpy" in refused
