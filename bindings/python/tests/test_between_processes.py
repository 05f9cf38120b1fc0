# SPDX-License-Identifier: Apache-2.0 OR MIT
"""Domains that processes share by a name. None of the tests looks at a clock but the one that counts looks for the dead."""
import asyncio
import math
import os
import select
import selectors
import signal
import time
from pathlib import Path

import numpy as np
import pytest
from helpers import PATIENCE, Beside, end, fork, go_on, hear, is_idle, until, value, waiting, wants_processes

import iox2_pubsub as ps
from other_process import SETTINGS, opened

wants_processes()


def calls_file(name):
    """The file with the list of calls."""
    (path,) = [path for path in Path("/dev/shm").iterdir() if name.split("/")[1] in path.name and path.name.endswith(".calls")]
    return path


def test_messages_come_from_another_process(name, start):
    with opened(name) as domain:
        subscriber = domain.subscriber()
        process = start("sends_many", name)
        for number in range(1, 301):
            assert value(subscriber.receive(timeout=None)) == number
        end(process)
        assert ps.Domain.exists(name)
    assert not ps.Domain.exists(name)


def test_they_are_read_where_they_were_written(name, start):
    domain = ps.Domain.open_or_create(name, "u1", 1 << 20)
    publisher, subscriber = domain.publisher(), domain.subscriber()
    with publisher.loan_uninit() as loan:
        loan.array[:3] = (1, 2, 3)
        written = loan.array.ctypes.data
        loan.send()
    with subscriber.receive() as sample:
        assert sample.array.ctypes.data == written and sample.array[:3].tolist() == [1, 2, 3]
        with pytest.raises(ValueError):
            sample.array[0] = 7
    assert [one for one in ps.Domain.list() if one.name == name] == [ps.DomainInfo(name, "[u8]", 1 << 20, 1, 16, 1)]


def test_each_wait_ends_by_what_another_process_sends(name, start):
    subscriber = opened(name).subscriber()
    process = start("sends", name)
    assert hear(process) == "is here"
    for number in range(1, 6):
        assert subscriber.receive() is None and subscriber.receive(timeout=0.001) is None
        go_on(process)
        assert value(subscriber.receive(timeout=None)) == number


def test_threads_wait_together(name, start):
    domain = opened(name)
    both = [domain.subscriber(), domain.subscriber()]
    process = start("sends", name)
    assert hear(process) == "is here"
    for number in range(1, 6):
        threads = [waiting(domain, subscriber.receive, None) for subscriber in both]
        go_on(process)
        assert [value(thread.result()) for thread in threads] == [number, number]


def test_a_thread_of_this_process_ends_a_wait_too(name):
    domain = opened(name)
    publisher, subscriber = domain.publisher(), domain.subscriber()
    for number in range(5):
        thread = waiting(domain, subscriber.receive, None)
        publisher.send_copy(number)
        assert value(thread.result()) == number


def test_tasks_wait_in_the_event_loop(name, start):
    subscriber = opened(name).subscriber()
    process = start("sends", name)
    assert hear(process) == "is here"

    async def receive_all():
        for number in range(1, 6):
            begun = asyncio.create_task(subscriber.receive_async())
            await asyncio.sleep(0)
            go_on(process)
            assert value(await begun) == number

    asyncio.run(asyncio.wait_for(receive_all(), PATIENCE))


def test_an_idle_loop_makes_no_call_of_the_system_between_looks_for_the_dead(name, start):
    domain = opened(name, reap_every=3600)
    listener = domain.listener()
    process = start("notifies", name)
    assert hear(process) == "is here"
    loop = waiting(domain, lambda: asyncio.run(listener.wait_one_async()))
    assert is_idle(loop)
    go_on(process)
    assert loop.result() == 1


class Counted(selectors.DefaultSelector):
    """Of a loop whose sleeps are counted."""

    sleeps = 0

    def select(self, timeout=None):
        self.sleeps += timeout != 0
        return super().select(timeout)


def test_an_idle_loop_wakes_for_a_look_for_the_dead_once_for_all_its_tasks(name, start):
    every = 0.05
    domain = opened(name, reap_every=every)
    subscriber, listener, dead = domain.subscriber(), domain.listener(), domain.dead_nodes()
    assert hear(start("listens", name)) == "is here"
    counted = Counted()
    loop = asyncio.SelectorEventLoop(counted)

    async def main():
        await asyncio.gather(subscriber.receive_async(), subscriber.receive_async(), listener.wait_one_async(), dead.wait_one_async())

    def stop():
        time.sleep(1)
        domain.stop_waits()

    began, beside = time.monotonic(), Beside(stop)
    loop.run_until_complete(main())
    took = time.monotonic() - began
    beside.result()
    loop.close()
    assert counted.sleeps <= took / every + 2  # the first, and the end


def test_a_descriptor_is_readable_when_something_came(name, start):
    subscriber = opened(name).subscriber()
    process = start("sends", name)
    assert hear(process) == "is here"
    for number in range(1, 6):
        go_on(process)
        sample = None
        while sample is None:
            assert select.select([subscriber], [], [], PATIENCE)[0]
            sample = subscriber.receive()
        assert value(sample) == number


def test_a_descriptor_isnt_readable_for_good(name, start):
    subscriber = opened(name, reap_every=3600).subscriber()
    process = start("sends", name)
    assert hear(process) == "is here"
    subscriber.fileno()
    go_on(process)
    assert value(subscriber.receive(timeout=None)) == 1
    rounds = 0
    while select.select([subscriber], [], [], 0)[0]:
        assert subscriber.receive() is None
        rounds += 1
        assert rounds < 100


def test_a_send_waits_for_room_that_another_process_makes(name, start):
    publisher = opened(name).publisher()
    process = start("receives", name)
    assert hear(process) == "is here"
    for number in range(1, 11):
        if number > 2:  # its buffer has room for two
            go_on(process)
        publisher.send_copy(number, timeout=None)
        if number > 2:
            assert hear(process) == str(number - 2)


def test_a_loan_waits_for_a_slot_that_another_process_has(name, start):
    publisher = opened(name).publisher(preallocated_samples=1)
    process = start("keeps", name)
    assert hear(process) == "is here"
    assert publisher.send_copy(1) == 1
    assert hear(process) == "has it"
    with pytest.raises(ps.LoanOutOfMemory):
        publisher.loan()
    thread = waiting(publisher.domain, lambda: publisher.loan(timeout=None))
    go_on(process)
    thread.result().discard()


def test_what_a_killed_process_had_is_free(name, start):
    domain = opened(name)
    for _ in range(3):
        process = start("has_all", name)
        assert hear(process) == "has all"
        with pytest.raises(ps.PublisherExceedsMaxSupportedPublishers):
            domain.publisher()
        process.kill()
        process.wait()
        domain.publisher().close()


def test_a_death_ends_a_wait_for_a_slot(name, start):
    publisher = opened(name).publisher(preallocated_samples=1)
    process = start("keeps", name)
    assert hear(process) == "is here"
    assert publisher.send_copy(1) == 1
    assert hear(process) == "has it"
    thread = waiting(publisher.domain, lambda: publisher.loan(timeout=None))
    process.kill()
    process.wait()
    thread.result().discard()


def test_a_wait_is_interrupted(name, start):
    process = start("waits_for_good", name)
    assert hear(process) == "waits"
    beside = Beside(process.wait)
    while process.poll() is None:
        process.send_signal(signal.SIGINT)
        until(lambda: True)
    beside.result()
    assert "interrupted" in process.stdout.read() or process.returncode != 0


def test_each_cause_is_said(name, start):
    with pytest.raises(ps.OpenDoesNotExist) as refused:
        ps.Domain.open(name, "i8", **SETTINGS)
    assert refused.value.code == 200 and name.split("/")[-1] in str(refused.value) and isinstance(refused.value, FileNotFoundError)
    process = start("has_it", name)
    assert hear(process) == "has it"
    for kind, call in (
        (ps.CreateAlreadyExists, lambda: ps.Domain.create(name, "i8", **SETTINGS)),
        (ps.OpenIncompatibleTypes, lambda: ps.Domain.open(name, "f8", **SETTINGS)),
        (ps.OpenIncompatibleTypes, lambda: ps.Domain.open(name, "i8", type_name="Reading", **SETTINGS)),
        (ps.OpenIncompatibleTypes, lambda: ps.Domain.open(name, "i4", type_name="i64", **SETTINGS)),
        (ps.OpenIncompatibleTypes, lambda: ps.Domain.open(name, "i8", 3, type_name="i64", **SETTINGS)),
        (ps.OpenIncompatibleTypes, lambda: ps.Domain.open(name, "i8", alignment=4, **SETTINGS)),
        (ps.OpenIncompatibleSettings, lambda: ps.Domain.open(name, "i8", **SETTINGS, max_subscribers=3)),
        (ps.OpenIncompatibleSettings, lambda: ps.Domain.open(name, "i8", enable_safe_overflow=False)),
    ):
        with pytest.raises(kind) as refused:
            call()
        assert isinstance(refused.value, ps.DomainOpenError)
    with opened(name):
        third = start("has_it", name)
        assert hear(third) == "OpenExceedsMaxNumberOfNodes"  # it has room for two
    end(process)
    with opened(name), pytest.raises(ps.OpenAddressInUse):
        ps.Domain.open(name, "i8", **SETTINGS)
    assert not ps.Domain.exists(name)


@pytest.mark.parametrize(
    "wrong", ["", ".", "..", "My/../Service", "My/./Service", "../Service", "My/..", "n" * 256, "n" * 300, "\N{SNOWMAN}" * 86, "ä" * 128]
)
def test_what_is_no_name_is_refused(wrong):
    for call in (ps.Domain.open_or_create, ps.Domain.open, ps.Domain.create):
        with pytest.raises(ps.OpenInvalidArgument, match="name|bytes|part"):
            call(wrong, "i8")
    assert not ps.Domain.exists(wrong)


@pytest.mark.parametrize("wrong, kind", [(b"bytes", TypeError), (7, TypeError), (None, TypeError), ("zero\0inside", ValueError), ("\ud800", UnicodeEncodeError)])
def test_what_is_no_text_is_no_name(wrong, kind):
    words = "a name is a text, as 'My/Service', not" if kind is TypeError else ""
    for call in (ps.Domain.open_or_create, ps.Domain.open, ps.Domain.create):
        with pytest.raises(kind, match=words):
            call(wrong, "i8")
    with pytest.raises(kind, match=words):
        ps.Domain.exists(wrong)


@pytest.mark.parametrize("right", ["My/Service", "/My//Service/", "...", "My/..Service", "Käfig/测试/\N{SNOWMAN}", " \n%2f.calls", "n" * 255, "ä" * 127])
def test_what_is_a_name_is_taken(right):
    right = f"{os.getpid()}{right}"[:255] if right.isascii() else right
    with ps.Domain.create(right, "i8", service_id=7) as domain:
        assert ps.Domain.exists(right) and [one.name for one in ps.Domain.list() if one.name == right] == [right]
        domain.publisher().send_copy(1)
    assert not ps.Domain.exists(right)


def refused_as_another_user(call, path):
    """In a child that may not read the file: whether the call is refused, and nobody is said to have the domain."""
    child = fork()
    if child == 0:
        try:
            if os.geteuid() == 0:
                os.setgroups([]), os.setgid(65534), os.setuid(65534)
            else:
                path.chmod(0)
            with pytest.raises(ps.OpenInsufficientPermissions, match="create it with wider permissions|belong") as refused:
                call()
            os._exit(0 if isinstance(refused.value, PermissionError) and refused.value.code == 204 else 2)
        finally:
            os._exit(1)
    return os.waitpid(child, 0)[1] == 0


@pytest.mark.parametrize("call", [ps.Domain.open, ps.Domain.open_or_create, ps.Domain.create])
def test_without_permission_it_is_refused(name, call):
    with opened(name):
        path = calls_file(name)
        assert refused_as_another_user(lambda: call(name, "i8", **SETTINGS), path)
    assert not ps.Domain.exists(name)


def test_who_was_refused_leaves_nothing_behind(name, start):
    with opened(name) as domain:
        for refused in (lambda: ps.Domain.open(name, "f8", **SETTINGS), lambda: ps.Domain.create(name, "i8", **SETTINGS)):
            with pytest.raises(ps.DomainOpenError):
                refused()
        subscriber = domain.subscriber()
        process = start("sends", name)
        assert hear(process) == "is here"
        go_on(process)
        assert value(subscriber.receive(timeout=None)) == 1


@pytest.mark.parametrize("close", ["port", "domain"])
def test_a_close_by_another_thread_ends_all_waits(name, start, close):
    domain = opened(name)
    publisher, subscriber = domain.publisher(preallocated_samples=1), domain.subscriber()
    kept = publisher.loan()
    process = start("has_it", name)  # which goes on with the domain
    assert hear(process) == "has it"
    calls = (lambda: subscriber.receive(None), lambda: list(subscriber.follow()), lambda: publisher.loan(timeout=None), lambda: publisher.send_copy(1),
             lambda: asyncio.run(subscriber.receive_async()), lambda: asyncio.run(publisher.loan_async()))
    threads = [waiting(domain, call) for call in calls]
    if close == "domain":
        domain.close()
    else:
        subscriber.close(), publisher.close()
    for thread in threads:
        with pytest.raises(ps.NotLive, match="make another one"):
            thread.result()
    assert domain.waiting == 0
    del kept
    end(process)


def test_a_close_by_another_thread_ends_a_send_that_waits(name):
    domain = opened(name)
    publisher, subscriber = domain.publisher(), domain.subscriber()
    publisher.send_copy(1), publisher.send_copy(2)
    sends = waiting(domain, publisher.send_copy, 3)
    domain.close()
    assert sends.result() == 0 and not subscriber.is_open


def test_what_cant_be_is_refused(name):
    for call, kind in (
        (lambda: ps.Domain.create(name, "O"), TypeError),
        (lambda: ps.Domain.create(name, "i8", max_processes=65), ps.OpenInvalidArgument),
        (lambda: ps.Domain.create(name, "i8", calls=100), ps.OpenInvalidArgument),
        (lambda: ps.Domain.create(name, "i8", type_name="n" * 300), ps.OpenInvalidArgument),
        (lambda: ps.Domain.create(name, "i8", book_room=64), MemoryError),
        (lambda: ps.Domain.create(name, "i8", no_such=1), TypeError),
        (lambda: ps.Domain.create(name), TypeError),
    ):
        with pytest.raises(kind):
            call()
    assert not ps.Domain.exists(name)


def test_a_file_of_another_program_is_left_alone(name):
    with opened(name):
        path = calls_file(name)
    path.write_text("another program's")
    for call in (ps.Domain.open, ps.Domain.open_or_create, ps.Domain.create):
        with pytest.raises(ps.OpenServiceInCorruptedState) as refused:
            call(name, "i8", **SETTINGS)
        assert isinstance(refused.value, OSError)
    assert not ps.Domain.exists(name) and path.read_text() == "another program's"
    path.unlink()


def test_what_the_system_refuses_is_said(name):
    with pytest.raises(ps.OpenInternalFailure, match="No space left"):
        ps.Domain.create(name, "i8", payload_room=1 << 40)
    assert not ps.Domain.exists(name)


def test_another_build_is_refused_with_both_sums(name, start):
    process = start("has_it", name)
    assert hear(process) == "has it"
    path, at = calls_file(name), 16  # behind what marks the file, and two versions
    build = int.from_bytes(path.read_bytes()[at:at + 8], "little")
    with path.open("r+b") as file:
        file.seek(at)
        file.write((build ^ 1).to_bytes(8, "little"))
    with pytest.raises(ps.OpenVersionMismatch) as refused:
        ps.Domain.open(name, "i8", **SETTINGS)
    assert f"{build:x}" in str(refused.value) and f"{build ^ 1:x}" in str(refused.value)
    process.kill()


@pytest.mark.parametrize(
    "option, kind, words",
    [
        *(({"reap_every": wrong}, ValueError, "reap_every is a number of seconds above 0") for wrong in (0, -1, math.nan, math.inf, 1e300)),
        ({"reap_every": "1"}, TypeError, "reap_every is a number of seconds, not '1'"),
        *(({"record": wrong}, TypeError, "record, for how many commands there is room, is an integer") for wrong in ((1, 2), "1", 1.5)),
        *(({"record": wrong}, ValueError, "record, for how many commands there is room, is a number from 0") for wrong in (-1, 1 << 63)),
        ({"type_name": 5}, TypeError, "type_name is a text, not 5"),
        *(({room: wrong}, ps.OpenInvalidArgument, "lower what is too large") for room in ("payload_room", "book_room") for wrong in (1 << 63, (1 << 64) - 1)),
        *(({room: 0}, ValueError, f"{room} is a number of bytes above 0") for room in ("payload_room", "book_room")),
        *(({"calls": wrong}, ps.OpenInvalidArgument, "calls") for wrong in (0, 1 << 63)),
        *(({"max_processes": wrong}, ps.OpenInvalidArgument, "places") for wrong in (0, 1 << 63)),
        *(({name: -1}, ValueError, f"{name} is a number from 0") for name in ("payload_room", "book_room", "calls", "max_processes", "permissions", "spins")),
        ({"permissions": 1 << 40}, ps.OpenInvalidArgument, "no such permissions"),
        *(({"max_len": wrong}, ValueError, "max_len, the greatest number of values of a message, is a number from 1") for wrong in (0, 1 << 63)),
    ],
)
def test_an_option_that_cant_be_is_refused_in_words(name, option, kind, words):
    with pytest.raises(kind, match=words):
        ps.Domain.create(name, "i8", **option)
    assert not ps.Domain.exists(name)


def test_who_opens_a_domain_says_nothing_of_recordings(name):
    for call in (ps.Domain.open, ps.Domain.open_or_create):
        with pytest.raises(TypeError, match="record is for Domain.create"):
            call(name, "i8", record=100)


def test_names_of_types_are_those_of_rust():
    from iox2_pubsub.values import type_name_of

    pose = [("x", "f4"), ("at", "u2", (3,))]
    assert [type_name_of(dtype, True) for dtype in ("?", "u1", "f8", ("i4", (2, 3)), "S8", pose)] == [
        "bool", "u8", "f64", "[[i32; 3]; 2]", "[u8; 8]", "{x: f32, at: [u16; 3]}"
    ]
    assert type_name_of("u8", False) == "[u64]" and type_name_of(bytes, False) == "[u8]"


def joints(count):
    return np.dtype([(f"jöint_{number}", "f8") for number in range(count)])


# No two of them are the same in memory, or mean the same.
OF_OTHER_MEANING = (
    "i8", "u8", "f8", "c8", "M8[s]", "M8[ms]", "m8[s]", ">i8", ">f8", ">M8[s]", "S8", "U2", [("a", "u1"), ("b", "f4")], [("b", "u1"), ("a", "f4")],
    np.dtype([("a", "u1"), ("b", "f4")], align=True), np.dtype({"names": ["a", "b"], "formats": ["u1", "f4"], "offsets": [4, 0]}), ("u4", (2,)), ("u2", (2, 2)),
    joints(20), joints(21), np.dtype([("a", joints(20)), ("b", "u1")]),
)  # fmt: skip


def test_types_that_are_read_otherwise_have_other_names():
    from iox2_pubsub.values import type_name_of

    names = [type_name_of(dtype, is_single) for dtype in OF_OTHER_MEANING for is_single in (True, False)]
    assert len(set(names)) == len(names) and max(len(name.encode()) for name in names) == 127


def test_a_struct_of_many_fields_has_a_name(name):
    dtype = joints(30)
    with ps.Domain.create(name, dtype) as domain, domain.publisher() as publisher, domain.subscriber() as subscriber:
        publisher.send_copy(np.ones((), dtype))
        with pytest.raises(ps.OpenIncompatibleTypes):
            ps.Domain.open(name, joints(31))
        assert subscriber.receive().array["jöint_29"] == 1


def test_calls_are_recorded_where_it_is_created_so(name):
    domain = ps.Domain.create(name, "i8", record=100)
    domain.publisher().send_copy(1)
    assert "publisher" in domain.recording().text


def test_a_child_of_fork_opens_it_for_itself(name):
    domain = opened(name)
    subscriber = domain.subscriber()
    child = fork()
    if child == 0:
        try:
            try:
                subscriber.receive(timeout=None)
            except ps.AfterFork:
                publisher = opened(name).publisher()
                publisher.send_copy(5, timeout=None)
                publisher.send_copy(6, timeout=None)
                signal.pause()
        finally:
            os._exit(1)
    assert [value(subscriber.receive(timeout=None)) for _ in range(2)] == [5, 6]
    os.kill(child, signal.SIGKILL)
    os.waitpid(child, 0)


def test_waits_end_where_the_files_are_written_over(name):
    domain = opened(name)
    subscriber, publisher = domain.subscriber(), domain.publisher()
    thread = waiting(domain, subscriber.receive, None)
    path = calls_file(name)
    with path.open("r+b") as file:
        file.seek(4096)
        file.write(b"\1" * (path.stat().st_size - 4096))
    with pytest.raises(ps.ProcessesDamaged):
        thread.result()
    with pytest.raises(ps.ProcessesDamaged):
        publisher.send_copy(1)
    domain.close()
