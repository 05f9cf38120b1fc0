# SPDX-License-Identifier: Apache-2.0 OR MIT
"""One domain in several languages: cameras in C++ and in Rust, and Python in the same process. Each frame says where it was written.

IOX2_PUBSUB_CAMERAS names the libraries, which languages/camera.cpp and languages/src/lib.rs are compiled to."""
import asyncio
import ctypes
import os
import threading
from pathlib import Path

import numpy as np
import pytest
from helpers import fork

import iox2_pubsub as ps

FRAME = np.dtype([("place", "u8"), ("number", "u8")])
CAMERAS = [Path(path) for path in os.environ.get("IOX2_PUBSUB_CAMERAS", "").split(":") if path]
TURNS = 200

pytestmark = pytest.mark.skipif(not CAMERAS, reason="IOX2_PUBSUB_CAMERAS names no library")


class Camera:
    """The other language. Its calls let go of the GIL."""

    def __init__(self, path, buffer, history):
        of_python, self.calls = ctypes.PyDLL(path), ctypes.CDLL(path)
        of_python.camera_open.restype = ctypes.py_object
        for name in ("camera_send", "camera_receive"):
            function = getattr(self.calls, name)
            function.restype, function.argtypes = ctypes.c_uint64, (ctypes.c_uint64, ctypes.c_uint64)
        self.capsule = of_python.camera_open(ctypes.c_size_t(buffer), ctypes.c_size_t(history))

    def send(self, first, count):
        assert self.calls.camera_send(first, count) == 0

    def receive(self, first, count):
        assert self.calls.camera_receive(first, count) == 0


@pytest.fixture(params=CAMERAS, ids=lambda path: path.name)
def opened(request):
    """Makes a camera and joins its domain."""
    def open_(buffer=1, history=0):
        camera = Camera(request.param, buffer, history)
        request.addfinalizer(camera.calls.camera_close)
        return camera, ps.Domain.join(camera.capsule, FRAME)

    return open_


def beside(call, *given):
    """Runs a call on a thread, whose failure is one here."""
    failures = []

    def run():
        try:
            call(*given)
        except BaseException as failure:
            failures.append(failure)

    thread = threading.Thread(target=run)
    thread.start()

    def join():
        thread.join(60)
        assert not thread.is_alive()
        for failure in failures:
            raise failure

    return join


def send(publisher, first, count):
    for number in range(first, first + count):
        with publisher.loan_uninit(timeout=None) as loan:
            loan.array["place"], loan.array["number"] = loan.array.ctypes.data, number
            loan.send()


def receive(subscriber, first, count):
    for number in range(first, first + count):
        with subscriber.receive(timeout=None) as sample:
            assert (sample.array["number"], sample.array["place"]) == (number, sample.array.ctypes.data)


def test_frames_cross_in_place_both_ways(opened):
    camera, domain = opened(buffer=4)
    publisher, subscriber = domain.publisher(), domain.subscriber()
    camera.send(10, 3)
    receive(subscriber, 10, 3)
    camera.calls.camera_subscribe()
    send(publisher, 20, 3)
    camera.receive(20, 3)


def test_each_waits_for_the_others_frames(opened):
    camera, domain = opened()
    publisher, subscriber = domain.publisher(), domain.subscriber()
    join = beside(receive, subscriber, 0, TURNS)
    camera.send(0, TURNS)  # the buffer is 1, so that it waits for room too
    join()
    subscriber.close()
    camera.calls.camera_subscribe()
    join = beside(camera.receive, 0, TURNS)
    send(publisher, 0, TURNS)
    join()


def test_a_frame_wakes_a_thread_that_waits(opened):
    camera, domain = opened()
    subscriber = domain.subscriber()
    join = beside(receive, subscriber, 5, 1)
    while domain.waiting == 0:
        pass
    camera.send(5, 1)
    join()


def test_room_wakes_a_send_that_waits(opened):
    camera, domain = opened()
    publisher = domain.publisher()
    camera.calls.camera_subscribe()
    join = beside(send, publisher, 0, 2)
    while domain.waiting == 0:
        pass
    camera.receive(0, 2)
    join()


def test_a_task_gets_the_frames_of_the_other_language(opened):
    camera, domain = opened(buffer=2)
    subscriber = domain.subscriber()

    async def all_frames():
        numbers = []
        async for sample in subscriber:
            numbers.append(int(sample.array["number"]))
            if len(numbers) == TURNS:
                return numbers

    join = beside(camera.send, 0, TURNS)
    assert asyncio.run(all_frames()) == list(range(TURNS))
    join()


def test_a_subscriber_has_the_history_of_the_other_language(opened):
    camera, domain = opened(buffer=2, history=1)
    camera.send(1, 1)
    subscriber = domain.subscriber()
    receive(subscriber, 1, 1)
    subscriber.close()
    publisher = domain.publisher()
    send(publisher, 2, 1)
    camera.calls.camera_subscribe()
    numbers = sorted([1, 2])
    missed = [camera.calls.camera_receive(number, 1) for number in numbers]
    assert sum(missed) in (0, 2)  # of two publishers either one may be first


def test_both_stop_all_waits(opened):
    camera, domain = opened()
    subscriber = domain.subscriber()
    camera.calls.camera_subscribe()
    for stop in (lambda: domain.stop_waits(), lambda: camera.calls.camera_stop_waits(1)):
        here = beside(lambda: subscriber.receive(timeout=None))
        there = beside(camera.calls.camera_receive, 0, 1)
        while domain.waiting == 0:
            pass
        stop()
        here(), there()
        assert domain.waits_are_stopped and camera.calls.camera_waits_are_stopped()
        later = ps.Domain.join(camera.capsule, FRAME)
        assert later.waits_are_stopped and later.subscriber().receive(timeout=None) is None
        later.close()
        domain.stop_waits(False)
        assert not domain.waits_are_stopped and not camera.calls.camera_waits_are_stopped()


def test_the_domain_outlives_whoever_made_it(opened):
    camera, domain = opened(buffer=2)
    subscriber = domain.subscriber()
    camera.send(3, 1)
    camera.calls.camera_close()
    sample = subscriber.receive()
    publisher = domain.publisher()
    send(publisher, 4, 1)
    receive(subscriber, 4, 1)
    assert sample.array["number"] == 3


def test_the_other_language_outlives_python(opened):
    camera, domain = opened(buffer=4)
    domain.subscriber(), domain.publisher()
    domain.close()
    del domain, camera.capsule
    camera.calls.camera_subscribe()
    camera.send(0, 3)
    camera.receive(0, 3)


def test_two_join_one_domain(opened):
    camera, one = opened(buffer=2)
    other = ps.Domain.join(camera.capsule, FRAME)
    subscriber = other.subscriber()
    join = beside(receive, subscriber, 6, 1)
    while other.waiting == 0:
        pass
    publisher = one.publisher()
    send(publisher, 6, 1)
    join()


def test_what_is_joined_has_settings_and_fits(opened):
    camera, domain = opened(buffer=3)
    assert domain.settings.subscriber_max_buffer_size == 3 and domain.settings.service_id == 7
    for wrong in ("u1", "u8", np.dtype(("u8", 3)), np.dtype("c16,u1", align=True)):
        with pytest.raises(ValueError, match="a value of the domain 16 aligned to 8"):
            ps.Domain.join(camera.capsule, wrong)
    assert len(ps.Domain.join(camera.capsule).publisher().loan().array) == 16
    new_capsule = ctypes.pythonapi.PyCapsule_New
    new_capsule.restype, new_capsule.argtypes = ctypes.py_object, (ctypes.c_void_p, ctypes.c_char_p, ctypes.c_void_p)
    for wrong in (7, None, b"", new_capsule(8, b"another", None)):
        with pytest.raises(TypeError, match="a capsule with the name 'iox2_pubsub.shared_domain'"):
            ps.Domain.join(wrong, FRAME)


def test_a_child_has_nothing_of_it(opened):
    camera, domain = opened()
    publisher = domain.publisher()
    child = fork()
    if child == 0:
        status = 1
        try:
            for call in (publisher.loan, domain.subscriber, domain.stop_waits, lambda: ps.Domain.join(camera.capsule, FRAME)):
                with pytest.raises(RuntimeError, match="fork"):
                    call()
            del publisher, domain, camera.capsule
            status = 0
        finally:
            os._exit(status)
    assert os.waitstatus_to_exitcode(os.waitpid(child, 0)[1]) == 0
    assert not domain.waits_are_stopped and domain.subscriber() is not None
