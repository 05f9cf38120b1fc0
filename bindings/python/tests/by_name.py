# SPDX-License-Identifier: Apache-2.0 OR MIT
"""A plugin of pytest, `-p by_name`: each domain of the tests is one that processes share, by a name of its own."""
import itertools
import os

import pytest

from iox2_pubsub.domain import Domain

ROOM = 1 << 24  # bytes of payloads where messages are short, so that there may be more publishers, and their memory may grow
SHORT = 1 << 12  # values
# What these tests are about is otherwise there, as iox2_pubsub_processes.h says.
OTHERWISE = {
    "test_memory_grows_as_the_options_say": "memory grows as far as a domain's files have room",
    "test_as_much_is_recorded_as_is_asked": "bytes of messages are 0 in a recording",
    "test_a_refused_connection_is_ignored_warned_of_or_fails_the_call": "a domain of such settings is larger than its files may be",
    "test_a_subscriber_whose_connection_is_refused_later_answers_as_its_options_say": "the same",
    "test_bad_settings_are_refused_in_words": "the same",
    "test_an_idle_loop_makes_no_call_of_the_system": "who waits looks for the dead five times a second",
}
numbers = itertools.count()
of_one_process = Domain.__new__


def by_name(cls, service_id, dtype=bytes, max_len=None, **settings):
    """As Domain(..), for all calls that could make one."""
    record = settings.pop("record", None)
    if record is not None and not (isinstance(record, (tuple, list)) and len(record) == 2):
        return of_one_process(cls, service_id, dtype, max_len, record=record)
    room = ROOM if (max_len or 1) <= SHORT else None
    given = {"service_id": service_id, "payload_room": room, "record": record and record[0], **settings}
    return cls._named("create", f"test_by_name/{next(numbers)}.{os.getpid()}", dtype, max_len, {name: value for name, value in given.items() if value is not None})


Domain.__new__ = staticmethod(by_name)


def pytest_collection_modifyitems(items):
    """Passes over what is otherwise."""
    for item in items:
        if reason := OTHERWISE.get(item.originalname):
            item.add_marker(pytest.mark.skip(reason=reason))
