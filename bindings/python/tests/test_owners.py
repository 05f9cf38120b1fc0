# SPDX-License-Identifier: Apache-2.0 OR MIT
"""What Domain.join asks of a domain's owner. The owner here notes each call, and answers as it is told: nobody has a domain."""
import ctypes
from ctypes import c_char_p, c_size_t, c_uint32, c_void_p, py_object

import pytest

import iox2_pubsub as ps

VERSION = sum(int(part) << shift for part, shift in zip(ps.__version__.split("."), (16, 8, 0)))
OK, NO_DOMAIN = 0, ps.NoDomain.code
ANSWERS = ctypes.CFUNCTYPE(c_uint32, c_void_p, c_void_p)


class Shared(ctypes.Structure):
    """iox2ps_shared_domain_t, whose calls have more arguments than are read."""

    _fields_ = [
        ("struct_size", c_size_t), ("version", c_uint32), ("is_slice", c_uint32), ("element_size", c_size_t), ("element_alignment", c_size_t),
        *((name, ANSWERS) for name in ("call", "join", "leave", "stop_waits", "keep", "release")),
    ]  # fmt: skip


class Owner:
    """Of one."""

    def __init__(self, call=OK, join=OK, **fields):
        self.called = []
        calls = {name: ANSWERS(self.noting(name, code)) for name, code in dict(call=call, join=join, leave=OK, stop_waits=OK, keep=OK, release=OK).items()}
        given = {"struct_size": ctypes.sizeof(Shared), "version": VERSION, "element_size": 8, "element_alignment": 8, **calls, **fields}
        self.shared = Shared(**given)
        capsule = ctypes.pythonapi.PyCapsule_New
        capsule.restype, capsule.argtypes = py_object, (c_void_p, c_char_p, c_void_p)
        self.name = b"iox2_pubsub.shared_domain"
        self.capsule = capsule(ctypes.addressof(self.shared), self.name, None)

    def noting(self, name, code):
        def noted(*_):
            self.called.append(name)
            return code

        return noted


def test_who_joins_keeps_the_domain_and_lets_it_go_once():
    owner = Owner()
    with ps.Domain.join(owner.capsule, "u8") as domain:
        assert owner.called == ["join", "keep", "call"]
        domain.stop_waits()
        assert owner.called.pop() == "stop_waits"
    assert owner.called[-2:] == ["leave", "release"]
    domain.close()
    del domain
    assert [owner.called.count(name) for name in ("join", "keep", "leave", "release")] == [1, 1, 1, 1]


def test_who_is_refused_keeps_nothing():
    owner = Owner(join=ps.AfterFork.code)
    with pytest.raises(ps.AfterFork, match="make one here"):
        ps.Domain.join(owner.capsule, "u8")
    assert owner.called == ["join"]


def test_who_joined_a_domain_that_is_gone_leaves_it():
    owner = Owner(call=NO_DOMAIN)
    with pytest.raises(ps.NoDomain, match="make another one"):
        ps.Domain.join(owner.capsule, "u8")
    assert owner.called == ["join", "keep", "call", "leave", "release"]


@pytest.mark.parametrize("fields", [{"version": VERSION + 1}, {"version": 0}, {"struct_size": ctypes.sizeof(Shared) - 8}, {"struct_size": 0}])
def test_an_owner_of_another_version_isn_t_called(fields):
    owner = Owner(**fields)
    with pytest.raises(ValueError, match="of another version of iox2_pubsub: build the program and this package of one"):
        ps.Domain.join(owner.capsule, "u8")
    assert owner.called == []


def test_an_owner_of_a_later_version_may_have_more_fields():
    owner = Owner(struct_size=ctypes.sizeof(Shared) + 8)
    ps.Domain.join(owner.capsule, "u8").close()
    assert owner.called[-1] == "release"
