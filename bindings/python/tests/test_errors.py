# SPDX-License-Identifier: Apache-2.0 OR MIT
"""Exceptions: one for each code, which says what to do."""
import pickle
import re
from pathlib import Path

import pytest

import iox2_pubsub as ps
from iox2_pubsub import _core

CODED = [kind for kind in vars(ps).values() if isinstance(kind, type) and issubclass(kind, ps.Error) and kind.code]


# The headers of a clone lie in two folders, and those of a release in the first.
HEADERS = [header for folder in ("include", "processes") for header in (Path(__file__).parents[2] / folder).glob("iox2_pubsub*.h")]
CODES = re.compile(r"^typedef enum iox2ps_(?:processes_)?status_e \{\n(.*?)^\}", re.M | re.S)
CODE = re.compile(r"^  IOX2PS_(\w+) = (\d+)\b(?!,? +/\*\*< never returned)", re.M)
# What isn't in the name of a class, in which an error's kind comes first.
KIND = re.compile("_CREATE_ERROR|_ERROR|_FAILURE(?=_)|^NOTIFIER_")
# What is an answer and no exception, or can't come of what this package asks.
NO_ERRORS = {
    "OK", "NO_SAMPLE", "HAS_DOMAIN", "TOO_SMALL", "NO_CONNECTION", "INVALID_STRUCT_SIZE", "INVALID_RESERVED", "PROCESSES_FORKED", "PROCESSES_TIMED_OUT"
}  # fmt: skip


def test_each_code_of_the_headers_has_its_exception():
    codes = [one for header in HEADERS for enum in CODES.findall(header.read_text()) for one in CODE.findall(enum) if one[0] not in NO_ERRORS]
    named = {"SendBlocked" if name == "BLOCKED" else KIND.sub("", name).title().replace("_", ""): int(code) for name, code in codes}
    assert named == {kind.__name__: kind.code for kind in CODED if kind not in (ps.AfterFork, ps.OtherVersion)}


@pytest.mark.parametrize("kind", CODED)
def test_each_says_what_to_do(kind):
    assert _core.errors[kind.code] is kind and kind.__doc__
    assert len(str(kind())) > 20 and str(kind("other words")) == "other words"
    assert type(pickle.loads(pickle.dumps(kind()))) is kind


def test_codes_are_told_apart():
    assert len({kind.code for kind in CODED}) == len(CODED) == len(_core.errors)
    assert len({str(kind()) for kind in CODED}) >= len(CODED) - 3  # what two calls are refused for reads the same


@pytest.mark.parametrize(
    "kind, bases",
    [
        (ps.OutOfMemory, (ps.DomainCreateError, MemoryError)),
        (ps.SendBlocked, (ps.SendError, TimeoutError)),
        (ps.PublisherIsBlocked, (ps.LoanError, ps.SendError)),
        (ps.LoanExceedsMaxLoans, (ps.LoanError,)),
        (ps.LoanExceedsMaxLoanSize, (ps.LoanError, ValueError)),
        (ps.ReceiveExceedsMaxBorrows, (ps.ReceiveError,)),
        (ps.ConnectionOutOfMemory, (ps.ConnectionFailure, MemoryError)),
        (ps.PublisherUnableToCreateDataSegment, (ps.PublisherCreateError, MemoryError)),
        (ps.SubscriberBufferSizeExceedsMax, (ps.SubscriberCreateError, ValueError)),
        (ps.InvalidPayloadAlignment, (ps.DomainCreateError, ValueError)),
        (ps.NoSuchChannel, (ps.ChannelError, IndexError)),
        (ps.AfterFork, (RuntimeError,)),
    ],
)
def test_they_are_below_their_call_s_and_python_s_own(kind, bases):
    assert all(issubclass(kind, base) for base in (ps.Error, *bases))


def test_all_of_them_are_names_of_the_package():
    named = {name for name, kind in vars(ps.errors).items() if isinstance(kind, type) and issubclass(kind, ps.Error)}
    assert named == set(ps.errors.__all__) and named < set(ps.__all__)
