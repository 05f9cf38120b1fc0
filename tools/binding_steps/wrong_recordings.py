# SPDX-License-Identifier: Apache-2.0 OR MIT
"""Recordings that lack a line or have one too many: the tests of C have to see each."""
import subprocess

from .places import BINDINGS
from .programs import WRAPS, compile_program
from .recordings import RECEIVED_IN_C, has_received
from .steps import Failed, said

# What each fault is seen by: the program that keeps calls in each room, or what is read of the recording of another.
CALLS, RECEIVED = "c/recorded_calls.c", "the messages that c/recorded.c received"
FAULTS = {
    "A_READ_IS_MISSING": RECEIVED,
    "A_READ_HAS_ANOTHER_VALUE": RECEIVED,
    "A_READ_IS_THERE_TWICE": RECEIVED,
    "NO_READS": RECEIVED,
    "SETS_FOLLOW_A_REFUSED_SEND": CALLS,
    "THE_LAST_CALL_LACKS_ITS_END": CALLS,
    "ROOM_IS_FOR_FOURTEEN_COMMANDS": CALLS,
    "CHANNELS_ARE_LEFT_OUT": CALLS,
    "PLACES_ARE_LEFT_OUT": CALLS,
    "QUESTIONS_ARE_LEFT_OUT": CALLS,
    "NOTHING_IS_KEPT": CALLS,
}


def with_fault(work, source, fault, *flags):
    """A program with the fault between it and the archive."""
    wraps = ("-O1", f"-DFAULT={fault}", "-Wl,--wrap=iox2ps_domain_recording", *flags, BINDINGS / "c/wrong_recordings.c")
    return compile_program("gcc", source, "c11", work / "faulty_recording", *wraps)


def sees(work, fault):
    """Who sees the fault."""
    seen = []
    if subprocess.run([with_fault(work, "c/recorded_calls.c", fault, *WRAPS)], stdout=subprocess.DEVNULL).returncode:
        seen.append(CALLS)
    try:
        has_received(said(with_fault(work, "c/recorded.c", fault), both=False), RECEIVED_IN_C)
    except Failed:
        seen.append(RECEIVED)
    return seen


def pass_without_fault(work):
    """Both pass where nothing is wrong."""
    if seen := sees(work, "NO_FAULT"):
        raise Failed(f"without a fault, {' and '.join(seen)} fail")


def see_fault(work, fault):
    """Whoever has to see the fault does."""
    if FAULTS[fault] not in (seen := sees(work, fault)):
        raise Failed(f"{FAULTS[fault]} doesn't see it")
    return f"seen by {' and '.join(seen)}"


def run_faults(steps, work):
    """Each fault in turn."""
    steps.run("c/wrong_recordings.c, NO_FAULT", pass_without_fault, work)
    for fault in FAULTS:
        steps.run(f"c/wrong_recordings.c, {fault}", see_fault, work, fault)
