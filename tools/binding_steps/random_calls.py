# SPDX-License-Identifier: Apache-2.0 OR MIT
"""100,000 random calls beside `run`, as many on channels beside a model, and pointers that lead elsewhere, which the tests have to see."""
import subprocess

from .places import BINDINGS, is_here
from .programs import GRIND, NOTHING_LEFT, SANITIZERS, compile_program
from .steps import Failed, said

SCRIPT_CRATE = "pubsub_script"
SEEDS = range(1, 11)

# No contract says where a pointer leads, so that these faults aren't must-fail edits. They are put between the archive and the tests
# when those are linked, and take seconds: an archive that had one would be proved anew first.
WRAPPED = ("iox2ps_publisher_loan", "iox2ps_loan_payload", "iox2ps_subscriber_receive", "iox2ps_sample_payload")
FAULTS = (
    "LOAN_LEADS_TO_ANOTHER_LOAN",
    "PAYLOAD_LEADS_TO_ANOTHER_LOAN",
    "SAMPLE_LEADS_TO_ANOTHER_SAMPLE",
    "PAYLOAD_LEADS_TO_ANOTHER_SAMPLE",
    "SAMPLE_LEADS_TO_A_COPY",
    "SAMPLE_LEADS_ONE_BYTE_FURTHER",
)


def compare_with_run(work, script_of_run, program, seed):
    """What the calls of a seed return has to be what `run` replies to the same calls."""
    script, replies = work / "script", work / "replies"
    said(program, seed, 10000, script, replies)
    with script.open() as lines:
        ran = subprocess.run([script_of_run], stdin=lines, stdout=subprocess.PIPE, stderr=subprocess.PIPE, text=True)
    wanted, got = ran.stdout.splitlines(), replies.read_text().splitlines()
    if ran.returncode or wanted != got:
        at = next((at for at, pair in enumerate(zip(wanted, got)) if pair[0] != pair[1]), min(len(wanted), len(got)))
        raise Failed(f"line {at + 1}: run replies {wanted[at : at + 1]}, and the calls return {got[at : at + 1]}")
    return f"{len(got)} replies of 10,000 calls are those of run"


def run_random_calls(steps, work, script_of_run):
    """The random program under the sanitizers, seed by seed, and once under valgrind."""
    program = compile_program("gcc", "c/random_calls.c", "c11", work / "random_calls", "-O1", *SANITIZERS)
    for seed in SEEDS:
        steps.run(f"c/random_calls.c, sanitizers, seed {seed}", compare_with_run, work, script_of_run, program, seed)
    if is_here("valgrind"):
        grind = compile_program("gcc", "c/random_calls.c", "c11", work / "grind", "-O1", "-g")
        files = (work / "script", work / "replies")
        steps.run("c/random_calls.c, valgrind", said, *GRIND, *NOTHING_LEFT, grind, 11, 2000, *files)


def run_random_channels(steps, work):
    """The program that has a model of its own, in the same way. Half of its calls are on channels."""
    program = compile_program("gcc", "c/random_channels.c", "c11", work / "random_channels", "-O1", *SANITIZERS)
    for seed in SEEDS:
        steps.run(f"c/random_channels.c, sanitizers, seed {seed}", said, program, seed, 20000)
    if is_here("valgrind"):
        grind = compile_program("gcc", "c/random_channels.c", "c11", work / "grind", "-O1", "-g")
        steps.run("c/random_channels.c, valgrind", said, *GRIND, *NOTHING_LEFT, grind, 11, 2000)


def with_fault(work, name, fault):
    """A test with the fault between it and the archive."""
    wraps = [f"-Wl,--wrap={function}" for function in WRAPPED]
    flags = ("-O1", "-g", f"-DFAULT={fault}", *wraps, BINDINGS / "c/wrong_pointers.c")
    return compile_program("gcc", f"c/{name}.c", "c11", work / f"faulty_{name}", *flags)


def pass_without_fault(work, script_of_run):
    """Both tests pass where nothing is wrong."""
    said(with_fault(work, "calls", "NO_FAULT"))
    return compare_with_run(work, script_of_run, with_fault(work, "random_calls", "NO_FAULT"), 1)


def see_fault(work, script_of_run, fault):
    """Checks of calls.c have to fail, and random_calls.c, by itself or by a reply that isn't that of run."""
    ran = subprocess.run([with_fault(work, "calls", fault)], stdout=subprocess.PIPE, stderr=subprocess.STDOUT, text=True)
    if ran.returncode != 1:
        raise Failed(f"calls.c ended with {ran.returncode}")
    random_calls = with_fault(work, "random_calls", fault)
    try:
        compare_with_run(work, script_of_run, random_calls, 1)
    except Failed:
        return f"c/random_calls.c sees it, and c/calls.c: {ran.stdout.splitlines()[-1]}"
    raise Failed("random_calls.c doesn't see it")


def run_faults(steps, work, script_of_run):
    """Each fault in turn."""
    steps.run("c/wrong_pointers.c, NO_FAULT", pass_without_fault, work, script_of_run)
    for fault in FAULTS:
        steps.run(f"c/wrong_pointers.c, {fault}", see_fault, work, script_of_run, fault)
