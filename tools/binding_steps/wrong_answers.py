# SPDX-License-Identifier: Apache-2.0 OR MIT
"""Answers of C that are wrong: a test has to see each."""
import subprocess

from .places import BINDINGS
from .programs import compile_program
from .steps import Failed, said

WRAPPED = (
    "iox2ps_domain_create", "iox2ps_subscriber_create", "iox2ps_blocked_subscriber", "iox2ps_domain_config_sized", "iox2ps_publisher_create_with"
)
# The test that has to see each fault.
FAULTS = {
    "FIRST_SUBSCRIBER_IS_NAMED": "calls",
    "LAST_SUBSCRIBER_IS_NAMED": "calls",
    "STRUCT_OF_ANOTHER_SIZE_IS_FILLED": "bad_input",
    "MEMORY_THAT_GROWS_MAY_BEGIN_WITH_NONE": "bad_input",
}


def with_fault(work, name, fault):
    """A test with the fault between it and the archive."""
    flags = ("-O1", f"-DFAULT={fault}", *(f"-Wl,--wrap={function}" for function in WRAPPED), BINDINGS / "c/wrong_answers.c")
    return compile_program("gcc", f"c/{name}.c", "c11", work / f"wrong_{name}", *flags)


def pass_without_fault(work):
    """Each test passes where nothing is wrong."""
    return "".join(said(with_fault(work, name, "NO_FAULT")) for name in sorted(set(FAULTS.values())))


def see_fault(work, fault):
    """Checks of the test fail."""
    ran = subprocess.run([with_fault(work, FAULTS[fault], fault)], stdout=subprocess.PIPE, stderr=subprocess.STDOUT, text=True)
    if ran.returncode != 1:
        raise Failed(f"c/{FAULTS[fault]}.c ended with {ran.returncode}")
    return f"c/{FAULTS[fault]}.c: {ran.stdout.splitlines()[-1]}"


def run_faults(steps, work):
    """Each fault in turn."""
    steps.run("c/wrong_answers.c, NO_FAULT", pass_without_fault, work)
    for fault in FAULTS:
        steps.run(f"c/wrong_answers.c, {fault}", see_fault, work, fault)
