# SPDX-License-Identifier: Apache-2.0 OR MIT
"""What a message costs in Python: instructions, which are the same at each length, and time beside Python's queues."""
import os
import re
from concurrent.futures import ThreadPoolExecutor

from .places import BINDINGS, is_here
from .steps import Failed, said

PROGRAM = BINDINGS / "python/tests/compare.py"
LENGTHS = (64, 1 << 20)
# Messages of the two runs whose difference counts, which are both past the first use of each slot. What begins and ends a run takes some
# 40,000 instructions more or fewer each time, so that fewer messages would count 40 more or fewer each.
FEW, MANY = 500, 10_500
# At most this number of instructions a message in place, with both of its arrays: one in a hundred more than Debian 12's CPython 3.11,
# numpy 1.24 and gcc 12 take, 9,846. The first form of the extension, a single file, takes 11,893 by the same calls.
MOST = 9_945


def instructions(work, python, bytes_, messages):
    """All of a run, as callgrind counts them."""
    counts = work / f"callgrind_{bytes_}_{messages}"
    words = ("valgrind", "--tool=callgrind", f"--callgrind-out-file={counts}", python, PROGRAM, "messages", bytes_, messages)
    places = {**os.environ, "PYTHONHASHSEED": "0", "OPENBLAS_NUM_THREADS": "1"}
    return int(re.search(r"Collected : (\d+)", said(*words, env=places, cwd=work))[1])


def same_at_each_length(work, python):
    """A message takes as many at 64 bytes as at a megabyte, and not too many. The runs are counted side by side, behind one that isn't:
    the first on a machine compiles Python's own files."""
    said(python, PROGRAM, "messages", LENGTHS[0], 1, cwd=work)
    runs = [(bytes_, messages) for bytes_ in LENGTHS for messages in (FEW, MANY)]
    with ThreadPoolExecutor(2) as beside:
        counted = dict(zip(runs, beside.map(lambda run: instructions(work, python, *run), runs)))
    short, long = ((counted[bytes_, MANY] - counted[bytes_, FEW]) / (MANY - FEW) for bytes_ in LENGTHS)
    if abs(short - long) > short / 200 or short > MOST:
        raise Failed(f"{short:.0f} instructions at 64 bytes, {long:.0f} at a megabyte, {MOST} at most")
    return f"{short:.0f} instructions at 64 bytes, {long:.0f} at a megabyte"


def run_costs(steps, work, python):
    """The count."""
    if is_here("valgrind"):
        steps.run("python, instructions of a message", same_at_each_length, work, python)
    else:
        steps.skip("python, instructions of a message", "valgrind")


def bench(work, python):
    """The table of times, as docs/COST.md has it."""
    print(said(python, PROGRAM, "times", cwd=work, both=False), end="")
    with open("/proc/loadavg", encoding="ascii") as numbers:
        print(f"load {numbers.read().split()[0]} on {os.cpu_count()} processors")
