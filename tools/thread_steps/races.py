# SPDX-License-Identifier: Apache-2.0 OR MIT
"""The random programs under the thread sanitizer and helgrind."""
import re
import subprocess

from .base import PATIENCE, WORK, Count, env, sh, step, there
from .lists import CALLS, calls_of, random_cpp, random_rust


def suppressions():
    """The sanitizer doesn't know the fence of Rust's `Arc` before its last owner frees what it has. That of a thread's own handle the
    compiler puts in place."""
    path = WORK / "suppressions"
    path.write_text("race:drop_slow\nrace:Arc<std::thread::thread::Inner\n")
    return path


def sanitized(program, seeds, **more):
    """How many calls were made, and how many warnings came. With a fault, no status counts."""
    calls = warnings = 0
    for seed in seeds:
        done = subprocess.run([str(program), str(seed), str(CALLS), "4", str(WORK / "script"), str(WORK / "replies")],
                              stdout=subprocess.PIPE, stderr=subprocess.STDOUT, timeout=PATIENCE,
                              env=env(TSAN_OPTIONS=f"exitcode=66 suppressions={suppressions()}", **more))
        said = done.stdout.decode(errors="replace")
        warnings += said.count("WARNING: Thread")
        if not more and done.returncode != 0:
            raise RuntimeError(f"seed {seed} ended with {done.returncode}: {said[:3000]}")
        calls += calls_of(said) if "lock_order:" in said and "calls" in said else 0
    return calls, warnings


def no_races(program, seeds):
    """No seed brings a warning."""
    calls, warnings = sanitized(program, seeds)
    if warnings:
        raise RuntimeError(f"{warnings} warnings")
    return f"{calls} calls of 4 threads, no warning"


# How many runs a planted race may take to be seen: on a busy machine threads seldom meet, and a run may miss it.
MOST_RUNS = 60


def sees(program, fault):
    """A planted fault brings one, in some run."""
    for seed in range(1, MOST_RUNS + 1):
        _, warnings = sanitized(program, [seed], FAULT=fault)
        if warnings:
            return f"seen, {warnings} warnings in run {seed}"
    raise RuntimeError(f"it isn't seen in {MOST_RUNS} runs")


KNOWN = re.compile(r"stack_overflow|waiting::Sleeper|drop_slow|sync::Arc")
ACCESS = re.compile(r"(?:Possible data race|This conflicts).*?at 0x\w+: ([^\n]*)", re.S)


def is_known(report):
    """Whether it is of what helgrind doesn't know: the lock of the table of thread stacks of Rust's library, the atomic flag by which
    a thread is woken, and counts of Rust's `Arc` and of C++'s `shared_ptr`."""
    accesses = ACCESS.findall(report)
    counts = [at for at in accesses if "shared_ptr_base.h" in at or "atomicity.h" in at]
    return KNOWN.search(report) is not None or len(counts) == len(accesses) == 2


def helgrind(program):
    """Races, except those that are known."""
    said = sh("valgrind", "--tool=helgrind", program, 1, 8000, 4, WORK / "script", WORK / "replies")
    reports = re.sub(r"^==\d+== ?", "", said, flags=re.M).split("-" * 64)
    races = [report for report in reports if "Possible data race" in report and not is_known(report)]
    if races:
        raise RuntimeError(f"{len(races)} races: {races[0][:2000]}")
    return f"{calls_of(said)} calls of 4 threads, no race"


def part_sanitizer(seeds=range(1, 6), compilers=("g++", "clang++")):
    """The program of C++ under the thread sanitizer, and two planted faults."""
    for compiler in compilers:
        if there(compiler):
            name = f"tsan_{compiler}"
            step(f"random.cpp, {compiler}, thread sanitizer",
                 lambda: no_races(random_cpp(name, "-fsanitize=thread", compiler=compiler), seeds))
    for fault in ("LATE_READ", "LATE_WRITE"):
        step(f"random.cpp, {fault}, thread sanitizer", lambda: sees(WORK / "tsan_g++", fault))


def part_races():
    """All detectors."""
    part_sanitizer()
    if subprocess.run(["cargo", "+nightly", "--version"], capture_output=True).returncode == 0 and there("clang"):
        flags = "-Zsanitizer=thread --cfg pthread_lock -Cunsafe-allow-abi-mismatch=sanitizer"
        step("random.rs, thread sanitizer", lambda: no_races(random_rust(
            "target_tsan", flags, ["+nightly"], "-fsanitize=thread", "x86_64-unknown-linux-gnu"), range(1, 6)))
    else:
        Count.missing.append("a nightly toolchain of Rust")
    if there("valgrind"):
        step("random.cpp, helgrind", lambda: helgrind(random_cpp("helgrind_cpp", "-DNO_LOOKS")))
        step("random.rs, helgrind", lambda: helgrind(random_rust(
            "target_helgrind", "--cfg pthread_lock --cfg no_pool -Cdebuginfo=0 -Cstrip=debuginfo", (), "-gdwarf-4")))
