# SPDX-License-Identifier: Apache-2.0 OR MIT
"""Compares what a message costs with the C calls, and with channels and queues of the standard library."""
import datetime
import os
import platform
import re

from . import machine
from .packages import cargo
from .places import TOP, is_here
from .programs import compile_program
from .steps import Failed, said

FEW, MANY, TIMED = 1000, 3000, 200000
SUBSCRIBERS = (1, 4, 16)
# By how many percent a message to one subscriber may take more instructions in Rust than by the C calls, and by how many instructions
# for each subscriber where there are more: a sample's numbers are copied, and its length and place looked at.
MORE, MORE_EACH = 5, 35
# The instructions that a loan of 64 KB may take in C++: one for each byte that is set, and a quarter of that.
MOST_OF_A_LOAN = 65536 * 5 // 4


def counted(words):
    """The instructions of a run."""
    written = said("valgrind", "--tool=callgrind", "--callgrind-out-file=/dev/null", *words)
    return int(re.search(r"Collected : (\d+)", written)[1])


def instructions(program, subscribers):
    """For one message: the difference of two runs."""
    few, many = (counted([*program, subscribers, messages]) for messages in (FEW, MANY))
    return (many - few) // (MANY - FEW)


def nanoseconds(program, subscribers):
    """For one message: the least of five runs."""
    return min(int(said(*program, subscribers, TIMED)) for _ in range(5))


def programs(work):
    """Compiles both, and returns that of Rust and that of C."""
    cargo(work, "build", "--release", "--offline", "--quiet", "--example", "compare")
    return work / "target/release/examples/compare", compile_program("gcc", "c/compare.c", "c11", work / "compare_c", "-O2")


def where():
    """The day, the commit, the machine, what else it does, and the compilers, in lines of text."""
    commit = said("git", "describe", "--always", "--dirty", cwd=TOP).strip()
    return "\n".join((
        f"{datetime.datetime.now():%-d %B %Y, %H:%M}, commit {commit}",
        f"{os.cpu_count()} processors, {machine.processor()}, Linux {platform.release()}",
        f"load of the last minute: {machine.load():.1f}" + (", so that times tell little" if machine.load() > 1 else ""),
        machine.compilers(),
    ))


def run_bench(work):
    """Prints the table."""
    compare, in_c = programs(work)
    rows = (
        ("the crate of Rust, written in place", [compare, "domain"]),
        ("the same, handles that borrow", [compare, "borrowed"]),
        ("the C calls, written in place", [in_c]),
        ("std::sync::mpsc of Arc", [compare, "mpsc"]),
        ("VecDeque of Rc", [compare, "queues"]),
    )
    print(where())
    print(f"{'a message of 64 bytes, by':36} {'subscribers':>11} {'instructions':>13} {'nanoseconds':>12}")
    for name, program in rows:
        for subscribers in SUBSCRIBERS:
            print(f"{name:36} {subscribers:11} {instructions(program, subscribers):13} {nanoseconds(program, subscribers):12}", flush=True)


def not_above_c(compare, in_c, what):
    """A message by these handles takes at most so much more than by the C calls."""
    rows = []
    for subscribers in SUBSCRIBERS:
        rust, c = instructions([compare, what], subscribers), instructions([in_c], subscribers)
        rows.append(f"{rust} to {c} ({(rust - c) * 100 / c:+.1f} %)")
        most = c * MORE / 100 if subscribers == 1 else MORE_EACH * subscribers
        if rust - c > most:
            raise Failed(f"more than {most:.0f} instructions above the C calls with {subscribers} subscribers: {rows[-1]}")
    return f"instructions with 1, 4 and 16 subscribers: {', '.join(rows)}"


def lent_in_place(program):
    """The default value of a message of 64 KB is set once for each loan, and copied by none."""
    few, many = (counted([program, loans]) for loans in (1, 11))
    each = (many - few) // 10
    if each > MOST_OF_A_LOAN:
        raise Failed(f"{each} instructions for a loan, more than {MOST_OF_A_LOAN}")
    return f"{each} instructions"


def run_cost_of_a_loan(steps, work):
    """Holds the instructions of a loan in C++ to those that set its bytes."""
    for compiler in ("g++", "clang++"):
        if not is_here(compiler) or not is_here("valgrind"):
            steps.skip(f"what a loan of 64 KB costs by {compiler}", "valgrind" if is_here(compiler) else compiler)
            continue
        program = compile_program(compiler, "cpp/loan_cost.cpp", "c++17", work / "loan_cost", "-O2")
        steps.run(f"a loan of 64 KB by {compiler}", lent_in_place, program)


def run_cost(steps, work):
    """Holds the instructions of a message in Rust to those of the C calls, and of a loan in C++."""
    run_cost_of_a_loan(steps, work)
    if not is_here("cargo") or not is_here("valgrind"):
        steps.skip("what a message costs in Rust", "cargo" if not is_here("cargo") else "valgrind")
        return
    compare, in_c = programs(work)
    for name, what in (("counted handles", "domain"), ("handles that borrow", "borrowed")):
        steps.run(f"a message in Rust beside C, {name}", not_above_c, compare, in_c, what)
