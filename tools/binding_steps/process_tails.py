# SPDX-License-Identifier: Apache-2.0 OR MIT
"""The tail of round trips between processes, beside iceoryx' and beside a flag that takes as long, rounds taking turns."""
import os
import statistics
from dataclasses import dataclass

from . import machine
from .process_figures import CPP, OTHER, OURS, RUST, broker_of, heading, printed_by, programs

COUNT = 12000
# The most that 99 and 99.9 % of the quiet round trips take of their median; and in how many of so many rounds they take no more than iceoryx'.
MOST_OF_MEDIAN = (2, 3)
ROUNDS, ROUNDS_BELOW = 5, 4
SERIES = ("all", "quiet", "a flag that takes as long, quiet")


@dataclass(frozen=True)
class Tail:
    """What is measured, and by whom."""

    title: str
    length: int
    buffer: int = 64
    by: tuple[str, ...] = (OURS, CPP, RUST, OTHER)
    # A process of its own makes the copies of the book-keeping.
    is_followed: bool = False


# Of 610 messages that may wait the book-keeping takes 490 bytes each.
TAILS = (Tail("64 B", 64), Tail("4 KB", 4096), Tail("64 B, book-keeping of 300 KB, followed", 64, 610, (OURS,), True))


def processors():
    """Two for the processes, which share no core if it can be helped."""
    allowed = sorted(os.sched_getaffinity(0))
    return allowed[0], allowed[len(allowed) // 2]


def measure(name, program, tail, share):
    """Of each series the median, 99 and 99.9 %; or none."""
    words = [program, f"tails_{os.getpid()}", tail.length, tail.buffer, max(200, int(COUNT * share)), *processors()]
    said = printed_by(name, [*words, *["follows"] * tail.is_followed], tail.title, broker_of(name, program, tail.length, tail.buffer, 1))
    return said and tuple(said[at:at + 3] for at in range(0, len(said), 3))


def medians(found):
    """Of the rounds."""
    return [[statistics.median(numbers) for numbers in zip(*series)] for series in zip(*found)]


def say_table(figures):
    """All series of each."""
    print("\n| Round trip | By | Which | median | 99 % | 99.9 % | of the median |\n|---|---|---|---|---|---|---|")
    for (tail, name), found in figures.items():
        for which, numbers in zip(SERIES, medians([one for one in found if one])):
            cells = " | ".join(f"{number / 1000:,.1f}" for number in numbers)
            print(f"| {tail.title} | {name} | {which} | {cells} | {numbers[1] / numbers[0]:.2f}, {numbers[2] / numbers[0]:.2f} |")


def judge(figures):
    """How many promises hold, and how many don't."""
    counts = [0, 0]

    def say(is_kept, words):
        print(f"{'holds' if is_kept else 'FAILS'}: {words}")
        counts[not is_kept] += 1

    for tail in TAILS:
        ours = figures[tail, OURS]
        quiet = medians([one for one in ours if one])[1] if any(ours) else [1, float("inf"), float("inf")]
        for words, number, most in zip(("99 %", "99.9 %"), quiet[1:], MOST_OF_MEDIAN):
            say(number <= most * quiet[0], f"{tail.title}: {words} of the quiet take at most {most} times the median: {number / quiet[0]:.2f}")
        other = figures.get((tail, OTHER), ())
        for at, words in enumerate(("99 %", "99.9 %"), 1):
            pairs = [(one[1][at], its[1][at]) for one, its in zip(ours, other) if one and its]
            below = sum(mine <= its for mine, its in pairs)
            if pairs:
                say(below * ROUNDS >= ROUNDS_BELOW * len(pairs), f"{tail.title}: {words} of the quiet take no more than iceoryx', in {below} of {len(pairs)} rounds")
    return counts


def run_tails(work, library, rounds, share):
    """All of them, and the exit status."""
    by = programs(work, library, "tail.c")
    figures = {(tail, name): [] for tail in TAILS for name in tail.by if name in by}
    for turn in range(rounds):
        print(f"round {turn + 1} of {rounds}, load {machine.load():.1f}", flush=True)
        for tail, name in figures:
            figures[tail, name].append(measure(name, by[name], tail, share))
    print(heading())
    say_table(figures)
    passed, failed = judge(figures)
    print(f"{passed} passed, {failed} failed")
    return int(failed > 0)
