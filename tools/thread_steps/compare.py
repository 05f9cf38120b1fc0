# SPDX-License-Identifier: Apache-2.0 OR MIT
"""What a message between threads costs beside channels, and the soak."""
import shutil
import statistics

from binding_steps import registry
from binding_steps.bench import where

from .base import BINDINGS, PATIENCE, STRESS, WORK, Count, env, sh, step

CHANNELS = "crossbeam-channel"
# How many messages are passed to this number of consumers: for long enough that the threads are spread over the processors.
MESSAGES = {1: 200000, 4: 40000, 16: 10000}
# The bound of a message in place with buffers of 64: at most this many times one by mpsc of `Arc`, by the processors of all threads.
# By a writer and readers, and by a call for each of its four steps.
MOST_IN_A_LOOP = {1: 1.5, 4: 1.0, 16: 1.0}
MOST_BY_CALLS = {4: 1.0, 16: 1.0}
RUNS = 7


def stress_program(name, crates=STRESS, rustflags="", target="target", words=()):
    """One of bindings/stress, compiled."""
    sh("cargo", "build", *words, "--offline", "--release", "--quiet", "--bin", name, cwd=crates,
       env=env(CARGO_TARGET_DIR=str(WORK / target), RUSTFLAGS=rustflags))
    return WORK / target / "release" / name


def soak(seconds, seed):
    """What the program says after so long."""
    program = stress_program("soak")
    return sh(program, seconds, seed, seconds=seconds + PATIENCE).strip()


def part_soak(seconds=20):
    """The soak as a step."""
    step(f"soak of {seconds} seconds", lambda: soak(seconds, 1))


def with_crossbeam():
    """The stress programs with crossbeam-channel, where Debian's crate is there."""
    if not registry.has_crate(CHANNELS):
        Count.missing.append(f"{CHANNELS} ({registry.package(CHANNELS)})")
        return stress_program("compare_threads"), ["mpsc", "mpsc-values"]
    crates = WORK / "compare"
    for crate in ("rust", "rust-sys", "stress", "include"):
        shutil.copytree(BINDINGS / crate, crates / crate, ignore=shutil.ignore_patterns("target"))
    manifest = crates / "stress/Cargo.toml"
    manifest.write_text(manifest.read_text().replace("[dependencies]\n", f'[dependencies]\n{CHANNELS} = "0.5"\n'))
    (crates / "stress/Cargo.lock").unlink(missing_ok=True)
    program = stress_program("compare_threads", crates / "stress", "--cfg crossbeam", "target_compare", registry.words())
    return program, ["mpsc", "mpsc-values", "crossbeam"]


def once(program, what, consumers, messages, buffer):
    """Nanoseconds by the clock and by processors."""
    return tuple(map(int, sh(program, what, consumers, messages, buffer).split()))


def medians(program, kinds, consumers, buffer):
    """The medians of the runs of each kind, by the clock and by processors. They take turns, so that what else the machine does meets
    all. (The least would be that of a run in which all threads happened to share one processor.)"""
    runs = {what: [] for what in kinds}
    for _ in range(RUNS):
        for what in kinds:
            runs[what].append(once(program, what, consumers, MESSAGES[consumers], buffer))
    return {what: tuple(map(statistics.median, zip(*of))) for what, of in runs.items()}


def print_table(title, program, kinds, buffer):
    """Prints a table, and returns it."""
    table = {consumers: medians(program, kinds, consumers, buffer) for consumers in MESSAGES}
    print(f"{title:26}" + "".join(f"{consumers:>18}" for consumers in MESSAGES), flush=True)
    for what in kinds:
        cells = ["{} / {}".format(*table[consumers][what]) for consumers in MESSAGES]
        print(f"{what:26}" + "".join(f"{cell:>18}" for cell in cells), flush=True)
    return table


def as_asked(table, what, consumers, most):
    """Whether such handles take no more processor time than is asked."""
    taken, channel = table[consumers][what][1], table[consumers]["mpsc"][1]
    said = f"{taken} ns of processors, {taken / channel:.2f} times the {channel} of mpsc, at most {most}"
    if taken > most * channel:
        raise RuntimeError(said)
    return said


def hold_to_mpsc(table):
    """Holds what is in place."""
    held = {"reader": MOST_IN_A_LOOP, "borrowed-reader": MOST_IN_A_LOOP, "in-place": MOST_BY_CALLS, "borrowed-in-place": MOST_BY_CALLS}
    for what, of in held.items():
        for consumers, most in of.items():
            step(f"{what}, buffers of 64, {consumers} consumers", lambda: as_asked(table, what, consumers, most))


def part_compare():
    """Prints all, and holds what is in place to mpsc."""
    program, channels = with_crossbeam()
    print(where())
    print(f"nanoseconds of a message by the clock / by the processors of all threads, the medians of {RUNS} runs; consumers:")
    kinds = ["reader", "in-place", "each", "copy"]
    domains = kinds + [f"borrowed-{kind}" for kind in kinds]
    hold_to_mpsc(print_table("buffers of 64", program, domains + channels, 64))
    print_table("buffers of 2", program, domains + channels, 2)
    print_table("a thread by itself", program, ["alone-one-thread", "alone-shared", "alone-borrowed"], 2)
