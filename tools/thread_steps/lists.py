# SPDX-License-Identifier: Apache-2.0 OR MIT
"""Random calls of four threads against `run`, and with forbidden bytes."""
import re
import subprocess

from .base import ARCHIVE, BINDINGS, SCRIPT, STRESS, WARNINGS, WORK, env, sh, step, there

WRAPS = [f"-Wl,--wrap={name}" for name in (STRESS / "wrapped.txt").read_text().split()]
CALLS = 25000


def random_cpp(name, *flags, compiler="g++"):
    """The random program of C++ with lock_order.c between it and the archive."""
    program, order = WORK / name, WORK / f"{name}.o"
    c = "gcc" if compiler == "g++" else "clang"
    include = ["-I", BINDINGS / "include"]
    sh(c, "-O1", "-g", *flags, *include, "-c", STRESS / "lock_order.c", "-o", order)
    sh(compiler, "-std=c++17", "-O1", "-g", *WARNINGS, *flags, *include, STRESS / "random.cpp", order,
       ARCHIVE / "libiox2_pubsub.a", *WRAPS, "-pthread", "-o", program)
    return program


def random_rust(target, rustflags="", toolchain=(), order_flags="", triple=None):
    """The same of Rust."""
    more = ["--target", triple] if triple else []
    sh("cargo", *toolchain, "build", "--offline", "--release", "--quiet", "--bin", "random", *more, cwd=STRESS,
       env=env(CARGO_TARGET_DIR=str(WORK / target), RUSTFLAGS=rustflags, LOCK_ORDER_CFLAGS=order_flags,
               CC="clang" if triple else "gcc"))
    return WORK / target / (triple or "") / "release/random"


def calls_of(said):
    """How many calls a random program made."""
    return int(re.search(r"lock_order: (\d+) calls", said).group(1))


def compared(program, seed):
    """The calls of a seed, whose replies are those of run. Returns how many calls and replies there were."""
    script, replies = WORK / "script", WORK / "replies"
    said = sh(program, seed, CALLS, 4, script, replies)
    with open(script) as calls:
        printed = subprocess.run([SCRIPT], stdin=calls, stdout=subprocess.PIPE, stderr=subprocess.PIPE, check=True)
    mine = replies.read_bytes()
    if printed.stdout != mine:
        lines = zip(printed.stdout.splitlines(), mine.splitlines())
        where = next((at for at, (one, other) in enumerate(lines) if one != other), "the end")
        raise RuntimeError(f"seed {seed}: replies differ from run at line {where}")
    return calls_of(said), mine.count(b"\n")


def lists(program, seeds):
    """Seed after seed."""
    calls = replies = 0
    for seed in seeds:
        made, lines = compared(program, seed)
        calls, replies = calls + made, replies + lines
    return f"{len(seeds)} lists of 4 threads, {calls} calls, {replies} replies are those of run"


def part_lists(seeds=range(1, 11)):
    """Both languages."""
    step("random.cpp, lists", lambda: lists(random_cpp("random_cpp"), seeds))
    if there("cargo"):
        step("random.rs, lists", lambda: lists(random_rust("target"), seeds))


def forbidden(seed):
    """One seed, under valgrind."""
    said = sh("valgrind", "-q", "--error-exitcode=9", WORK / "no_access", seed, 12000, 1, WORK / "script", WORK / "replies")
    return f"{calls_of(said)} calls touch no byte of a live loan or sample"


def part_forbidden(seeds=range(1, 4)):
    """Seed after seed."""
    if not there("valgrind"):
        return
    step("random.cpp, with bytes forbidden, compiles", lambda: random_cpp("no_access", "-DNO_ACCESS"))
    for seed in seeds:
        step(f"random.cpp, bytes forbidden, seed {seed}", lambda: forbidden(seed))
