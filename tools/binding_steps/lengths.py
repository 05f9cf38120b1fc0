# SPDX-License-Identifier: Apache-2.0 OR MIT
"""Compares what a message takes by its length: this library, queues of Rust that copy nothing, iceoryx and a copy, one after the other."""
import os
import re
import statistics
import time
from pathlib import Path

from . import machine, registry
from .folder import join_archives, made_of_proof
from .headers import ICEORYX
from .places import BINDINGS, TOP, is_here, version
from .programs import WARNINGS, compile_program
from .steps import said

BESIDE = BINDINGS / "beside"
LENGTHS = ((8, "8 B"), (64, "64 B"), (4096, "4 KB"), (1 << 20, "1 MB"))
IN_RATTLE = "in Rattle, a number"
# How many messages the program in Rattle passes: the instructions are the difference of two runs.
FEW, MANY, TIMED = 1000, 3000, 200000
ROUNDS = 5
# How many messages the function `counted` of the programs passes.
COUNTED = 20
# The C library is to fill and copy by vector stores: see tools/lib.sh.
VECTORS = {"GLIBC_TUNABLES": (TOP / "tools/glibc_tunables.txt").read_text().strip()}
ROUDI = ("-liceoryx_binding_c", "-liceoryx_posh_roudi", "-liceoryx_posh", "-liceoryx_hoofs", "-liceoryx_platform")
# What iceoryx's headers of C++ include.
ACCESS_LISTS = Path("/usr/include/sys/acl.h")


def has_roudi():
    """Whether all is here that ROUDI needs."""
    return (ICEORYX / "iceoryx_posh/roudi").is_dir() and (ICEORYX / "iceoryx_binding_c/api.h").exists() and ACCESS_LISTS.exists()


def main_program(work):
    """The part that all programs share."""
    said("gcc", "-std=c11", *WARNINGS, "-O2", "-c", BESIDE / "lengths.c", "-o", work / "lengths.o")
    return work / "lengths.o"


def of_c(work, name):
    """A program whose library is called from C."""
    return compile_program("gcc", f"beside/lengths_{name}.c", "c11", work / name, "-O2", objects=[main_program(work)])


def of_rust(work, name, *features):
    """A program around a library of Rust."""
    target = work / "target_lengths"
    given = ("--features", ",".join(features)) if features else ()
    words = ("cargo", "build", "--release", "--offline", "--quiet", "--example", f"lengths_{name}", *given, *registry.words())
    said(*words, cwd=BESIDE, env={**os.environ, "CARGO_TARGET_DIR": str(target)})
    said(
        "gcc", main_program(work), target / f"release/examples/liblengths_{name}.a", "-pthread", "-ldl", "-lm", "-o", work / f"{name}_rust"
    )
    return work / f"{name}_rust"


def of_rattle(work):
    """The program around the library that is proved with a bench in Rattle."""
    joined = work / "libmessage_cost_joined.a"
    join_archives(made_of_proof("message_cost"), joined)
    said("gcc", "-std=c11", *WARNINGS, "-O2", BESIDE / "lengths_rattle.c", joined, "-o", work / "rattle")
    return work / "rattle"


def of_iceoryx(work):
    """The program of iceoryx, with its broker."""
    compiled = work / "lengths_iceoryx.o"
    said("g++", "-std=c++17", *WARNINGS, "-O2", "-isystem", ICEORYX, "-c", BESIDE / "lengths_iceoryx.cpp", "-o", compiled)
    said("g++", main_program(work), compiled, *ROUDI, "-pthread", "-o", work / "iceoryx")
    return work / "iceoryx"


def programs(work, is_proved):
    """The columns: what each is called, and its program. That in Rattle is made of proofs."""
    columns = [("this library, from C", of_c(work, "iox2_pubsub"))]
    if is_here("cargo"):
        columns.append(("from Rust", of_rust(work, "iox2_pubsub", "iox2_pubsub")))
    if is_proved and is_here("rt"):
        columns.append((IN_RATTLE, of_rattle(work)))
    if is_here("cargo"):
        columns.append(("a pool of eight `Rc<[u8]>`", of_rust(work, "pool")))
        for crate, name in (("crossbeam", "`crossbeam` of pooled `Arc`"), ("tokio", "`tokio::sync::broadcast` of pooled `Arc`")):
            if registry.has_crate(crate):
                columns.append((name, of_rust(work, crate, crate)))
            else:
                print(f"skipped {crate}: Debian's {registry.package(crate)} isn't here")
    else:
        print("skipped what is in Rust: cargo isn't here")
    if has_roudi():
        columns.append(("iceoryx 2.0.3", of_iceoryx(work)))
    else:
        print("skipped iceoryx: libiceoryx-binding-c-dev, libiceoryx-posh-dev and libacl1-dev aren't here")
    return [*columns, ("`memcpy` alone", of_c(work, "memcpy"))]


def has(program, length):
    """Whether a program passes messages of this length: that in Rattle passes numbers."""
    return program.name != "rattle" or length == LENGTHS[0][0]


def counted(*words):
    """The instructions that callgrind counts."""
    return int(
        re.search(
            r"Collected : (\d+)",
            said("valgrind", "--tool=callgrind", "--callgrind-out-file=/dev/null", *words, env={**os.environ, **VECTORS}),
        )[1]
    )


def instructions(program, length):
    """For one message, of the thread that passes it."""
    if program.name == "rattle":
        return (counted(program, MANY) - counted(program, FEW)) // (MANY - FEW)
    return counted("--toggle-collect=counted", program, length, "count") // COUNTED


def nanoseconds(program, length):
    """For one message, of one run."""
    return float(said(program, *((TIMED,) if program.name == "rattle" else (length,)), "time").split()[-1])


def figure(number):
    """A number as it stands in the table."""
    return f"{number:,.0f}"


def times(columns):
    """By length and program, the times of all rounds. In each round one program comes after the other."""
    found = {(length, program): [] for length, _ in LENGTHS for _, program in columns if has(program, length)}
    for _ in range(ROUNDS):
        for length, program in found:
            found[length, program].append(nanoseconds(program, length))
    return found


def run_lengths(work, is_proved):
    """Prints the table."""
    columns, loads = programs(work, is_proved), [machine.load()]
    measured = times(columns)
    loads.append(machine.load())
    print("\n| A message of | " + " | ".join(name for name, _ in columns) + " |\n|---|" + "---|" * len(columns))
    for length, title in LENGTHS:
        cells = (
            f"{figure(instructions(program, length))}, {figure(statistics.median(measured[length, program]))} ns"
            if has(program, length)
            else ""
            for _, program in columns
        )
        print(f"| {title} | {' | '.join(cells)} |", flush=True)
    print(
        f"\nInstructions and nanoseconds of one message, which is lent, one word of it written, sent, received, read and released by one"
        f" thread. Instructions by callgrind, of {COUNTED} messages; nanoseconds on a processor, the median of {ROUNDS} runs;"
        f" in each the libraries come one after the other. {time.strftime('%-d %B %Y')}, {machine.processor()}, load of the machine {min(loads):.1f} to"
        f" {max(loads):.1f} on {os.cpu_count()} processors; iox2_pubsub {version()}, {machine.compilers()}."
    )
    for length, title in LENGTHS:
        for name, program in columns:
            every = ", ".join(figure(one) for one in sorted(measured.get((length, program), ())))
            print(f"  {title}, {name}: {every} ns", flush=True)
