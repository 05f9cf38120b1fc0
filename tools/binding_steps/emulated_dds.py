# SPDX-License-Identifier: Apache-2.0 OR MIT
"""The gateway to DDS for another processor: compiled here beside Debian's libraries for it, and run by the emulator between processes."""
import os
import re
import subprocess
import sys
from pathlib import Path

from .places import BINDINGS, is_here
from .steps import Failed, said

GATEWAY = BINDINGS / "dds"
PROGRAMS = ("peer", "cases", "plain", "liar", "calls", "frames")
# Tests that look at one thing each and wait for each other, not for times.
TESTS = (
    "small", "several", "both_ways", "late_joiner", "receiver_killed", "typed_values", "bad_frames", "other_struct", "threads", "c_calls",
)
# An emulated process may take so many times as long as another, and all of them so many seconds.
SLOWER, MOST_SECONDS = "4", 5400


def library(target):
    """Debian's library of Cyclone DDS for the target."""
    return Path("/usr/lib", target.triple.replace("-unknown", ""), "libddsc.so")


def lacking(target):
    """What isn't here of what the gateway needs."""
    programs = [program for program in ("cmake", "idlc") if not is_here(program)]
    return programs if library(target).exists() else [*programs, f"{library(target)} (Debian's cyclonedds-dev:arm64)"]


def put_emulator_before(program, emulator):
    """A line of shell in the program's place, which becomes the emulator: who kills it kills that."""
    compiled = program.rename(program.with_suffix(".elf"))
    program.write_text(f'#!/bin/sh\nexec {" ".join(emulator)} "{compiled}" "$@"\n')
    program.chmod(0o755)


def build(emulated):
    """The gateway and the programs of its tests."""
    folder, target = emulated.work / "gateway", emulated.target
    toolchain = target.out / "cross" / f"{target.triple.replace('-unknown', '')}.cmake"
    options = (f"-DCMAKE_TOOLCHAIN_FILE={toolchain}", f"-DCMAKE_PREFIX_PATH={target.out}", "-DIOX2PS_DDS_TESTS=ON", "-DIOX2PS_DDS_WERROR=ON")
    said("cmake", "-S", GATEWAY, "-B", folder, *options)
    said("cmake", "--build", folder)
    for program in PROGRAMS:
        put_emulator_before(folder / program, target.emulator)
    return f"{len(PROGRAMS)} programs"


def between_processes(emulated):
    """The tests, each of two processes and more."""
    words = [sys.executable, GATEWAY / "tests/run.py", emulated.work / "gateway", *TESTS]
    environment = {**os.environ, "FEW": "1", "SLOWER": SLOWER}
    ran = subprocess.run(words, stdin=subprocess.DEVNULL, stdout=subprocess.PIPE, stderr=subprocess.STDOUT, text=True, timeout=MOST_SECONDS, env=environment)
    last = re.search(r"^(\d+) passed, (\d+) failed$", ran.stdout, re.M)
    if ran.returncode or not last or int(last[1]) != len(TESTS):
        raise Failed(ran.stdout[-4000:])
    return last[0]


def run_gateway(steps, emulated):
    """Both, and the frames by themselves."""
    name = emulated.target.name
    if absent := lacking(emulated.target):
        steps.skip(f"the gateway to DDS for {name}", ", ".join(absent))
        return
    steps.run(f"dds, build for {name}", build, emulated)
    steps.run(f"dds, frames, {name}", lambda: said(emulated.work / "gateway/frames"))
    steps.run(f"dds, between processes, {name}", between_processes, emulated)
