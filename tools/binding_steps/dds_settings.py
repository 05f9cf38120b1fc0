# SPDX-License-Identifier: Apache-2.0 OR MIT
"""The gateway to DDS in C++ and Rust over C that stands in for it, also where Cyclone DDS isn't there: that each setting reaches C, and that
nobody who comes late misses a message."""
import os
import re
import shutil

from .places import BINDINGS, OUT, is_here
from .programs import ARCHIVE, RACES, SANITIZERS, WARNINGS, compile_program
from .steps import said

TESTS = BINDINGS / "dds/tests"


NOTED, NEAR = "noted_settings", "near_gateway"


def make_archives(folder, bindings=BINDINGS, archive=ARCHIVE, stands_in=NOTED):
    """The archive beside what stands in for the gateway and for Cyclone DDS, whose functions nobody calls."""
    folder.mkdir(exist_ok=True)
    shutil.copyfile(archive, folder / "libiox2_pubsub.a")
    includes = ("-I", bindings / "include", "-I", bindings / "dds/include")
    made = folder / f"{stands_in}.o"
    said("gcc", "-std=c11", *WARNINGS, "-O1", *includes, "-c", bindings / f"dds/tests/{stands_in}.c", "-o", made)
    for name, objects in (("iox2_pubsub_dds", [made]), ("ddsc", [])):
        (folder / f"lib{name}.a").unlink(missing_ok=True)
        said("ar", "rcs", folder / f"lib{name}.a", *objects)
    return folder


def run_cpp(work, folder, bindings=BINDINGS):
    """The program in C++ that says the settings."""
    includes = ("-I", bindings / "include", "-I", bindings / "dds/include")
    archives = (folder / "libiox2_pubsub_dds.a", folder / "libiox2_pubsub.a")
    program = work / "dds_settings"
    said("g++", "-std=c++17", *WARNINGS, "-O1", *includes, bindings / "dds/tests/settings.cpp", *archives, "-o", program)
    return said(program)


def run_late(work, folder, compiler, *flags):
    """The program in C++ that comes late."""
    gateway = ("-I", BINDINGS / "dds/include")
    program = work / f"dds_late_{compiler}"
    return said(compile_program(compiler, "dds/tests/late.cpp", "c++17", program, *gateway, *flags, objects=[folder / f"{NEAR}.o"]))


def run_rust(work, folder, crate=OUT / "rust", tests="dds_settings"):
    """Tests of the crate."""
    places = {"IOX2_PUBSUB_LIB_DIR": str(folder), "CARGO_TARGET_DIR": str(work / f"target_{tests}")}
    words = ("cargo", "test", "--offline", "--quiet", "--features", "dds", "--test", tests, "--", "--ignored")
    return re.search(r"^test result.*", said(*words, cwd=crate, env={**os.environ, **places}), re.M)[0]


def run_settings(steps, work):
    """All of these."""
    noted, near = (make_archives(work / name, stands_in=name) for name in (NOTED, NEAR))
    if is_here("g++"):
        steps.run("dds/tests/settings.cpp, g++ c++17", run_cpp, work, noted)
    for compiler in filter(is_here, ("g++", "clang++")):
        steps.run(f"dds/tests/late.cpp, {compiler} c++17, sanitizers", run_late, work, near, compiler, *SANITIZERS)
        steps.run(f"dds/tests/late.cpp, {compiler} c++17, thread sanitizer", run_late, work, near, compiler, *RACES)
    if is_here("cargo"):
        steps.run("rust, the gateway's settings", run_rust, work, noted)
        steps.run("rust, who comes late to a gateway", run_rust, work, near, OUT / "rust", "dds_late")
