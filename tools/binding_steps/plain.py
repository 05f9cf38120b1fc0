# SPDX-License-Identifier: Apache-2.0 OR MIT
"""The archive for every x86-64 processor: programs over it, on older processors too, and how a project chooses it."""
import os
import re

from . import build_sums, determinism
from .folder import fill
from .headers import same_functions
from .installed import FIND, taken
from .places import BINDINGS, OUT, is_here
from .programs import ARCHIVE, OWN_MALLOC, PAIRS, QEMU, TOO_OLD, WRAPS, compile_program, on_processor
from .steps import Failed, said
from .targets import AARCH64, PLAIN

PLAIN_PACKAGE = "iox2_pubsub_plain"
AS_PART = f'add_subdirectory("{OUT}" iox2_pubsub)'
PLAIN_ARCHIVE = OUT / "lib" / PLAIN.archive
# What a program says that is linked with the other archive.
CHECKED = b"this archive needs a processor of x86-64-v2"
SOURCES = (("c/calls.c", ()), ("c/bad_input.c", ()), ("c/heap.c", WRAPS), *((source, WRAPS) for source in OWN_MALLOC))


def symbols(archive):
    """The names that an archive shows."""
    return set(re.findall(r" [A-TV-Z] (\S+)$", said("nm", "-g", "--defined-only", archive, both=False), re.M))


def same_symbols():
    """It shows what the other archive does."""
    others = symbols(PLAIN_ARCHIVE) ^ symbols(ARCHIVE)
    if others:
        raise Failed(f"in one of the two archives alone: {', '.join(sorted(others))}")
    return same_functions(PLAIN_ARCHIVE)


def linked(work, source, *flags):
    """A program over it."""
    program = work / f"plain_{source.replace('/', '_').replace('.', '_')}"
    return compile_program("gcc", source, "c11", program, *flags, archive=PLAIN.archive)


def on_older(work):
    """A program of all calls runs on processors that the other archive isn't for."""
    program = linked(work, "c/calls.c", "-O1", "-static")
    for processor in TOO_OLD:
        status, written = on_processor(program, processor)
        if status:
            raise Failed(f"on {processor} it ends with {status}:\n{written[-2000:]}")
    return f"{', '.join(TOO_OLD)}: {written.splitlines()[-1]}"


# ---- how a project chooses it


def has_chosen(program, is_plain=True):
    """The program is linked with this archive, or with the other one, which has the words for older processors."""
    if (CHECKED in program.read_bytes()) == is_plain:
        raise Failed(f"{program.name} is linked with the {'other' if is_plain else 'plain'} archive")
    return "the plain archive" if is_plain else "the other archive"


def without_plain(work):
    """A folder that has the other archive alone."""
    folder = work / "without plain"
    if not folder.exists():
        fill(folder, [ARCHIVE])
    return folder


def by_cmake(work):
    """IOX2PS_PLAIN chooses, for a project that finds the folder and for one that has it in itself."""
    for name, taking in (("plain", FIND), ("plain_part", AS_PART)):
        for is_plain in (True, False):
            flags = (f"-DCMAKE_PREFIX_PATH={OUT}", f"-DIOX2PS_PLAIN={'ON' if is_plain else 'OFF'}")
            has_chosen(taken(work, name, taking, PAIRS[0], *flags) / "thermometer_c", is_plain)
    shared = taken(work, "plain_shared", AS_PART, PAIRS[0], "-DIOX2PS_PLAIN=ON", "-DIOX2PS_SHARED=ON", target="shared")
    has_chosen(next(path for path in shared.rglob("libiox2_pubsub.so.*") if not path.is_symlink()))
    return "IOX2PS_PLAIN"


def by_pkg_config(work):
    """The package's name chooses; a folder without the archive has no such package."""
    from .packages import pkg_config

    printed = pkg_config(work, name="plain_by_pkg_config", package=PLAIN_PACKAGE)
    has_chosen(work / "plain_by_pkg_config")
    environment = {**os.environ, "PKG_CONFIG_PATH": str(without_plain(work) / "lib/pkgconfig")}
    said("pkg-config", "iox2_pubsub", env=environment)
    written = said("pkg-config", "--libs", PLAIN_PACKAGE, env=environment, fails=True)
    if f"{PLAIN_PACKAGE} was not found" not in written:
        raise Failed(written)
    return printed


def by_cargo(work):
    """The feature chooses."""
    for is_plain in (True, False):
        words = ["cargo", "build", "--offline", "--quiet", "--bin", "first_message", *(["--features", "plain"] if is_plain else [])]
        said(*words, cwd=OUT / "examples", env={**os.environ, "CARGO_TARGET_DIR": str(work / "target_plain")})
        program = work / "target_plain/debug/first_message"
        has_chosen(program, is_plain)
        said(program)
    return "the feature plain"


# ---- where there is none


def refused_by_cmake(work):
    """A folder without it refuses a project that asks for it, and says what isn't there."""
    folder = without_plain(work)
    for name, taking in (("found", FIND), ("part", f'add_subdirectory("{folder}" iox2_pubsub)')):
        project = work / f"without_plain_{name}"
        project.mkdir()
        (project / "CMakeLists.txt").write_text(f"cmake_minimum_required(VERSION 3.16)\nproject(without C)\n{taking}\n")
        words = ("cmake", "-S", project, "-B", project / "build", f"-DCMAKE_PREFIX_PATH={folder}")
        written = " ".join(said(*words, "-DIOX2PS_PLAIN=ON", fails=True).split())
        if "IOX2PS_PLAIN asks for the archive for every x86-64 processor, and this folder has none" not in written:
            raise Failed(written)
        said(*words, "-DIOX2PS_PLAIN=OFF")
    return "said by find_package and add_subdirectory"


def refused_by_cargo(work):
    """For another processor the feature is refused, with what to write."""
    words = ("cargo", "check", "--offline", "--features", "plain", "--target", AARCH64.triple)
    written = said(*words, cwd=OUT / "rust-sys", env={**os.environ, "CARGO_TARGET_DIR": str(work / "target_plain")}, fails=True)
    if f"the feature plain for x86_64 alone, not for {AARCH64.triple}" not in written:
        raise Failed(written)
    return f"not for {AARCH64.triple}"


def run_choices(steps, work):
    """Each tool that is here chooses it, and refuses a wrong choice."""
    for program, name, step in (
        ("cmake", "cmake", by_cmake), ("cmake", "cmake, where there is none", refused_by_cmake), ("pkg-config", "pkg-config", by_pkg_config),
        ("cargo", "cargo", by_cargo), ("cargo", "cargo, for another processor", refused_by_cargo),
    ):
        if is_here(program):
            steps.run(f"the plain archive by {name}", step, work)
        else:
            steps.skip(f"the plain archive by {name}", program)


def run_plain(steps, work):
    """All of these."""
    if not PLAIN_ARCHIVE.exists():
        steps.skip("the archive for every x86-64 processor", f"{PLAIN.archive} beside the one that was given")
        return
    steps.run("the plain archive's symbols", same_symbols)
    steps.run("the plain archive says its build's sum", build_sums.says_it, PLAIN_ARCHIVE, PLAIN, work)
    steps.run("what decides a call, plain", determinism.run, PLAIN_ARCHIVE, PLAIN, work)
    for source, flags in SOURCES:
        steps.run(f"{source}, plain", lambda: said(linked(work, source, "-O2", *flags)))
    if is_here(QEMU):
        steps.run("older processors, plain", on_older, work)
    else:
        steps.skip("older processors, plain", f"{QEMU} (Debian's qemu-user-static)")
    run_choices(steps, work)
