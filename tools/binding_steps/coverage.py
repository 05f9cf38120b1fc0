# SPDX-License-Identifier: Apache-2.0 OR MIT
"""Counts which lines and branches the tests run: of the headers, the archive's C, the gateway and Python's C by gcov, of the Rust crate
by LLVM."""
import gzip
import json
import os
import sys
from collections import defaultdict
from pathlib import Path

from . import python_build, python_package, python_wheels, rust_coverage
from .places import BINDINGS, OUT, is_here
from .programs import WRAPS, compile_program
from .steps import Failed, said

PROGRAMS = (
    "cpp/tests.cpp", "cpp/threads.cpp", "cpp/wait_sets.cpp", "cpp/at_exit.cpp", "../examples/thermometer/thermometer.cpp",
    "../examples/one_may_lose/one_may_lose.cpp",
)
C_PROGRAMS = ("c/calls.c", "c/bad_input.c", "c/settings.c")
# What of the archive is C.
ARCHIVE_PARTS = ("heap.c", "memory.c", "processor.c")
DDS = BINDINGS / "dds"
# Without exceptions no call has a branch for one.
FLAGS = ("-O0", "--coverage", "-fno-exceptions", "-pthread")


class Counted:
    """The lines and branches of a file, and how often each was run, in all programs and for all types together."""

    def __init__(self):
        self.lines, self.branches = defaultdict(int), defaultdict(int)

    def add(self, line):
        number = line["line_number"]
        self.lines[number] += line["count"]
        for index, branch in enumerate(line["branches"]):
            if not branch["throw"]:
                self.branches[number, index] += branch["count"]

    def part(self, counts):
        """How many of these were run, of how many."""
        return sum(count > 0 for count in counts.values()), len(counts)

    def untaken(self):
        """The lines with a branch that no test takes."""
        return sorted({number for (number, _), count in self.branches.items() if count == 0})


def add_counts(folder, within, files):
    """Adds what gcov finds in a folder of files below another one."""
    notes = list(folder.glob("*.gcda"))
    if not notes:
        raise Failed(f"there are no counts of {within}")
    said("gcov", "--json-format", "--branch-probabilities", *notes, cwd=folder)
    for packed in folder.glob("*.gcov.json.gz"):
        for file in json.loads(gzip.decompress(packed.read_bytes()))["files"]:
            name = Path(folder, file["file"]).resolve()
            if name.is_relative_to(within.resolve()):
                for line in file["lines"]:
                    files[name.name].add(line)


def compile_and_count(work, source, standard, within, files, *flags, objects=()):
    """Compiles a program, runs it, and adds what it ran of the files below a folder."""
    folder = work / source.replace("/", "_").replace(".", "_")
    folder.mkdir()
    compiler = "g++" if standard.startswith("c++") else "gcc"
    program = compile_program(compiler, source, standard, folder / "program", *flags, objects=objects)
    said(program, cwd=folder)
    add_counts(folder, within, files)


def headers(work, programs, standard):
    """The headers, of all programs together."""
    files = defaultdict(Counted)
    for source in programs:
        compile_and_count(work, source, standard, OUT / "include", files, *FLAGS)
    return files


def archive_parts(work):
    """What of the archive is C, by the test of the heap, compiled into a program in place of the archive's own."""
    files, folder = defaultdict(Counted), work / "archive"
    folder.mkdir()
    objects = [folder / f"{Path(name).stem}.o" for name in ARCHIVE_PARTS]
    for name, compiled in zip(ARCHIVE_PARTS, objects):
        said("gcc", "-std=c11", "-O0", "--coverage", "-c", BINDINGS / "archive" / name, "-o", compiled)
    program = compile_program("gcc", "c/heap.c", "c11", folder / "program", "-O0", "--coverage", *WRAPS, objects=objects)
    said(program, cwd=folder)
    add_counts(folder, BINDINGS / "archive", files)
    return files


def gateway(work):
    """The gateway to DDS, by its tests between processes. A process that is killed counts nothing."""
    build, counted = work / "gateway", defaultdict(Counted)
    flags = [f"-DCMAKE_{language}_FLAGS=-O0 --coverage" for language in ("C", "CXX")]
    said("cmake", "-S", DDS, "-B", build, f"-DCMAKE_PREFIX_PATH={OUT}", "-DIOX2PS_DDS_TESTS=ON", "-DCMAKE_BUILD_TYPE=None", *flags)
    said("cmake", "--build", build)
    said(build / "frames")
    print(said(sys.executable, DDS / "tests/run.py", build, env={**os.environ, "FEW": "1", "SLOWER": "3"}), end="")
    for notes in {file.parent for file in build.rglob("*.gcda")}:
        add_counts(notes, DDS / "src", counted)
        add_counts(notes, DDS / "include", counted)
    return counted


def python_extension(work):
    """The C of the package for Python, by its tests."""
    folder, source, counted = work / "python", python_wheels.SOURCE, defaultdict(Counted)
    folder.mkdir()
    package = python_build.build(python_wheels.include(), folder / "package", "-O0", "--coverage")
    places = {**os.environ, "PYTHONPATH": str(package), "IOX2_PUBSUB_CAMERAS": python_package.cameras(folder)}
    said(python_wheels.interpreter(), "-m", "pytest", "-q", "-p", "no:cacheprovider", source / "tests", cwd=folder, env=places)
    add_counts(package / "objects", source / "src", counted)
    return counted


def show(what, files):
    """A row for each file, and their sum."""
    print(f"\n| {what} | Lines run | Branches taken | Lines with a branch that isn't |")
    print("|---|---|---|---|")
    sums = [0, 0, 0, 0]
    for name, counted in sorted(files.items()):
        parts = (*counted.part(counted.lines), *counted.part(counted.branches))
        sums = [one + other for one, other in zip(sums, parts)]
        print(f"| `{name}` | {parts[0]} of {parts[1]} | {parts[2]} of {parts[3]} | {', '.join(map(str, counted.untaken()))} |")
    print(f"| all | {sums[0]} of {sums[1]} | {sums[2]} of {sums[3]} | |")


def run_coverage(work):
    """All that can be counted here."""
    show("Header of C", headers(work, C_PROGRAMS, "c11"))
    show("C of the archive", archive_parts(work))
    show("Header of C++", headers(work, PROGRAMS, "c++17"))
    if is_here("cmake") and is_here("idlc"):
        show("The gateway", gateway(work))
    else:
        print("not there, and so not counted: the gateway, for Cyclone DDS or cmake")
    if lack := python_wheels.lacking() or python_wheels.lacking(python_wheels.TESTED_BY):
        print(f"not there, and so not counted: the package for Python, for {lack}")
    else:
        show("C of the package for Python", python_extension(work))
    rust_coverage.run_coverage(work)
