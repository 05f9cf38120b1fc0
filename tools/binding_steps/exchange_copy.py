# SPDX-License-Identifier: Apache-2.0 OR MIT
"""A copy of bindings/, in which settings are changed, and the tests of a language there."""
import os
import re
import shutil
import subprocess
from dataclasses import dataclass, field
from pathlib import Path

from . import dds_settings, python_wheels
from .places import BINDINGS
from .steps import Failed, said

COPIED = ("include", "c", "cpp", "dds", "python", "rust", "rust-sys")
PYTEST = ("-q", "-x", "-p", "no:cacheprovider", "tests/test_answers.py", "tests/test_settings.py")
# Runs the tests for each line that it reads, in a child that imports the package, since numpy and pytest take a second to import.
FORKS = """
import os, signal, sys
import numpy, pytest
for line in sys.stdin:
    child = os.fork()
    if child == 0:
        signal.alarm(int(line))
        os.dup2(os.open(os.devnull, os.O_WRONLY), 1)
        os.dup2(1, 2)
        os._exit(pytest.main(sys.argv[1:]))
    print(os.waitstatus_to_exitcode(os.waitpid(child, 0)[1]), flush=True)
"""
# A mutant that makes a program wait forever is seen too.
MOST_SECONDS = 300
# What a compiler says where it refuses a program, by the command's name or in cargo's words.
REFUSED = re.compile(r"\A(?:gcc|g\+\+|ar) |^error: could not compile", re.M)


@dataclass
class Copy:
    """A copy of bindings/, in which settings are changed, and the tests of a language there."""

    work: Path
    archive: Path
    # Whether the programs are there already, and only have to run.
    is_built: bool = False
    # The process that runs Python's tests, in a child each time.
    forks: subprocess.Popen | None = None
    # The text of each file that was compiled, of Python's extension.
    compiled: dict[Path, str] = field(default_factory=dict)

    def __post_init__(self):
        for name in COPIED:
            shutil.copytree(BINDINGS / name, self.work / name, ignore=shutil.ignore_patterns("target"))
        (self.work / "lib").mkdir()
        shutil.copyfile(self.archive, self.work / "lib/libiox2_pubsub.a")

    def close(self):
        if self.forks:
            self.forks.communicate()

    def run(self, *words, **more):
        """Runs a command, which has to succeed."""
        return said(*words, timeout=MOST_SECONDS, **more)

    def compile_and_run(self, compiler, flags, *sources):
        """Programs, one after the other: those behind one that fails aren't compiled."""
        for source in sources:
            program = self.work / Path(source).stem
            if not self.is_built:
                words = (compiler, *flags, "-I", self.work / "include", self.work / source)
                self.run(*words, self.work / "lib/libiox2_pubsub.a", "-o", program)
            self.run(program)

    def c(self):
        self.compile_and_run("gcc", ("-std=c11", "-w", "-O0", "-pthread"), "c/settings.c", "c/calls.c")

    def cpp(self):
        flags, sources = ("-std=c++17", "-w", "-O0", "-pthread"), ("cpp/settings.cpp", "cpp/tests.cpp")
        self.compile_and_run("g++", (*flags, "-include", self.standard_headers(flags, sources)), *sources)

    def standard_headers(self, flags, sources):
        """A file of all headers of the standard library, which no change touches: compiled once, since they are most of what g++ reads."""
        file = self.work / "standard.hpp"
        if not file.exists():
            texts = [path.read_text() for path in [*(self.work / "include").glob("*.hpp"), *(self.work / source for source in sources)]]
            file.write_text("\n".join(sorted({line for text in texts for line in re.findall(r"^#include <.*>", text, re.M)})) + "\n")
            self.run("g++", *flags, "-x", "c++-header", file, "-o", f"{file}.gch")
        return file

    def cargo_test(self, crate, *names):
        """Tests of a crate, one file after the other: those behind one that fails aren't compiled."""
        places = {
            "IOX2_PUBSUB_LIB_DIR": str(self.work / "lib"), "CARGO_TARGET_DIR": str(self.work / "target"), "RUSTFLAGS": "-A warnings",
            "CARGO_PROFILE_DEV_DEBUG": "0", "CARGO_PROFILE_TEST_DEBUG": "0"
        }
        for name in names:
            self.run("cargo", "test", "--offline", "--quiet", "--test", name, cwd=self.work / crate, env={**os.environ, **places})

    def rust(self):
        self.cargo_test("rust", "settings", "calls")

    def rust_layouts(self):
        self.cargo_test("rust-sys", "layout")

    def python(self):
        if changed := [file for file in sorted(self.work.glob("python/src/*.c")) if self.compiled.get(file) != file.read_text()]:
            self.compile_extension(changed)
        place = {"cwd": self.work / "python", "env": {**os.environ, "PYTHONPATH": str(self.work / "python")}}
        if not self.forks:
            self.run(python_wheels.interpreter(), "-B", "-m", "pytest", *PYTEST, **place)
            self.forks = subprocess.Popen([python_wheels.interpreter(), "-B", "-c", FORKS, *PYTEST], stdin=subprocess.PIPE, stdout=subprocess.PIPE, text=True, **place)
        self.forks.stdin.write(f"{MOST_SECONDS}\n")
        self.forks.stdin.flush()
        if self.forks.stdout.readline() != "0\n":
            raise Failed("a test of Python")

    def compile_extension(self, changed):
        """Compiles these files, and links the extension anew."""
        flags = ("-std=c11", "-O0", "-w", "-fPIC", "-fvisibility=hidden", "-D_GNU_SOURCE", "-DPy_LIMITED_API=0x030b0000")
        for file in changed:
            self.compiled.pop(file, None)
            self.run("gcc", *flags, "-I", python_wheels.include(), "-I", self.work / "include", "-c", file, "-o", file.with_suffix(".o"))
            self.compiled[file] = file.read_text()
        objects = sorted(self.work.glob("python/src/*.o"))
        archive = (self.work / "lib/libiox2_pubsub.a", "-Wl,--exclude-libs,ALL", "-pthread")
        self.run("gcc", "-shared", *objects, *archive, "-o", self.work / "python/iox2_pubsub/_core.abi3.so")

    def dds_cpp(self):
        dds_settings.run_cpp(self.work, self.noted(), self.work)

    def dds_rust(self):
        dds_settings.run_rust(self.work, self.noted(), self.work / "rust")

    def noted(self):
        return dds_settings.make_archives(self.work / "noted_settings", self.work, self.archive)

    def seen_by(self, language):
        """Who sees what is changed: a test, a compiler that refuses it, or nobody."""
        try:
            getattr(self, language)()
        except subprocess.TimeoutExpired:
            return "a test"
        except Failed as failure:
            return "a compiler" if REFUSED.search(str(failure)) else "a test"
        return "nobody"
