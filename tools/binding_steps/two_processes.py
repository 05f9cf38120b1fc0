# SPDX-License-Identifier: Apache-2.0 OR MIT
"""The library for domains that processes share, as a program takes it: two programs pass messages by a name, and one that doesn't link it
is what it was."""
import itertools
import os
import re
import subprocess
from pathlib import Path

from .installed import FIND
from .places import EXAMPLES, OUT, is_here
from .process_library import CHECKS_PROCESSOR, HEADER, LIBRARY
from .programs import ARCHIVE, FIRST_C, QEMU, TOO_OLD, compile_program, on_processor
from .steps import Failed, said

IDEA = EXAMPLES / "processes"
PROGRAMS = ("publisher", "subscriber")
SHARED = Path("/dev/shm")
names = itertools.count()


def pass_readings(publisher, subscriber, **more):
    """The publisher's program sends until it is ended, and the subscriber's prints what it gets. Each is a list of words."""
    name = f"test_example_{next(names)}.{os.getpid()}"
    with subprocess.Popen([str(word) for word in (*publisher, name)], stdout=subprocess.DEVNULL, **more) as sends:
        try:
            printed = said("timeout", "3600", *subscriber, name, both=False, **more)
        finally:
            sends.kill()
    for file in SHARED.glob(f"iox2ps.{name}.*"):
        file.unlink()
    if printed != (IDEA / "output.txt").read_text():
        raise Failed(f"the subscriber printed {printed!r}")
    return "as examples/processes/output.txt"


def run_examples(steps, work, others):
    """Every language's publisher with every language's subscriber, by one pair of programs each: those that are compiled here, and others."""
    languages = {"C": ("gcc", "c", "c11"), "C++": ("g++", "cpp", "c++17")}
    pairs = {
        language: [(compile_program(compiler, IDEA / f"{name}.{ending}", standard, work / f"{name}_{ending}", "-O1", archive=LIBRARY),) for name in PROGRAMS]
        for language, (compiler, ending, standard) in languages.items() if is_here(compiler)
    }
    pairs.update(others)
    for (sends, (publisher, _)), (reads, (_, subscriber)) in itertools.product(pairs.items(), repeat=2):
        steps.run(f"processes, {sends} to {reads}", pass_readings, publisher, subscriber)


# ---- how a project takes it

PROJECT = """cmake_minimum_required(VERSION 3.16)
project(two C)
{taking}
foreach(name IN ITEMS publisher subscriber)
  add_executable(${{name}} {folder}/${{name}}.c)
  target_link_libraries(${{name}} PRIVATE iox2_pubsub::processes)
endforeach()
"""


def by_cmake(work):
    """The target of CMake, for a project that finds the folder and for one that has it in itself."""
    for how, taking in (("found", FIND), ("part", f'add_subdirectory("{OUT}" iox2_pubsub)')):
        folder = work / f"processes_{how}"
        folder.mkdir()
        (folder / "CMakeLists.txt").write_text(PROJECT.format(taking=taking, folder=IDEA))
        said("cmake", "-S", folder, "-B", folder / "build", f"-DCMAKE_PREFIX_PATH={OUT}")
        said("cmake", "--build", folder / "build")
        words = pass_readings(*((folder / "build" / name,) for name in PROGRAMS))
    return words


def by_pkg_config(work):
    """The package for pkg-config."""
    environment = {**os.environ, "PKG_CONFIG_PATH": str(OUT / "lib/pkgconfig")}
    flags = said("pkg-config", "--cflags", "--libs", "iox2_pubsub_processes", both=False, env=environment).split()
    for name in PROGRAMS:
        said("gcc", "-std=c11", IDEA / f"{name}.c", *flags, "-o", work / f"{name}_by_pkg_config")
    return pass_readings(*((work / f"{name}_by_pkg_config",) for name in PROGRAMS))


# ---- who doesn't link it


def names_in(file):
    """The functions and variables that a file has or calls."""
    return set(re.findall(r"^(?:[0-9a-f]+| +) [A-Za-z] (\w+)", said("nm", file, both=False), re.M))


def pays_nothing(work):
    """A program that links the archive has nothing of the library for processes, and isn't larger by its header and its place in the folder."""
    of_processes = names_in(OUT / "lib" / LIBRARY) - names_in(ARCHIVE)
    program = compile_program("gcc", FIRST_C, "c11", work / "alone", "-O2")
    beside = work / "beside"
    words = ("-std=c11", "-Wall", "-O2", "-include", OUT / "include" / HEADER, "-I", OUT / "include", FIRST_C)
    said("gcc", *words, "-L", OUT / "lib", "-liox2_pubsub", "-liox2_pubsub_processes", "-pthread", "-o", beside)
    # What the C library has for either, as start-up code.
    own = work / "own.c"
    own.write_text("int main(void) { return 0; }\n")
    said("gcc", own, "-o", work / "own")
    found = (names_in(program) | names_in(beside)) & of_processes - names_in(work / "own")
    sizes = [said("size", "--format=sysv", file, both=False).split("\n", 1)[1] for file in (program, beside)]
    if found or not of_processes or sizes[0] != sizes[1]:
        raise Failed(f"of {len(of_processes)} names it has {sorted(found)}, and its sections are\n{sizes[0]}{sizes[1]}")
    return f"none of {len(of_processes)} names, and the same sections"


def told_of_processor(work):
    """A program over it says so on an older processor, as one over the archive does."""
    program = compile_program("gcc", IDEA / "publisher.c", "c11", work / "on_older", "-static", archive=LIBRARY)
    if CHECKS_PROCESSOR not in ARCHIVE.read_bytes():
        raise Failed(f"{ARCHIVE.name} checks no processor")
    for processor in TOO_OLD:
        status, written = on_processor(program, processor)
        if status != 127 or CHECKS_PROCESSOR.decode() not in written:
            raise Failed(f"on {processor} it ends with {status}:\n{written}")
    return f"{', '.join(TOO_OLD)} are told"


def run_processes(steps, work):
    """All of these."""
    for program, step in (("cmake", by_cmake), ("pkg-config", by_pkg_config)):
        if is_here(program):
            steps.run(f"processes, {program}", step, work)
        else:
            steps.skip(f"processes, {program}", program)
    steps.run("a program without the library for processes", pays_nothing, work)
    if is_here(QEMU):
        steps.run("processes, older processors", told_of_processor, work)
    else:
        steps.skip("processes, older processors", f"{QEMU} (Debian's qemu-user-static)")
