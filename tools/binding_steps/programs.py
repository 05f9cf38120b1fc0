# SPDX-License-Identifier: Apache-2.0 OR MIT
"""The programs of C and C++: compiled and run by gcc and clang, with sanitizers and valgrind."""
import filecmp
import subprocess
from dataclasses import dataclass
from pathlib import Path

from .places import BINDINGS, EXAMPLES, FIRST_C, OUT, is_here
from .steps import Failed, said

ARCHIVE = OUT / "lib/libiox2_pubsub.a"
PAIRS = (("gcc", "g++"), ("clang", "clang++"))
WARNINGS = ("-Wall", "-Wextra", "-Wpedantic", "-Wshadow", "-Werror")
SANITIZERS = ("-fsanitize=address,undefined", "-fno-sanitize-recover=all", "-g")
RACES = ("-O1", "-g", "-fsanitize=thread")
# The program's own function in place of the archive's.
OTHER_VERSION = ("-O1", "-Wl,--wrap=iox2ps_version")
# A program defines the functions for memory, and the archive's own aren't linked.
AT_LINK_TIME = ("-DAT_LINK_TIME",)
NO_EXCEPTIONS = ("-O1", "-fno-exceptions", "-fno-rtti")
# These have a malloc and a realloc of their own, which count calls, and refuse one in a run.
OWN_MALLOC = ("c/refused_memory.c", "c/recorded_calls.c")
THREADS_OF_CPP = ("cpp/threads.cpp", "cpp/joined.cpp", "../examples/wait_set/wait_set.cpp", "cpp/wait_sets.cpp")
WRAPS = ("-Wl,--wrap=malloc", "-Wl,--wrap=realloc")
GRIND = ("valgrind", "--quiet", "--leak-check=full", "--error-exitcode=9")
NOTHING_LEFT = ("--show-leak-kinds=all", "--errors-for-leak-kinds=all")
# The C++ library keeps some memory of its own until the end.
BUT_REACHABLE = ("--show-leak-kinds=definite,indirect,possible", "--errors-for-leak-kinds=definite,indirect,possible")


def compile_program(compiler, source, standard, program, *flags, objects=(), out=OUT, archive="libiox2_pubsub.a"):
    """Compiles a file of bindings to a program over an archive of a folder, with what is compiled already."""
    language = "c++" if standard.startswith("c++") else "c"
    # gcc's manual says that a sanitizer makes it warn of values that are set.
    warnings = [*WARNINGS, "-Wno-maybe-uninitialized"] if SANITIZERS[0] in flags and compiler in PAIRS[0] else WARNINGS
    words = [compiler, "-x", language, f"-std={standard}", *warnings, *flags, "-I", out / "include", BINDINGS / source]
    said(*words, "-x", "none", *objects, out / "lib" / archive, "-pthread", "-o", program)
    return program


def check_example(*words, work, idea="thermometer", **more):
    """Runs an example, which has to print what lies beside its source."""
    printed = work / "printed"
    printed.write_text(said(*words, both=False, **more))
    if not filecmp.cmp(printed, EXAMPLES / idea / "output.txt", shallow=False):
        raise Failed(f"it printed other words than examples/{idea}/output.txt:\n{printed.read_text()}")
    return f"as examples/{idea}/output.txt"


def run_source(source, *words, work):
    """Runs the program of a file of bindings. Where a text beside it says what it prints, it has to print that."""
    path = BINDINGS / source
    return check_example(*words, work=work, idea=path.parent.name) if path.with_name("output.txt").exists() else said(*words)


def compile_and_run(work, compiler, source, standard, *flags):
    """Compiles a program and runs it."""
    program = compile_program(compiler, source, standard, work / source.replace("/", "_").replace(".", "_"), *flags)
    return run_source(source, program, work=work)


def compile_and_grind(work, compiler, source, standard, leaks, *flags):
    """Compiles a program and runs it under valgrind, which has to find nothing."""
    program = compile_program(compiler, source, standard, work / "grind", "-O1", "-g", *flags)
    return said(*GRIND, *leaks, program)


@dataclass(frozen=True)
class Row:
    """A program that each compiler makes."""

    source: str
    standard: str = "c11"
    # Whether the sanitizers have something to see in it.
    is_sanitized: bool = True
    # Whether a merge leaves it out, since another row has most of it.
    is_of_whole: bool = False

    def compiler(self, pair):
        """That of its language."""
        return pair[self.standard.startswith("c++")]


ROWS = (
    Row("../examples/thermometer/thermometer.c"),
    Row("c/calls.c"),
    Row("c/bad_input.c"),
    Row("c/settings.c"),
    Row("c/calls.c", "c++17"),
    Row("c/bad_input.c", "c++17"),
    Row("c/settings.c", "c++17"),
    Row("../examples/thermometer/thermometer.cpp", "c++17"),
    Row("cpp/tests.cpp", "c++17"),
    Row("cpp/tests.cpp", "c++20", is_sanitized=False, is_of_whole=True),
    Row("cpp/settings.cpp", "c++17"),
    Row("c/threads.c"),
    Row("../examples/wait_set/wait_set.c"),
    Row("cpp/threads.cpp", "c++17"),
    Row("../examples/wait_set/wait_set.cpp", "c++17"),
    Row("cpp/wait_sets.cpp", "c++17"),
    Row("cpp/at_exit.cpp", "c++17"),
    Row("cpp/large.cpp", "c++17"),
    Row("cpp/gone.cpp", "c++17"),
    Row("cpp/one_thread.cpp", "c++17"),
    Row("cpp/forked.cpp", "c++17"),
    Row("cpp/allocations.cpp", "c++17", is_sanitized=False),
    Row("c/own_memory.c", is_sanitized=False),
    Row("cpp/own_memory.cpp", "c++17", is_sanitized=False),
    Row("../examples/one_may_lose/one_may_lose.cpp", "c++17"),
    Row("cpp/joined.cpp", "c++17"),
    Row("cpp/threads.cpp", "c++20", is_sanitized=False, is_of_whole=True),
    Row("cpp/wait_sets.cpp", "c++20", is_sanitized=False, is_of_whole=True),
)


# Processors of QEMU's: those that lack something of x86-64-v2, and the first that has all of it.
TOO_OLD, FIRST = ("qemu64", "core2duo", "Penryn"), "Nehalem"
QEMU = "qemu-x86_64-static"


def on_processor(program, processor):
    """How a program ends on a processor, and what it says."""
    ran = subprocess.run([QEMU, "-cpu", processor, program], stdout=subprocess.PIPE, stderr=subprocess.STDOUT, text=True)
    return ran.returncode, ran.stdout


def told_of_processor(work):
    """A program on an older processor says so and ends, before it calls anything; so does one that only asks for the version."""
    asks = work / "asks.c"
    asks.write_text('#include "iox2_pubsub.h"\nint main(void) { return iox2ps_version() != IOX2PS_VERSION; }\n')
    for source in (FIRST_C, asks):
        program = compile_program("gcc", source, "c11", work / "on_processor", "-static", "-Wl,--gc-sections")
        for processor in TOO_OLD:
            status, written = on_processor(program, processor)
            if status != 127 or "needs a processor of x86-64-v2" not in written:
                raise Failed(f"{source.name} on {processor} ends with {status}:\n{written}")
        if on_processor(program, FIRST)[0]:
            raise Failed(f"{source.name} on {FIRST}: {on_processor(program, FIRST)}")
    return f"{', '.join(TOO_OLD)} are told, and {FIRST} isn't"


def run_rows(steps, work, pair, is_whole):
    """The rows of one pair of compilers. In a merge gcc's run as they are, and clang's under the sanitizers, which it compiles sooner."""
    for row in ROWS:
        compiler = row.compiler(pair)
        name = f"{row.source}, {compiler} {row.standard}"
        runs_checked = row.is_sanitized and (is_whole or pair != PAIRS[0])
        if is_whole or not (runs_checked or row.is_of_whole):
            steps.run(name, compile_and_run, work, compiler, row.source, row.standard, "-O2")
        if runs_checked:
            steps.run(f"{name}, sanitizers", compile_and_run, work, compiler, row.source, row.standard, "-O1", *SANITIZERS)


def run_other_flags(steps, work, pair, is_whole):
    """What is compiled by other flags. In a merge each compiler has one standard without exceptions."""
    c, cpp = pair
    for source in OWN_MALLOC:
        steps.run(f"{source}, {c} c11", compile_and_run, work, c, source, "c11", "-O2", *WRAPS)
        steps.run(f"{source}, {c} c11, sanitizers", compile_and_run, work, c, source, "c11", "-O1", *WRAPS, *SANITIZERS)
    steps.run(f"c/own_memory.c, {c} c11, at link time", compile_and_run, work, c, "c/own_memory.c", "c11", "-O2", *AT_LINK_TIME)
    # Not by the sanitizers, which end a program that asks for more memory than there is.
    steps.run(f"c/heap.c, {c} c11", compile_and_run, work, c, "c/heap.c", "c11", "-O2", *WRAPS)
    standards = ("c++17", "c++20") if is_whole else ("c++20" if pair == PAIRS[0] else "c++17",)
    for source in ("cpp/tests.cpp", "cpp/threads.cpp", "cpp/wait_sets.cpp"):
        for standard in standards:
            steps.run(f"{source}, {cpp} {standard}, no exceptions", compile_and_run, work, cpp, source, standard, *NO_EXCEPTIONS)
    steps.run(f"cpp/large.cpp, {cpp} c++17, not optimized", compile_and_run, work, cpp, "cpp/large.cpp", "c++17", "-O0")
    of_dds = ("-I", BINDINGS / "dds/include", *SANITIZERS)
    steps.run(f"dds/tests/moved.cpp, {cpp} c++17, sanitizers", compile_and_run, work, cpp, "dds/tests/moved.cpp", "c++17", "-O1", *of_dds)
    steps.run(f"cpp/version.cpp, {cpp} c++17", compile_and_run, work, cpp, "cpp/version.cpp", "c++17", *OTHER_VERSION)


def run_races(steps, work, pair):
    """What several threads do, under the thread sanitizer."""
    for row in (Row("c/threads.c"), Row("../examples/wait_set/wait_set.c"), *(Row(source, "c++17") for source in THREADS_OF_CPP)):
        compiler = row.compiler(pair)
        name = f"{row.source}, {compiler} {row.standard}, thread sanitizer"
        steps.run(name, compile_and_run, work, compiler, row.source, row.standard, *RACES)


def run_pair(steps, work, pair, is_whole):
    """All that one pair of compilers makes. In a merge gcc alone has the thread sanitizer."""
    lacking = next((compiler for compiler in pair if not is_here(compiler)), None)
    if lacking:
        steps.skip(f"what is compiled by {' and '.join(pair)}", lacking)
        return
    work.mkdir()
    run_rows(steps, work, pair, is_whole)
    run_other_flags(steps, work, pair, is_whole)
    if is_whole or pair == PAIRS[0]:
        run_races(steps, work, pair)


def run_on_other_machines(steps, work):
    """Older processors, and valgrind."""
    if is_here(QEMU):
        steps.run("older processors", told_of_processor, work)
    else:
        steps.skip("older processors", f"{QEMU} (Debian's qemu-user-static)")
    if not is_here("valgrind"):
        steps.skip("programs under valgrind", "valgrind")
        return
    for source, flags in (("c/calls.c", ()), ("c/bad_input.c", ()), *((source, WRAPS) for source in OWN_MALLOC)):
        steps.run(f"{source}, valgrind", compile_and_grind, work, "gcc", source, "c11", NOTHING_LEFT, *flags)
    steps.run("cpp/tests.cpp, valgrind", compile_and_grind, work, "g++", "cpp/tests.cpp", "c++17", BUT_REACHABLE)
