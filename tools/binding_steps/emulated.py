# SPDX-License-Identifier: Apache-2.0 OR MIT
"""What is compiled here for another processor, and run by an emulator: all programs of C and C++, projects of CMake and
cargo, the crates, the wheel for Python."""
import os
import re
import shutil
import subprocess
from pathlib import Path

from . import build_sums, determinism, emulated_dds, layouts, python_wheels, recordings
from .headers import same_functions
from .page_texts import BOARDS, OTHER_LINKER, words
from .places import FIRST_C, is_here
from .programs import OTHER_VERSION, OWN_MALLOC, ROWS, WRAPS, compile_program, run_source
from .random_calls import compare_with_run
from .steps import Failed, run_side_by_side, said
from .targets import X86_64

SEEDS = range(1, 4)
ARCHIVE = "lib/libiox2_pubsub.a"
READING = "aarch64: 12 readings, the last is 11\n"
# Where Debian's own Rust has the standard library for other targets, and its programs.
NO_RUST = "Rust for {} (Debian's cargo, rustc and libstd-rust-dev:arm64, or rustup's)"
STANDARD_LIBRARIES, DEBIANS = Path("/usr/lib/rustlib"), Path("/usr/bin")


# Programs are linked with -static, so that this machine's libraries don't matter, and none runs longer than this.
MOST_SECONDS = 3600
# These have a malloc of their own, which a static program can't have beside that of the C library.
DYNAMIC = ("cpp/allocations.cpp", "c/own_memory.c", "cpp/own_memory.cpp")


class Emulated:
    """A target, where its programs are made."""

    def __init__(self, target, work):
        self.target, self.work = target, work

    def compile(self, source, standard, *flags, name=None):
        """A file of bindings as a program that can be called here: a line of shell that has the emulator run what was compiled."""
        compiler = self.target.compilers[standard.startswith("c++")]
        program = self.work / (name or f"{source}_{standard}".replace("/", "_").replace(".", "_"))
        linked = () if source in DYNAMIC else ("-static",)
        compile_program(compiler, source, standard, program.with_suffix(".elf"), *linked, *flags, out=self.target.out)
        program.write_text(f'#!/bin/sh\nexec timeout {MOST_SECONDS} {" ".join(self.target.emulator)} "$0.elf" "$@"\n')
        program.chmod(0o755)
        return program

    def run(self, source, standard, *flags):
        """Compiles a program and runs it."""
        program = self.compile(source, standard, *flags)
        return run_source(source, program, work=self.work)


# ---- C and C++


def run_dynamic(emulated):
    """A program that starts threads over the cross compiler's C library, as the page has it run."""
    compiler, program = emulated.target.compilers[0], emulated.work / "dynamic"
    compile_program(compiler, "c/threads.c", "c11", program, "-O1", out=emulated.target.out)
    return said("timeout", MOST_SECONDS, *emulated.target.emulator, program)


def run_programs(steps, emulated, is_whole):
    """The rows that this machine's compilers run too, and the heap, which is another than that of x86-64."""
    c, cpp = emulated.target.compilers
    nm = c.removesuffix("gcc") + "nm"
    archive, include = emulated.target.out / "lib/libiox2_pubsub.a", emulated.target.out / "include"
    steps.run("the archive has the functions of the header", same_functions, archive, nm, include)
    steps.run("the archive says its build's sum", build_sums.says_it, archive, emulated.target, emulated.work)
    steps.run("what decides a call", determinism.run, archive, emulated.target, emulated.work)
    steps.run(f"how structs lie in memory, {c}", layouts.holds, (c, cpp), include)
    for row in ROWS:
        if is_whole or not row.is_of_whole:
            steps.run(f"{row.source}, {emulated.target.name} {row.standard}", emulated.run, row.source, row.standard, "-O1")
    for source in ("c/heap.c", *OWN_MALLOC):
        steps.run(f"{source}, {emulated.target.name} c11", emulated.run, source, "c11", "-O1", *WRAPS)
    steps.run(f"c/threads.c, {emulated.target.name} c11, dynamic", run_dynamic, emulated)
    steps.run(f"cpp/version.cpp, {emulated.target.name} c++17", emulated.run, "cpp/version.cpp", "c++17", *OTHER_VERSION)


def run_random(steps, emulated, script_of_run):
    """Random calls beside a model of their own, and beside `run`, which runs on this machine."""
    channels = emulated.compile("c/random_channels.c", "c11", "-O1")
    for seed in SEEDS:
        steps.run(f"c/random_channels.c, {emulated.target.name}, seed {seed}", said, channels, seed, 20000)
    if script_of_run is None:
        steps.skip(f"random calls on {emulated.target.name} beside run", "pubsub_script (--script)")
        return
    calls = emulated.compile("c/random_calls.c", "c11", "-O1")
    for seed in SEEDS:
        steps.run(f"c/random_calls.c, {emulated.target.name}, seed {seed}", compare_with_run, emulated.work, script_of_run, calls, seed)


# ---- recordings


def same_recording(emulated, source, standard):
    """The same calls on both processors give the same bytes of a recording."""
    here = compile_program(X86_64.compilers[standard.startswith("c++")], source, standard, emulated.work / "here", "-O1")
    mine, theirs = said(here, both=False), said(emulated.compile(source, standard, "-O1"), both=False)
    if mine != theirs:
        raise Failed(f"{X86_64.name} records\n{mine[:2000]}\nand {emulated.target.name}\n{theirs[:2000]}")
    return f"{len(mine)} bytes on both"


def same_random_recording(emulated, seed):
    """So do random calls."""
    made = []
    here = compile_program("gcc", "c/random_calls.c", "c11", emulated.work / "random_here", "-O1")
    for program in (here, emulated.compile("c/random_calls.c", "c11", "-O1")):
        said(program, seed, 2000, emulated.work / "script", emulated.work / "replies", emulated.work / "recording")
        made.append((emulated.work / "recording").read_bytes())
    if made[0] != made[1]:
        raise Failed(f"those of {X86_64.name} and {emulated.target.name} aren't the same")
    return f"{len(made[0])} bytes on both"


def run_recordings(steps, emulated, replayer):
    """What was recorded by the emulator is replayed on this machine, and is what this machine records."""
    if (X86_64.out / ARCHIVE).exists():
        for source, standard in (("c/recorded.c", "c11"), (recordings.EXAMPLE, "c++17")):
            steps.run(f"{source}, recorded on both processors", same_recording, emulated, source, standard)
        for seed in SEEDS:
            steps.run(f"c/random_calls.c, recorded on both processors, seed {seed}", same_random_recording, emulated, seed)
    else:
        steps.skip("recordings on both processors", f"{X86_64.out} (tools/bindings build)")
    if replayer is None:
        steps.skip(f"recordings of {emulated.target.name}", "recording_replay (--replay)")
        return
    for source, standard, received in (
        ("c/recorded.c", "c11", recordings.RECEIVED_IN_C),
        (recordings.EXAMPLE, "c++17", recordings.RECEIVED_IN_EXAMPLE),
    ):
        program = emulated.compile(source, standard, "-O1")
        steps.run(f"{source}, {emulated.target.name}, replayed here", recordings.record_and_replay, emulated.work, replayer, received, program)
    emulated.compile("c/random_calls.c", "c11", "-O1", name="random_recorded")
    for seed in SEEDS:
        steps.run(f"c/random_calls.c, {emulated.target.name}, replayed here, seed {seed}", recordings.record_random_calls, emulated.work, replayer, seed)


# ---- what a message costs

# How many instructions a message of 8 bytes may take from C, with what the program itself does. It was 617 on 29 November 2026.
MOST = 625
# The emulator writes a line for each instruction.
COUNTS = ("-singlestep", "-d", "exec,nochain", "-D")


def instructions(emulated, program, messages):
    """How many instructions a program takes that passes so many messages."""
    log = emulated.work / "instructions"
    said(emulated.target.emulator[0], *COUNTS, log, program, messages)
    with log.open("rb") as lines:
        return sum(1 for _ in lines)


def cost_of_message(emulated):
    """What each message more takes, of which the first ones may take more."""
    program = emulated.compile("../tools/call_cost.c", "c11", "-O2", name="call_cost").with_suffix(".elf")
    few, many = (instructions(emulated, program, messages) for messages in (100, 300))
    if (many - few) / 200 > MOST:
        raise Failed(f"a message takes {(many - few) / 200} instructions, more than {MOST}")
    return f"{(many - few) / 200:.1f} instructions, at most {MOST}"


# ---- projects


def project(emulated):
    """The folder, and the project for a board in it, at another place."""
    to = emulated.work / "moved folder"
    if not to.exists():
        shutil.copytree(emulated.target.out, to)
    return to


def by_cmake(emulated):
    """The project is configured by its toolchain file, and CTest runs what it builds by the emulator."""
    folder, build = project(emulated), emulated.work / "board"
    toolchain = folder / "cross" / f"{emulated.target.triple.replace('-unknown', '')}.cmake"
    said("cmake", "-S", folder / "cross", "-B", build, f"-DCMAKE_TOOLCHAIN_FILE={toolchain}", f"-DCMAKE_PREFIX_PATH={folder}")
    said("cmake", "--build", build)
    return re.search(r"100% tests passed.*", said("ctest", "--test-dir", build))[0]


def other_cmake(emulated):
    """A project for this machine doesn't take the folder, and is told what it is for."""
    folder = project(emulated)
    written = said("cmake", "-S", folder / "cross", "-B", emulated.work / "other", f"-DCMAKE_PREFIX_PATH={folder}", fails=True)
    words = f"for Linux on {emulated.target.name} of 64 bits, not for Linux on {X86_64.name}"
    if words not in " ".join(written.split()):
        raise Failed(written)
    return words


def no_plain(emulated):
    """A project that asks for the archive for every x86-64 processor is told that there is none."""
    folder = project(emulated)
    toolchain = folder / "cross" / f"{emulated.target.triple.replace('-unknown', '')}.cmake"
    words = (f"-DCMAKE_TOOLCHAIN_FILE={toolchain}", f"-DCMAKE_PREFIX_PATH={folder}", "-DIOX2PS_PLAIN=ON")
    written = said("cmake", "-S", folder / "cross", "-B", emulated.work / "plain", *words, fails=True)
    if "IOX2PS_PLAIN asks for the archive for every x86-64 processor" not in " ".join(written.split()):
        raise Failed(written)
    return "there is none"


def rust_for(target):
    """Where the compiler and cargo are that have a standard library for a target: Debian's, or those on the path. None where none has."""
    if (STANDARD_LIBRARIES / target.triple).exists() and (DEBIANS / "cargo").exists():
        return DEBIANS
    if is_here("rustc") and is_here("cargo"):
        root = subprocess.run(["rustc", "--print", "sysroot"], capture_output=True, text=True).stdout.strip()
        if Path(root, "lib/rustlib", target.triple).exists():
            return Path(shutil.which("cargo")).parent
    return None


def cargo(emulated, folder, rust, *words, fails=False, both=True, **more):
    """What a cargo writes that has the target's standard library."""
    places = {"CARGO_TARGET_DIR": str(emulated.work / "target"), "PATH": f"{rust}:{os.environ['PATH']}"}
    environment = {**os.environ, **places, **more}
    environment.pop("IOX2_PUBSUB_LIB_DIR", None)
    return said("cargo", *words, cwd=folder, env=environment, fails=fails, both=both)


def by_cargo(emulated, rust):
    """The project of cargo for a board."""
    printed = cargo(emulated, project(emulated) / "cross", rust, "run", "--offline", "--quiet", "--target", emulated.target.triple)
    if printed != READING:
        raise Failed(printed)
    return printed


def other_cargo(emulated, rust):
    """For this machine it is refused, with what there is."""
    printed = cargo(emulated, project(emulated) / "cross", rust, "build", "--offline", fails=True)
    if f"has no archive for {X86_64.triple}" not in printed or f"for Linux on {emulated.target.name}" not in printed:
        raise Failed(printed)
    return f"no archive for {X86_64.triple}"


def by_emulator(target):
    """How cargo is told by whom a target's programs are linked, and who runs them."""
    name = f"CARGO_TARGET_{target.triple.upper().replace('-', '_')}"
    return {
        f"{name}_LINKER": target.compilers[0],
        f"{name}_RUNNER": f"timeout {MOST_SECONDS} {' '.join(target.emulator)}",
        f"{name}_RUSTFLAGS": "-C target-feature=+crt-static",
    }


def tests_of_cargo(emulated, rust, crate):
    """The tests of a crate, whose harness starts threads."""
    target = emulated.target
    words = ("test", "--offline", "--tests", "--target", target.triple)
    written = cargo(emulated, project(emulated) / crate, rust, *words, **by_emulator(target))
    results = re.findall(r"^test result: .* (\d+) passed; (\d+) failed", written, re.M)
    return f"{sum(int(passed) for passed, _ in results)} passed, {sum(int(failed) for _, failed in results)} failed"


def same_recording_in_rust(emulated, rust):
    """The same calls in Rust give the same bytes of a recording on both processors."""
    words, target = ("run", "--offline", "--quiet", "--bin", "recording"), emulated.target
    mine = cargo(emulated, X86_64.out / "examples", rust, *words, both=False)
    theirs = cargo(emulated, project(emulated) / "examples", rust, *words, "--target", target.triple, both=False, **by_emulator(target))
    if mine != theirs:
        raise Failed(f"{X86_64.name} records\n{mine[:2000]}\nand {target.name}\n{theirs[:2000]}")
    return f"{len(mine)} bytes on both"


def other_linker(emulated):
    """This machine's linker says of the archive that it is another's: the page has its words."""
    folder = emulated.target.out
    first = ("gcc", "-I", folder / "include", FIRST_C, "-o", emulated.work / "other_first")
    libraries = ([folder / "lib/libiox2_pubsub.a"], ["-L", folder / "lib", "-liox2_pubsub"])
    for library, texts in zip(libraries, OTHER_LINKER):
        written = said(*first, *library, fails=True)
        for text in texts:
            words(BOARDS, text).find()
            if text not in written:
                raise Failed(f"the linker doesn't say {text!r}, as {BOARDS} does:\n{written}")
    return "as AARCH64.md says"


def run_projects(steps, emulated):
    """All of these."""
    name = emulated.target.name
    steps.run(f"an archive for {name} by this machine's linker", other_linker, emulated)
    if is_here("cmake"):
        steps.run(f"cross, cmake for {name}", by_cmake, emulated)
        steps.run(f"cross, cmake for another processor than {name}", other_cmake, emulated)
        steps.run(f"cross, cmake for {name} with IOX2PS_PLAIN", no_plain, emulated)
    else:
        steps.skip(f"cross, cmake for {name}", "cmake")
    rust = rust_for(emulated.target)
    if rust is None:
        steps.skip(f"cross, cargo for {name}", NO_RUST.format(emulated.target.triple))
        return
    steps.run(f"cross, cargo for {name}", by_cargo, emulated, rust)
    steps.run(f"cross, cargo for another processor than {name}", other_cargo, emulated, rust)
    for crate in ("rust-sys", "rust"):
        steps.run(f"{crate}, cargo test for {name}", tests_of_cargo, emulated, rust, crate)
    if (X86_64.out / ARCHIVE).exists():
        steps.run("rust, recorded on both processors", same_recording_in_rust, emulated, rust)


def run_calls(steps, emulated, script_of_run, replayer):
    """Random calls, recordings and what a message costs."""
    run_random(steps, emulated, script_of_run)
    run_recordings(steps, emulated, replayer)
    steps.run(f"a message from C, {emulated.target.name}", cost_of_message, emulated)


def run_emulated(steps, work, target, script_of_run, replayer, is_whole):
    """All of these, side by side."""
    if lacking := target.lacking():
        steps.skip(f"what is for {target.name}", f"{', '.join(lacking)}")
        return

    def emulated_in(folder):
        (work / folder).mkdir()
        return Emulated(target, work / folder)

    run_side_by_side(
        (run_programs, steps, emulated_in("programs"), is_whole),
        (run_calls, steps, emulated_in("calls"), script_of_run, replayer),
        (run_projects, steps, emulated_in("projects")),
        (emulated_dds.run_gateway, steps, emulated_in("dds")),
    )
    python_wheels.run_crossed(steps, work, target)
