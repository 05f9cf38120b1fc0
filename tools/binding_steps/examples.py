# SPDX-License-Identifier: Apache-2.0 OR MIT
"""The examples: in each folder the same program in several languages, which all print what its output.txt says."""
import difflib
import os
import struct

from . import gateway_example, recordings, two_processes
from .places import EXAMPLES, OUT, is_here
from .programs import compile_program
from .python_wheels import TESTED_BY, answers, build_wheel, environment, lacking
from .steps import Failed, said

# What each language's files end with.
LANGUAGES = {"C": "c", "C++": "cpp", "Rust": "rs", "Python": "py"}
# This one is for Python alone, and draws a picture.
CAMERA = "camera"


def ideas():
    """The folders of one program, each by its name."""
    of_two = (two_processes.IDEA, gateway_example.IDEA)
    return sorted(path.name for path in EXAMPLES.iterdir() if (path / "output.txt").exists() and path not in of_two)


def source(idea, language):
    """Its program in a language."""
    return EXAMPLES / idea / f"{idea}.{LANGUAGES[language]}"


def prints(idea, words, work):
    """A program prints what it has to."""
    printed, wanted = said(*words, both=False, cwd=work), (EXAMPLES / idea / "output.txt").read_text()
    if printed != wanted:
        raise Failed("\n".join(difflib.unified_diff(wanted.splitlines(), printed.splitlines(), f"{idea}/output.txt", "printed", lineterm="")))
    return f"{len(wanted.splitlines())} lines"


# ---- what runs a program of each language


def compiled(work, compiler, standard, idea, language):
    """One of C or C++."""
    return (compile_program(compiler, source(idea, language), standard, work / f"{idea}_{LANGUAGES[language]}", "-O1"),)


def in_rust(work):
    """Builds all of Rust, and returns where they lie."""
    said("cargo", "build", "--offline", "--quiet", cwd=OUT / "examples", env={**os.environ, "CARGO_TARGET_DIR": str(work / "target")})
    return work / "target/debug"


def run_compiled(steps, work, language, compiler, standard):
    """All of C or C++, each compiled once."""
    if not is_here(compiler):
        steps.skip(f"examples in {language}", compiler)
        return
    for idea in ideas():
        if source(idea, language).exists():
            steps.run(f"{idea}, {language}", lambda idea=idea: prints(idea, compiled(work, compiler, standard, idea, language), work))


def processes_in_rust(work):
    """Builds the two programs that pass messages between processes."""
    words = ("cargo", "build", "--offline", "--quiet", "--features", "processes", *(f"--bin={name}" for name in two_processes.PROGRAMS))
    said(*words, cwd=OUT / "examples", env={**os.environ, "CARGO_TARGET_DIR": str(work / "target_processes")})
    return tuple((work / "target_processes/debug" / name,) for name in two_processes.PROGRAMS)


def run_rust(steps, work, between):
    """All of Rust. Its programs between processes are put into that dict."""
    if not is_here("cargo"):
        steps.skip("examples in Rust", "cargo")
        return
    made = []
    steps.run("examples in Rust are compiled", lambda: made.append(in_rust(work)))
    for idea in ideas() if made else ():
        if source(idea, "Rust").exists():
            steps.run(f"{idea}, Rust", prints, idea, (made[0] / idea,), work)
    steps.run("examples in Rust between processes are compiled", lambda: between.update(Rust=processes_in_rust(work)))


def run_python(steps, work, between):
    """All of Python, by the wheel. Its programs between processes are put into that dict."""
    if lack := lacking() or lacking(TESTED_BY[:1]):
        steps.skip("examples in Python", lack)
        return
    build_wheel(work)
    python = environment(work, "with_numpy", "--system-site-packages")
    for idea in ideas():
        if source(idea, "Python").exists():
            steps.run(f"{idea}, Python", prints, idea, (python, source(idea, "Python")), work)
    between["Python"] = tuple((python, two_processes.IDEA / f"{name}.py") for name in two_processes.PROGRAMS)
    if answers("import matplotlib"):
        steps.run(f"{CAMERA}, Python", drawn, work, python)
    else:
        steps.skip(f"{CAMERA}, Python", "python3-matplotlib")


def drawn(work, python):
    """A camera's frames, drawn into a picture with so many pixels."""
    picture = work / "frames.png"
    said(python, source(CAMERA, "Python"), picture, cwd=work, env={**os.environ, "MPLBACKEND": "Agg", "MPLCONFIGDIR": str(work)})
    data = picture.read_bytes()
    if data[:8] != b"\x89PNG\r\n\x1a\n" or struct.unpack(">II", data[16:24]) != (1200, 200) or len(data) < 5000:
        raise Failed(f"{len(data)} bytes, which are no picture of frames")
    return f"{len(data)} bytes"


def replayed(replayer):
    """The recording that the programs print is replayed, and has what they received."""
    recording = EXAMPLES / "recording/output.txt"
    recordings.has_received(recording.read_text(), recordings.RECEIVED_IN_EXAMPLE)
    return recordings.replay(recording, replayer)


def run_examples(steps, work, replayer):
    """All of them. The program that runs recordings again may be none."""
    run_compiled(steps, work, "C", "gcc", "c11")
    run_compiled(steps, work, "C++", "g++", "c++17")
    between = {}
    run_rust(steps, work, between)
    run_python(steps, work, between)
    two_processes.run_examples(steps, work, between)
    gateway_example.run_gateway(steps, work)
    if replayer is None:
        steps.skip("recording, replayed", "recording_replay (--replay)")
    else:
        steps.run("recording, replayed", replayed, replayer)
