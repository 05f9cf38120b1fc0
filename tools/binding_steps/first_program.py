# SPDX-License-Identifier: Apache-2.0 OR MIT
"""Runs the first program as the first page says it: in a new clone, by its two commands, without the kit."""
import os
import re
import shutil
import subprocess
import tarfile

from .emulated import NO_RUST, rust_for
from .page_texts import FIRST_FOR_BOARDS, RELEASED, UNPACK_FOR_BOARDS, first_commands, lines_of
from .places import TOP, is_here
from .process_library import LIBRARY
from .steps import Failed, said

PRINTS = "21.5 °C, read by 1"


def without_kit(home):
    """An environment in which no folder of the path has the kit's program."""
    folders = [
        folder
        for folder in os.environ["PATH"].split(os.pathsep)
        if not os.path.exists(os.path.join(folder, "rt")) and "rattle" not in folder
    ]
    kept = {name: value for name, value in os.environ.items() if not name.startswith("RT_") and "IOX2" not in name}
    return {**kept, "PATH": os.pathsep.join(folders), "CARGO_TARGET_DIR": str(home / "target"), "CARGO_NET_OFFLINE": "true"}


def hidden(words):
    """The words that run a command with the kit's folder empty, where this machine lets us do so; else the command itself."""
    kit = os.path.dirname(os.path.realpath(shutil.which("rt"))) if is_here("rt") else None
    probe = ["unshare", "--mount", "--map-root-user", "true"]
    if kit is None or subprocess.run(probe, stderr=subprocess.DEVNULL).returncode:
        return words
    top = os.path.dirname(kit) if os.path.basename(kit) == "bin" else kit
    return ["unshare", "--mount", "--map-root-user", "sh", "-c", f"mount -t tmpfs none '{top}' && exec \"$@\"", "sh", *words]


def run(clone, work, lines, first=None):
    """What the commands print in a clone, with a folder of programs that come before the others."""
    environment = without_kit(work)
    if first:
        environment["PATH"] = f"{first}{os.pathsep}{environment['PATH']}"
    if shutil.which("rt", path=environment["PATH"]):
        raise Failed("the kit is still on the path")
    return said(*hidden(["bash", "-euc", "\n".join(lines)]), cwd=clone, env=environment, both=False)


def cloned(work, name):
    """A clone as a user makes it."""
    said("git", "clone", "--quiet", TOP, work / name)
    return work / name


def in_rust(work):
    """The two commands of the first page."""
    printed = run(cloned(work, "of_rust"), work, first_commands())
    if PRINTS not in printed:
        raise Failed(f"it printed {printed!r}")
    return printed.strip()


def in_c(work, compiler, source, standard):
    """The same in C or C++: the release is unpacked, and the program compiled against it."""
    unpack = first_commands()[0]
    folder = re.search(r"dist/(\S+)\.tar\.gz", unpack)[1]
    compile_ = (
        f"{compiler} -std={standard} -I {folder}/include {folder}/examples/first_message/{source} {folder}/lib/libiox2_pubsub.a -o first && ./first"
    )
    printed = run(cloned(work, f"of_{standard}"), work, [unpack, compile_])
    if PRINTS not in printed:
        raise Failed(f"it printed {printed!r}")
    return printed.strip()


def between_processes(work):
    """Two programs in C pass messages by a name: the release is unpacked, both are compiled against it, and the publisher is ended."""
    unpack = first_commands()[0]
    folder = re.search(r"dist/(\S+)\.tar\.gz", unpack)[1]
    name = f"test_first.{os.getpid()}"
    compile_ = [
        f"gcc -std=c11 -I {folder}/include {folder}/examples/processes/{program}.c -L {folder}/lib -liox2_pubsub_processes -o {program}"
        for program in ("publisher", "subscriber")
    ]
    run_ = [f"./publisher {name} & timeout 300 ./subscriber {name} > printed || true", "kill $!", f"rm /dev/shm/iox2ps.{name}.*"]
    said_ = run(cloned(work, "of_processes"), work, [unpack, *compile_, *run_, f"diff printed {folder}/examples/processes/output.txt", "tail -n 1 printed"])
    return f"the last one is {said_.strip()}"


def has_library(target):
    """Whether the release in dist/ has the library for domains that processes share."""
    packed = next((TOP / "dist").glob(f"*-{target.name}.tar.gz"))
    with tarfile.open(packed) as file:
        return any(name.endswith(f"/lib/{LIBRARY}") for name in file.getnames())


def whole(work, target):
    """The releases are those that the sums beside them say, and the page of proofs beside them has what each says of its own."""
    clone = cloned(work, "of_sums")
    said("sha256sum", "--check", "--quiet", "SHA256SUMS", cwd=clone / "dist")
    packed = next((clone / "dist").glob(f"*-{target.name}.tar.gz"), None)
    if packed is None:
        raise Failed(f"dist/ has no release for {target.name}")
    own = said("tar", "xzOf", packed, f"{packed.name.removesuffix('.tar.gz')}/PROOFS", both=False)
    lacking = [line for line in own.splitlines() if line not in (clone / "dist/PROOFS").read_text().splitlines()]
    if lacking:
        raise Failed(f"dist/PROOFS isn't that of {packed.name}, which has {lacking[0]!r}")
    return packed.name


def same_release():
    """The pages speak of the release that dist/ has."""
    versions = {re.match(r"iox2_pubsub-(\d+\.\d+\.\d+)", packed.name)[1] for packed in (TOP / "dist").glob("iox2_pubsub-*.tar.gz")}
    for text in RELEASED:
        if {text.find()[1]} != versions:
            raise Failed(f"{text.page} says {text.find()[1]}, and dist/ has {', '.join(sorted(versions))}")
    return ", ".join(versions)


# ---- for a board

ON_BOARDS = "aarch64: 12 readings, the last is 11"


def for_board(work, name, prints, first=None):
    """A program that is compiled for another processor and runs under the emulator, by the page's commands."""
    lines = [*lines_of(UNPACK_FOR_BOARDS), *lines_of(FIRST_FOR_BOARDS[name])]
    printed = run(cloned(work, f"of_board_{name}"), work, lines, first)
    if prints not in printed:
        raise Failed(f"it printed {printed!r}")
    return "; ".join(line for line in printed.splitlines() if prints in line)


def run_boards(steps, work, target):
    """All languages that are here."""
    if lacking := target.lacking():
        steps.skip(f"the first program for {target.name}", ", ".join(lacking))
        return
    steps.run(f"the release for {target.name} in dist/ has its sums", whole, work, target)
    for language in ("C", "C++"):
        steps.run(f"the first program in {language} for {target.name}, in a new clone without the kit", for_board, work, language, PRINTS)
    if is_here("cmake"):
        name = f"the project of CMake for {target.name}, in a new clone without the kit"
        steps.run(name, for_board, work, "CMake", "100% tests passed")
    else:
        steps.skip(f"the project of CMake for {target.name}", "cmake")
    rust = rust_for(target)
    if rust:
        name = f"the project of cargo for {target.name}, in a new clone without the kit"
        steps.run(name, for_board, work, "cargo", ON_BOARDS, rust)
    else:
        steps.skip(f"the project of cargo for {target.name}", NO_RUST.format(target.triple))


# ---- for this machine


def run_first(steps, work, target):
    """All languages that are here."""
    if target.is_crossed:
        run_boards(steps, work, target)
        return
    steps.run("the pages speak of the release in dist/", same_release)
    steps.run("the release in dist/ has its sums", whole, work, target)
    for language, program, step, given in (
        ("Rust", "cargo", in_rust, ()),
        ("C", "gcc", in_c, ("gcc", "first_message.c", "c11")),
        ("C++", "g++", in_c, ("g++", "first_message.cpp", "c++17")),
    ):
        if is_here(program):
            steps.run(f"the first program in {language}, in a new clone without the kit", step, work, *given)
        else:
            steps.skip(f"the first program in {language}", program)
    if is_here("gcc") and has_library(target):
        steps.run("two programs in C, in a new clone without the kit", between_processes, work)
    else:
        steps.skip("two programs in C", f"{LIBRARY} in dist/, or gcc")
