# SPDX-License-Identifier: Apache-2.0 OR MIT
"""Builds bindings/out, the folder that programs are compiled against."""
import shutil
import subprocess
import sys
import tempfile
import threading
import time
from pathlib import Path

from . import process_library
from .places import BINDINGS, CRATES, LICENCES, TOP, is_here, version
from .steps import Failed, said
from .targets import PLAIN, X86_64, build_sum, is_for

ARCHIVE_CRATE = "iox2_c"
# What of an archive is C.
ARCHIVE_SOURCES = BINDINGS / "archive"
# What isn't in a folder's files: where the last line of the proof lies that its archive comes of.
PROOF = "PROOF"
NO_PROOF = "not known: an archive that was made elsewhere was taken\n"


def crates_below(name, top=TOP):
    """The crates of the repository that a crate is made of, lowest first, itself the last."""
    lines = [line.split("#")[0] for line in (top / "crates.txt").read_text().splitlines()]
    below = {line.split(":")[0].split()[0]: line.split(":")[1].split() for line in lines if ":" in line}
    found = []

    def visit(crate):
        for other in below[crate]:
            if other in below and other not in found:
                visit(other)
        found.append(crate)

    visit(name)
    return found


class Progress:
    """Says how far a proof is: each crate when it is done, and every minute that time goes on."""

    def __init__(self, name):
        self.name, self.crates, self.started, self.said_at = name, crates_below(name), time.time(), time.time()
        self.open = set(self.crates)
        print(f"{name}: made of {len(self.crates)} crates, which are proved where they weren't yet on this machine", flush=True)

    def minutes(self):
        return f"{(time.time() - self.started) / 60:.1f} min"

    def look(self):
        """Says which crates have been done since the last look. A crate's library is marked with a stamp when it is."""
        for crate in [crate for crate in self.crates if crate in self.open]:
            stamp = TOP / "crates" / crate / "out/rlib/stamp"
            if stamp.exists() and stamp.stat().st_mtime >= self.started:
                self.open.discard(crate)
                self.say(f"{crate} is proved ({len(self.crates) - len(self.open)} of {len(self.crates)})")
        if time.time() - self.said_at >= 60:
            self.say(f"goes on, {len(self.crates) - len(self.open)} of {len(self.crates)} crates are proved")

    def say(self, words):
        self.said_at = time.time()
        print(f"{self.name}: {words}, {self.minutes()}", flush=True)


def made_of_proof(name, target=X86_64):
    """Has the static library or program of a crate made of what is proved, and says how far it is meanwhile."""
    progress = Progress(name)
    with tempfile.TemporaryFile("w+") as notes:
        words = [sys.executable, str(TOP / "tools/proved"), "--target", target.name, name]
        with subprocess.Popen(words, cwd=TOP, stdin=subprocess.DEVNULL, stdout=subprocess.PIPE, stderr=subprocess.STDOUT, text=True) as ran:
            reader = threading.Thread(target=pass_on, args=(ran.stdout, notes, name))
            reader.start()
            while ran.poll() is None:
                time.sleep(1)
                progress.look()
            reader.join()
        if ran.returncode:
            notes.seek(0)
            raise Failed(f"{name} isn't made:\n{notes.read()[-4000:]}")
    progress.say("is made")
    out = TOP / "crates" / name / "out"
    archive = out / target.made / f"lib{name}.a"
    return archive if archive.exists() else out / name


def program_of(crate, given, is_proved):
    """The program of a crate: the one that is given, else one that is proved, or is there already."""
    if given:
        return Path(given).resolve()
    if is_proved:
        return made_of_proof(crate)
    program = TOP / "crates" / crate / "out" / crate
    return program if program.exists() else None


def pass_on(lines, notes, name):
    """Keeps the lines of a proof, and shows those that say what is done."""
    for line in lines:
        notes.write(line)
        if line.startswith((f"{name}:", "rt:")):
            print(line, end="", flush=True)


def kit_folder():
    """Where the kit lies."""
    try:
        return Path(said("rt", "doc", both=False).strip()).parent
    except OSError as error:
        raise Failed("the Rattle kit isn't here, which joins an archive") from error


# Each processor's own instruction for a counter, in place of a function of the compiler's library.
OWN_COUNTERS = {"aarch64": ("-mno-outline-atomics",)}


def compiled_by_kit(kit, source, target, work, *flags):
    """An object of one of the files of bindings/archive. The kit's compiler makes the same bytes on each machine."""
    made = work / f"{Path(source).stem}.o"
    words = ("-std=c11", "-O2", "-fPIC", "-Wall", "-Wextra", "-Werror", *OWN_COUNTERS.get(target.name, ()), *flags, "-c")
    said(kit / "toolchain/bin/clang", f"--target={target.triple}", *words, ARCHIVE_SOURCES / source, "-o", made)
    return made


def heap(kit, target, work):
    """What the proved code calls for memory, and the C library's, which is an object that a program can do without. Where not every such
    processor can run the code, the check of the processor is in the first object, so that no program has one without the other."""
    calls, of_library = (compiled_by_kit(kit, source, target, work) for source in ("heap.c", "memory.c"))
    if target is not X86_64:
        return calls, of_library
    joined = work / "joined" / calls.name
    joined.parent.mkdir()
    said(kit / "toolchain/bin/ld.lld", "-r", "-o", joined, calls, compiled_by_kit(kit, "processor.c", target, work))
    return joined, of_library


def join_archives(archive, joined, target=X86_64):
    """Makes the one archive of the crate's, of what its code calls of the C library, and of the sum of its bytes. One that is joined already
    is taken as it is."""
    archive = Path(archive).resolve()
    is_for(archive, target)
    if archive.name == target.archive:
        shutil.copyfile(archive, joined)
        return
    kit = kit_folder()
    joined.unlink(missing_ok=True)
    with tempfile.TemporaryDirectory(prefix="heap-") as work:
        says_sum = compiled_by_kit(kit, "build_sum.c", target, Path(work), f"-DBUILD_SUM={build_sum(archive):#x}")
        added = "".join(f"ADDMOD {made}\n" for made in (*heap(kit, target, Path(work)), says_sum))
        script = f"CREATE {joined}\nADDLIB {archive}\n{added}SAVE\nEND\n"
        subprocess.run([kit / "toolchain/bin/llvm-ar", "-M"], input=script, text=True, check=True)


# Where a folder's CMake files lie, and what they are made of; these are for `cmake --install` too, which lays out the folders anew.
CMAKE = (
    ("iox2_pubsubConfig.cmake.in", "lib/cmake/iox2_pubsub/iox2_pubsubConfig.cmake"),
    ("iox2_pubsubConfigVersion.cmake.in", "lib/cmake/iox2_pubsub/iox2_pubsubConfigVersion.cmake"),
    ("iox2_pubsub.pc.in", "lib/pkgconfig/iox2_pubsub.pc"),
)
PLAIN_CMAKE = (("iox2_pubsub_plain.pc.in", "lib/pkgconfig/iox2_pubsub_plain.pc"),)
PROCESSES_CMAKE = (("iox2_pubsub_processes.pc.in", "lib/pkgconfig/iox2_pubsub_processes.pc"),)
FOR_INSTALL = (
    ("CMakeLists.txt.in", "CMakeLists.txt"),
    ("iox2_pubsub.map.in", "cmake/iox2_pubsub.map"),
    ("iox2_pubsubConfig.cmake.in", "cmake/iox2_pubsubConfig.cmake.in"),
    ("iox2_pubsub.pc.in", "cmake/iox2_pubsub.pc.in"),
)
PLAIN_FOR_INSTALL = (("iox2_pubsub_plain.pc.in", "cmake/iox2_pubsub_plain.pc.in"),)
PROCESSES_FOR_INSTALL = (("iox2_pubsub_processes.pc.in", "cmake/iox2_pubsub_processes.pc.in"),)
# Where the folders are, of the one that the file for CMake lies in, or the one for pkg-config.
IN_PLACE = {
    "PACKAGE_INIT": 'get_filename_component(PACKAGE_PREFIX_DIR "${CMAKE_CURRENT_LIST_DIR}/../../.." ABSOLUTE)',
    "PACKAGE_CMAKE_INSTALL_INCLUDEDIR": "${PACKAGE_PREFIX_DIR}/include",
    "PACKAGE_CMAKE_INSTALL_LIBDIR": "${PACKAGE_PREFIX_DIR}/lib",
    "IOX2PS_PLAIN": "OFF",
    "PC_PREFIX": "${pcfiledir}/../..",
    "PC_INCLUDEDIR": "${prefix}/include",
    "PC_LIBDIR": "${prefix}/lib",
}


def filled(name, to, top, values):
    """Writes a file of bindings/cmake with these values in it."""
    text = (top / "bindings/cmake" / name).read_text()
    for word, value in values.items():
        text = text.replace(f"@{word}@", value)
    to.parent.mkdir(parents=True, exist_ok=True)
    to.write_text(text)


def fill_cmake(to, top, target, has_plain, has_processes):
    """Writes what CMake and pkg-config read."""
    whole = version(top)
    values = {"VERSION": whole, "MINOR": whole.rsplit(".", 1)[0], "PROCESSOR": target.name}
    for name, made in CMAKE + (PLAIN_CMAKE if has_plain else ()) + (PROCESSES_CMAKE if has_processes else ()):
        filled(name, to / made, top, {**values, **IN_PLACE})
    for name, made in FOR_INSTALL + (PLAIN_FOR_INSTALL if has_plain else ()) + (PROCESSES_FOR_INSTALL if has_processes else ()):
        filled(name, to / made, top, values)
    shutil.copyfile(top / "bindings/c/layout.c", to / "cmake/layout.c")


# What Python, its tools and cargo leave in a folder.
PYTHON_MADE = ("build", "dist", "target", "*.egg-info", "*.so", "__pycache__", ".*_cache")


def copy_crate(name, to, top):
    """Copies a crate of Rust, with licences in place of links to them, and without what cargo makes."""
    shutil.copytree(top / "bindings" / name, to / name, ignore=shutil.ignore_patterns("target"))


def copy_examples(to, top):
    """Copies the examples, which find the crate beside themselves there."""
    shutil.copytree(top / "examples", to / "examples", ignore=shutil.ignore_patterns("target", "Cargo.lock", "__pycache__"))
    manifest = to / "examples/Cargo.toml"
    manifest.write_text(manifest.read_text().replace('"../bindings/rust"', '"../rust"'))


def fill(to, archives, target=X86_64, top=TOP):
    """Makes the folder of the files of a clone, and of these archives, which are joined already: one for the target, and a plain one and
    the library for processes where there are such."""
    names = {archive.name for archive in archives}
    (to / "lib").mkdir(parents=True)
    shutil.copytree(top / "bindings/include", to / "include")
    for archive in archives:
        shutil.copyfile(archive, to / "lib" / archive.name)
    if process_library.LIBRARY in names:
        for header in (process_library.HEADER, *process_library.CPP_HEADERS):
            shutil.copyfile(top / "bindings/processes" / header, to / "include" / header)
    fill_cmake(to, top, target, PLAIN.archive in names, process_library.LIBRARY in names)
    shutil.copytree(top / "bindings/cross", to / "cross", ignore=shutil.ignore_patterns("target"))
    shutil.copytree(top / "bindings/python", to / "python", ignore=shutil.ignore_patterns(*PYTHON_MADE))
    for crate in CRATES:
        copy_crate(crate, to, top)
    copy_examples(to, top)
    for licence in LICENCES:
        shutil.copyfile(top / licence, to / licence)


def kinds_of(target):
    """What the archives of a folder for a target are for."""
    return (X86_64, PLAIN) if target is X86_64 else (target,)


def archives_of(archive, target):
    """The archives that a folder for a target has, each with what it is for: those that are proved, or the one that is given and the plain
    one beside it, if there is one."""
    kinds = kinds_of(target)
    if archive is None:
        return [(kind, made_of_proof(ARCHIVE_CRATE, kind)) for kind in kinds]
    given = Path(archive).resolve()
    beside = given.parent / PLAIN.made / given.name, given.with_name(PLAIN.archive)
    plain = next((file for file in beside if PLAIN in kinds and file.exists() and file != given), None)
    return [(target, given), *([(PLAIN, plain)] if plain else [])]


def proof_beside(made):
    """The last line of the proof that an archive comes of."""
    proof = made.with_suffix(".proof")
    return proof.read_text() if proof.exists() else NO_PROOF


def joined_archives(found, work):
    """The archives with what they call, in a folder of work's, each under the name that a program links."""
    for kind, made in found:
        join_archives(made, work / kind.archive, kind)
    return [work / kind.archive for kind, _ in found]


def build(archive=None, target=X86_64, to=None):
    """Builds the folder, of this archive, or of those that are proved."""
    to = to or target.out
    found = archives_of(archive, target)
    with tempfile.TemporaryDirectory(prefix="archive-") as work:
        joined = joined_archives(found, Path(work))
        if is_here(target.compilers[0]):
            joined.append(process_library.made_library(Path(work), joined[0], target))
        else:
            print(f"{process_library.LIBRARY} isn't built, since {target.compilers[0]} isn't here", flush=True)
        shutil.rmtree(to, ignore_errors=True)
        fill(to, joined, target)
    (to / PROOF).write_text("".join(proof_beside(made) if archive is None else NO_PROOF for _, made in found))
    print(f"built {to.relative_to(TOP) if to.is_relative_to(TOP) else to}, of version {version()}, for {target.name}", flush=True)
