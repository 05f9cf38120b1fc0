# SPDX-License-Identifier: Apache-2.0 OR MIT
"""The library of bindings/processes: the proved archive under names of its own, and the C that makes its calls by several processes."""
import hashlib
import re
import tarfile
from copy import copy
from pathlib import Path

from .places import BINDINGS, EXAMPLES, TOP
from .steps import Failed, said
from .targets import X86_64, build_sum

SOURCES = BINDINGS / "processes"
# What of the archive brings memory where no region does, under other names, since the library has these functions of its own.
MEMORY = ("heap.c", "memory.c")
OTHER_NAMES = [f"-Drattle_{name}=plain_{name}" for name in ("alloc", "realloc", "dealloc")]
# What a program may define in the library's place.
REPLACED = ("iox2ps_memory_allocate", "iox2ps_memory_reallocate", "iox2ps_memory_deallocate")
LIBRARY, HEADER, CPP_HEADERS = "libiox2_pubsub_processes.a", "iox2_pubsub_processes.h", ("iox2_pubsub_processes.hpp", "iox2_pubsub_nodes.hpp", "iox2_pubsub_listener.hpp")
PROVED = re.compile(r"IOX2PS_PROVED\((\w+)\);")
# The functions of the archive that this library has in another form, by the names that they have here.
OWN = {"memset": "archive_memory_fill"}
# What the archive may call, beside the three functions for memory that this library has of its own: none says the time, or anything else
# that isn't the same in each process. The last two are of a program that ends by a fault that proofs rule out.
CALLS_OF_ARCHIVE = {"memcpy", "memmove", *OWN.values(), "rattle_alloc", "rattle_dealloc", "rattle_realloc", "write", "_exit"}
# What an archive has that ends a program on an older processor. It stands beside the archive's memory, which this library takes none of.
CHECKS_PROCESSOR = b"this archive needs a processor of x86-64-v2"


def released_archive(work, target=X86_64):
    """The archive of the newest release in dist/."""
    releases = (TOP / "dist").glob(f"iox2_pubsub-*-{target.name}.tar.gz")
    releases = sorted(releases, key=lambda path: [int(part) for part in re.findall(r"\d+", path.name)])
    if not releases:
        raise Failed("dist/ has no release: --archive FILE takes another archive")
    with tarfile.open(releases[-1]) as release:
        member = next(name for name in release.getnames() if name.endswith("/lib/libiox2_pubsub.a"))
        archive = work / "libiox2_pubsub.a"
        archive.write_bytes(release.extractfile(member).read())
    return archive


def symbols(file, kinds):
    """The names in an object file whose letters of `nm` are among these. AArch64's marks of what is code and what isn't begin with a dollar."""
    lines = (line.split() for line in said("nm", "-P", file).splitlines())
    return {words[0] for words in lines if len(words) > 1 and words[1] in kinds and not words[0].startswith("$")}


def check_proved_object(file):
    """That a call depends on nothing but its domain and its arguments, as far as symbols say it."""
    others = symbols(file, "U") - CALLS_OF_ARCHIVE
    data = symbols(file, "DdBbC")
    if others or data:
        raise Failed(f"the archive calls {sorted(others)} and has variables {sorted(data)}")
    return f"{len(symbols(file, 'T'))} functions, which call {len(symbols(file, 'U'))} others, and no variable"


def linked_for(target):
    """A program for another processor is linked with all that it needs, so that this machine's libraries don't matter."""
    return ("-static",) if target.is_crossed else ()


class ProcessLibrary:
    """The objects of the library, and the archive of them."""

    def __init__(self, work, archive=None, bindings=BINDINGS, sources=None, flags=("-std=c11", "-O2"), target=X86_64):
        self.work, self.bindings, self.sources = work / "library", bindings, sources or bindings / "processes"
        self.target, self.flags = target, (target.compilers[0], *flags)
        self.work.mkdir()
        self.archive = Path(archive or released_archive(self.work, target)).resolve()
        self.proved, says_sum = self.objects_of_archive()
        self.objects = [self.proved, says_sum]

    def tool(self, name):
        """One of the programs that come with the compiler."""
        return self.target.compilers[0].removesuffix("gcc") + name

    def says_sum(self, proved):
        """An object that says the sum of what is proved, of an archive that doesn't say it: of 0.2.1 and before."""
        alone, made = self.work / "alone.a", self.work / "build_sum.o"
        said("ar", "rcsD", alone, proved)
        said(*self.flags, "-fPIC", f"-DBUILD_SUM={build_sum(alone):#x}", "-c", self.bindings / "archive/build_sum.c", "-o", made)
        return made

    def objects_of_archive(self):
        """What is proved in the archive, without its functions for memory, and under names of its own; and what says the sum of it."""
        folder = self.work / "archive"
        folder.mkdir()
        said("ar", "x", self.archive, cwd=folder)
        objects = [file for file in folder.iterdir() if "iox2ps_domain_create" in symbols(file, "T")]
        sums = [file for file in folder.iterdir() if "iox2ps_build_sum" in symbols(file, "R")]
        if len(objects) != 1:
            raise Failed(f"{self.archive} has {len(objects)} objects of what is proved")
        sums = sums or [self.says_sum(objects[0])]
        names = PROVED.findall((self.sources / "proved_calls.h").read_text())
        (self.work / "proved_names").write_text("".join(f"{name} {own}\n" for name, own in {**{f"iox2ps_{name}": f"iox2ps_proved_{name}" for name in names}, **OWN}.items()))
        said(self.tool("objcopy"), f"--redefine-syms={self.work / 'proved_names'}", objects[0])
        return objects[0], sums[0]

    def includes(self):
        return ("-I", self.bindings / "include", "-I", self.sources)

    def sum_of_sources(self):
        """Tells builds apart, beside the sum that the archive says."""
        total = hashlib.sha256()
        of_archive = (self.sources.parent / "archive" / name for name in ("slot_blocks.h", *MEMORY))
        for file in sorted((*self.sources.glob("*.[ch]"), *of_archive)):
            total.update(file.read_bytes())
        return f"0x{total.hexdigest()[:16]}"

    def with_file(self, sources, name):
        """The library that was compiled, but for one of its files, which is that of other sources."""
        other, target = copy(self), self.work / f"other_{name}.o"
        said(*self.flags, "-fPIC", f"-DIOX2PS_SUM_OF_SOURCES={self.sum_of_sources()}", "-I", self.bindings / "include", "-I", sources, "-c", sources / name, "-o", target)
        other.sources = sources
        other.objects = [target if file.name == f"{Path(name).stem}.o" else file for file in self.objects]
        return other

    def compile(self, warnings=()):
        of_sources = f"-DIOX2PS_SUM_OF_SOURCES={self.sum_of_sources()}"
        of_archive = [self.bindings / "archive/processor.c"] if CHECKS_PROCESSOR in self.archive.read_bytes() else []
        memory = [self.bindings / "archive" / name for name in MEMORY]
        for source in (*sorted(self.sources.glob("*.c")), *of_archive, *memory):
            target = self.work / f"{source.stem}.o"
            names = OTHER_NAMES if source in memory else ()
            said(*self.flags, *warnings, "-fPIC", of_sources, *names, *self.includes(), "-c", source, "-o", target)
            self.objects.append(target)
        return f"{len(self.objects)} objects, of sources {of_sources[-16:]}"

    def pack(self):
        """One object, of which a program sees the functions of the headers and no other name."""
        declared = set()
        for header in (self.bindings / "include/iox2_pubsub.h", self.sources / HEADER):
            declared |= set(re.findall(r"\biox2ps_\w+(?=\()", header.read_text()))
        whole = self.work / "iox2_pubsub_processes.o"
        said(self.tool("ld"), "-r", *self.objects, "-o", whole)
        (self.work / "public_names").write_text("".join(f"{name}\n" for name in sorted(declared)))
        weak = [f"--weaken-symbol={name}" for name in REPLACED]
        said(self.tool("objcopy"), f"--keep-global-symbols={self.work / 'public_names'}", *weak, whole)
        said("ar", "rcsD", self.packed, whole)
        left = {name for name in symbols(whole, "TDBR") if name not in declared}
        missing = symbols(self.archive_object(), "T") - symbols(whole, "T")
        if left or missing:
            raise Failed(f"it shows {sorted(left)}, and lacks {sorted(missing)}")
        return f"{len(symbols(whole, 'T'))} functions"

    @property
    def packed(self):
        """Where the archive of all lies."""
        return self.work / LIBRARY

    def archive_object(self):
        """The archive as it was, whose functions this library has to have."""
        folder = self.work / "as_it_was"
        folder.mkdir(exist_ok=True)
        said("ar", "x", self.archive, self.proved.name, cwd=folder)
        return folder / self.proved.name

    def test(self, warnings, name):
        """A test over the library's objects."""
        program = self.work / name
        said(*self.flags, *warnings, *self.includes(), self.sources / f"tests/{name}.c", *self.objects, *linked_for(self.target), "-o", program)
        return program

    def test_of_c(self, name, *more):
        """A test of one process, whose domains are of several."""
        program = self.work / f"c_{name}"
        before = ("-include", self.sources / "tests/shared_instead.h")
        said(*self.flags, *more, *before, *self.includes(), self.bindings / f"c/{name}.c", self.packed, *linked_for(self.target), "-o", program)
        return program

    def example(self, warnings, name):
        """A program as a user links it."""
        program = self.work / name
        words = (*linked_for(self.target), "-L", self.work, "-liox2_pubsub_processes", "-o", program)
        said(*self.flags, *warnings, *self.includes(), EXAMPLES / f"processes/{name}.c", *words)
        return program


def made_library(work, archive, target, bindings=BINDINGS):
    """The library over an archive, as it is released."""
    library = ProcessLibrary(work, archive, bindings, target=target)
    library.compile()
    library.pack()
    return library.packed
