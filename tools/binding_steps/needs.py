# SPDX-License-Identifier: Apache-2.0 OR MIT
"""What the archive needs of the C library and of the processor, which docs/FOR-YOUR-PRODUCT.md says."""
import re

from .page_texts import LIBRARY, PRODUCT, WITHOUT_MARKS, functions_called
from .places import FIRST_C, OUT
from .programs import ARCHIVE
from .steps import Failed, said
from .targets import PLAIN

# What x86-64-v2 lacks: instructions on vectors with three operands (AVX), and newer ones on bits.
NEWER_THAN_V2 = re.compile(r"\t(v[a-z]\w+|andn|bextr|bls\w+|bzhi|mulx|pdep|pext|rorx|sarx|shlx|shrx|lzcnt|tzcnt|movbe)\b")

# Instructions of x86-64-v2 that the first x86-64 processors lack: SSE3, SSSE3, SSE4.1, SSE4.2 and single ones.
NEWER_THAN_PLAIN = re.compile(
    r"\t(addsubp[ds]|h(?:add|sub)p[ds]|lddqu|mov(?:ddup|shdup|sldup)|fisttp\w*"
    r"|pabs[bwd]|palignr|ph(?:add|sub)\w+|pmaddubsw|pmulhrsw|pshufb|psign[bwd]"
    r"|blend\w+|dpp[ds]|extractps|insertps|movntdqa|mpsadbw|packusdw|pblend\w+|pcmpeqq|pextr[bdq]|phminposuw|pinsr[bdq]"
    r"|p(?:max|min)(?:sb|sd|ud|uw)|pmov[sz]x\w+|pmuldq|pmulld|ptest|round[ps][sd]"
    r"|crc32\w*|pcmp[ei]str[im]|pcmpgtq|popcnt\w*|cmpxchg16b|lahf|sahf)\b"
)


def called(archive):
    """The functions that an archive calls and doesn't have."""
    defined = set(re.findall(r" [A-TV-Z] (\w+)$", said("nm", "--defined-only", archive, both=False), re.M))
    return set(re.findall(r"^ +U (\w+)$", said("nm", "--undefined-only", archive, both=False), re.M)) - defined


def newest(program, names):
    """The newest version of glibc that a program needs for these functions."""
    taken = re.findall(r"\(GLIBC_([\d.]+)\) +(\w+)$", said("objdump", "-T", program, both=False), re.M)
    versions = [[int(part) for part in version.split(".")] for version, name in taken if name in names]
    return ".".join(map(str, max(versions, default=[0])))


def same_library(work, archive, is_plain):
    """An archive calls what the page says, and needs that version where all of it is linked."""
    version, names = LIBRARY.find()[1], functions_called(is_plain)
    if called(archive) != names:
        raise Failed(f"{archive.name} calls {sorted(called(archive))}, and {PRODUCT} says {sorted(names)}")
    whole = ("-Wl,--whole-archive", archive, "-Wl,--no-whole-archive")
    program = work / "whole"
    said("gcc", "-std=c11", "-I", OUT / "include", FIRST_C, *whole, "-o", program)
    if newest(program, names) != version:
        raise Failed(f"the archive needs glibc {newest(program, names)}, and {PRODUCT} says {version}")
    return f"glibc {version}, {len(names)} functions"


def has_no_marks(work, archive):
    """What is linked with all of an archive isn't marked for control-flow enforcement, as the page says."""
    WITHOUT_MARKS.find()
    joined = work / "joined.o"
    said("ld", "-r", "--whole-archive", archive, "-o", joined)
    if "x86 feature: " in said("readelf", "--notes", joined, both=False):
        raise Failed(f"{archive.name} is marked for CET, and {PRODUCT} says that it isn't")
    return "none"


def no_newer_instructions(archive, *newer):
    """The archive has no instruction of these."""
    lines = said("objdump", "--disassemble", "--no-show-raw-insn", archive, both=False).splitlines()
    found = sorted({there[1] for pattern in newer for there in map(pattern.search, lines) if there})
    if found:
        raise Failed(f"it has {', '.join(found)}")
    return f"{len(lines)} lines"


def run_needs(steps, work):
    """All of these, for the archives that were built."""
    for archive in (ARCHIVE, ARCHIVE.with_name(PLAIN.archive)):
        is_plain = archive is not ARCHIVE
        if archive.exists():
            steps.run(f"what {archive.name} needs of the C library", same_library, work, archive, is_plain)
            steps.run(f"{archive.name}, marks for control-flow enforcement", has_no_marks, work, archive)
            newer = (NEWER_THAN_V2, NEWER_THAN_PLAIN) if is_plain else (NEWER_THAN_V2,)
            steps.run(f"{archive.name}, instructions", no_newer_instructions, archive, *newer)
        else:
            steps.skip("what the archive for every x86-64 processor needs", f"{PLAIN.archive} beside the one that was given")
