# SPDX-License-Identifier: Apache-2.0 OR MIT
"""The package for Python with an extension that tests want: each file of its C is an object, in whose place there may be another one."""
import shutil
from concurrent.futures import ThreadPoolExecutor

from .folder import PYTHON_MADE
from .places import BINDINGS, OUT
from .process_library import LIBRARY
from .programs import ARCHIVE
from .steps import said

SOURCE = BINDINGS / "python"
COMPILER = ("gcc", "-std=c11", "-D_GNU_SOURCE", "-DPy_LIMITED_API=0x030b0000", "-O1", "-w", "-fPIC", "-fvisibility=hidden")
# The archive with the calls for domains that processes share, where it was built.
PROCESSES = ARCHIVE.with_name(LIBRARY)
# So many compilers run at a time.
AT_ONCE = 2


def compiled(file, include, to, *flags):
    """An object of one file, which may lie elsewhere than its headers."""
    made, known = to / f"{file.stem}.o", ("-DIOX2PS_HAS_PROCESSES",) if PROCESSES.exists() else ()
    said(*COMPILER, *known, *flags, "-I", SOURCE / "src", "-I", include, "-I", OUT / "include", "-c", file, "-o", made)
    return made


def objects_of(include, to, *flags):
    """Objects of all files, by their names."""
    to.mkdir(parents=True)
    files = sorted((SOURCE / "src").glob("*.c"))
    with ThreadPoolExecutor(AT_ONCE) as beside:
        return dict(zip((file.name for file in files), beside.map(lambda file: compiled(file, include, to, *flags), files)))


def linked(objects, to, *flags):
    """The package with an extension of these objects, in a folder."""
    shutil.copytree(SOURCE / "iox2_pubsub", to / "iox2_pubsub", ignore=shutil.ignore_patterns(*PYTHON_MADE))
    archive = PROCESSES if PROCESSES.exists() else ARCHIVE
    said("gcc", "-shared", *flags, *objects, archive, "-pthread", "-Wl,--exclude-libs,ALL", "-o", to / "iox2_pubsub/_core.abi3.so")
    return to


def build(include, to, *flags, beside=()):
    """The package with its extension compiled and linked by these flags, and with other objects beside it, in a folder."""
    return linked([*objects_of(include, to / "objects", *flags).values(), *beside], to, *flags)
