# SPDX-License-Identifier: Apache-2.0 OR MIT
"""The processors that the archive is made for, and what each file of an archive says of its own."""
import hashlib
import platform
from dataclasses import dataclass, replace
from pathlib import Path

from .places import BINDINGS, OUT, is_here
from .steps import Failed

MAGIC, HEAD = b"!<arch>\n", 60
# What an ELF file has at its byte 18 in the order of its bytes, which all of these have least first.
ELF, MACHINE_AT = b"\x7fELF", 18


@dataclass(frozen=True)
class Target:
    """A processor, with Linux and glibc."""

    # As a release and `--target` name it, which is as CMake and `uname -m` do.
    name: str
    # As its ELF files name it.
    processor: str
    # As the kit, rustc and compilers name it.
    triple: str
    # The number that ELF files have for it.
    machine: int
    # Debian's compilers of C and C++.
    compilers: tuple[str, str]
    # Debian's emulator, where this machine's processor isn't such a one.
    emulator: tuple[str, ...]
    out: Path
    # What the archive is called in a folder's lib/.
    archive: str = "libiox2_pubsub.a"
    # Of which of these processors the kit makes code, where it isn't the one that the kit takes by itself.
    cpu: str = ""

    @property
    def is_crossed(self):
        return bool(self.emulator)

    @property
    def made(self):
        """In which folder of a crate's out/ its archive is made."""
        return "" if self.name == X86_64.name else self.name

    def lacking(self):
        """The programs that aren't here, of those that compile for it and run that."""
        return [program for program in (*self.compilers, *self.emulator[:1]) if not is_here(program)]


X86_64 = Target("x86_64", "x86_64", "x86_64-unknown-linux-gnu", 62, ("gcc", "g++"), (), OUT)
# The archive beside that one in the same folder and release, for every x86-64 processor.
PLAIN = replace(X86_64, name="x86_64_plain", archive="libiox2_pubsub_plain.a", cpu="x86-64")
AARCH64 = Target(
    "aarch64",
    "aarch64",
    "aarch64-unknown-linux-gnu",
    183,
    ("aarch64-linux-gnu-gcc", "aarch64-linux-gnu-g++"),
    # Its loader and C library are the cross compiler's. Debian's own for arm64, where they are installed, are of another version, and a
    # program that has the loader of one and the library of the other hangs where it starts a thread.
    ("qemu-aarch64-static", "-L", "/usr/aarch64-linux-gnu", "-E", "LD_LIBRARY_PATH=/usr/aarch64-linux-gnu/lib"),
    BINDINGS / "out-aarch64",
)
TARGETS = {target.name: target for target in (X86_64, AARCH64)}
NAMES = {target.machine: target.processor for target in TARGETS.values()}
# What archives are made for; the plain one has no folder and no release of its own.
ARCHIVES = {target.name: target for target in (X86_64, PLAIN, AARCH64)}


def asked_for(name):
    """The target of this name; without a name that of this machine's processor."""
    return TARGETS[name or platform.machine()]


def stand_in(machine):
    """The bytes of an archive of one object, which says for which processor it is and nothing else."""
    member = ELF.ljust(MACHINE_AT, b"\0") + machine.to_bytes(2, "little")
    return MAGIC + f"{'one.o/':<48}{len(member):<10}`\n".encode() + member


def members(archive):
    """The files of an archive."""
    data = Path(archive).read_bytes()
    if not data.startswith(MAGIC):
        raise Failed(f"{archive} is no archive")
    at = len(MAGIC)
    while at + HEAD <= len(data):
        size = int(data[at + 48 : at + 58])
        yield data[at + HEAD : at + HEAD + size]
        at += HEAD + size + size % 2


def build_sum(archive):
    """Tells what is proved in an archive apart from any other: 64 bits of its files, of an archive that has nothing else."""
    total = hashlib.sha256()
    for file in members(archive):
        if file.startswith(ELF):
            total.update(file)
    return int.from_bytes(total.digest()[:8], "big")


def processor_of(archive):
    """The name of the processor that an archive is for, or of ELF's number for it where this library isn't made for it."""
    machines = {int.from_bytes(file[MACHINE_AT : MACHINE_AT + 2], "little") for file in members(archive) if file.startswith(ELF)}
    if len(machines) != 1:
        raise Failed(f"{archive} is for {len(machines)} processors")
    machine = machines.pop()
    return NAMES.get(machine, f"ELF's machine {machine}")


def is_for(archive, target):
    """Refuses an archive for another processor."""
    found = processor_of(archive)
    if found != target.processor:
        raise Failed(f"{archive} is for {found}, not for {target.processor}")
    return found
