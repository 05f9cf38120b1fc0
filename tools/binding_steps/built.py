# SPDX-License-Identifier: Apache-2.0 OR MIT
"""Packs the library for programs in Rattle: its crates, each with the folder that `rt check` takes over in place of a proof."""
import importlib.machinery
import importlib.util
import re
import resource
import shutil
import sys
import tarfile
import tempfile
import time
from pathlib import Path

from .folder import crates_below
from .places import LICENCES, TOP, version
from .release import SUMS, commit, kit, pack as pack_files, seconds_of, write_sums
from .steps import Failed, said
from .targets import X86_64

CRATE = "iox2_pubsub"
PARTS = ("src", "specs", "proofs")
EXAMPLE = "first_message"
# Within how many seconds of a processor a user's crate has to be proved over what is packed. From nothing it takes 34 minutes of it.
MOST_SECONDS = 120

READ_ME = """\
# iox2_pubsub {version} for programs in Rattle, proved and built

The library's crates of commit {commit}, as the kit {kit} proved and built them. Another kit proves them anew.

1. Unpack the file at the top of your repository, so that `crates/` has these crates beside yours.
2. Add the lines of `iox2_pubsub/lines.txt` to your `crates.txt`, and one of your own crate: `mine: iox2_pubsub`.

`rt check` in your crate then takes the folders `out/rlib` over, and proves your crate alone. It trusts what stands in them: at the top of
your repository `sha256sum --check --quiet iox2_pubsub/SHA256SUMS` says that nothing was changed on its way, and `rt ci` proves all of it anew.
"""


def load_proved():
    """tools/proved as a module."""
    loader = importlib.machinery.SourceFileLoader("proved", str(TOP / "tools/proved"))
    module = importlib.util.module_from_spec(importlib.util.spec_from_loader("proved", loader))
    sys.modules["proved"] = module
    loader.exec_module(module)
    return module


def kept_crates(proved, room):
    """The crates with what `rt ci` kept of them, lowest first."""
    crate, kept = proved.crate_over_kept(proved.load_rt(), CRATE, room)
    if not kept.give(crate, False, kept.key(crate)):
        raise proved.NotKept(CRATE)
    return crate


def built_here(proved):
    """The crates of this clone, where `rt ci`, `rt lib` or `rt check` left the library of each in its out/."""
    try:
        crate = proved.crate_over_left(proved.load_rt(), CRATE)
        if not proved.is_left(crate, Path(crate.rlib)):
            raise proved.NotKept(CRATE)
    except proved.NotKept as lacking:
        raise Failed(f"neither rt ci nor rt lib has built {lacking} as it is: run rt ci") from lacking
    return crate


def copy_crate(crate, to):
    """The crate's files, its library, and the stamp by which `rt` knows what that was built of."""
    folder = to / "crates" / crate.name
    for part in (*PARTS, f"out/rlib/{crate.name}.rlib"):
        if (Path(crate.folder) / part).exists():
            shutil.copytree(Path(crate.folder) / part, folder / part)
    (folder / "out/rlib/stamp").write_text(crate.stamp())


def copy_all(to):
    """All crates that the library is made of."""
    proved = load_proved()
    with tempfile.TemporaryDirectory(prefix="built-") as room:
        try:
            crate = kept_crates(proved, room)
        except (proved.NotKept, *proved.UNREADABLE):
            crate = built_here(proved)
        for it in (*crate.below(), crate):
            copy_crate(it, to)


def lines_of_crates():
    """The lines of crates.txt for these crates, lowest first."""
    text = (TOP / "crates.txt").read_text()
    return "".join(re.search(rf"^{name}:.*\n", text, re.M)[0] for name in crates_below(CRATE))


def write_notes(folder):
    """What isn't a crate, in a folder of its own, so that nothing of the user's is written over."""
    notes = folder / "iox2_pubsub"
    notes.mkdir()
    (notes / "lines.txt").write_text(lines_of_crates())
    (notes / "README.md").write_text(READ_ME.format(version=version(), commit=commit(), kit=kit()))
    for licence in LICENCES:
        shutil.copyfile(TOP / licence, notes / licence)
    write_sums(folder)
    (folder / SUMS).rename(notes / SUMS)


def pack(to):
    """Makes the archive file, and returns where it lies."""
    name = f"iox2_pubsub-{version()}-rattle-{X86_64.name}"
    folder = to / name
    shutil.rmtree(folder, ignore_errors=True)
    folder.mkdir(parents=True)
    copy_all(folder)
    write_notes(folder)
    packed = to / f"{name}.tar.gz"
    pack_files(folder, sorted(folder.rglob("*")), packed, seconds_of(commit()))
    shutil.rmtree(folder)
    return packed


def stamps(top):
    """When each library was built: `rt` writes the stamp of one that it builds."""
    return {name: (top / "crates" / name / "out/rlib/stamp").stat().st_mtime_ns for name in crates_below(CRATE)}


def processor_seconds():
    """What the commands that have ended took of a processor: other programs on the machine make it no longer."""
    used = resource.getrusage(resource.RUSAGE_CHILDREN)
    return used.ru_utime + used.ru_stime


def is_taken_over(work, packed):
    """A user's crate is proved over it in a new repository, and no crate of the library is."""
    top = work / "user"
    top.mkdir()
    with tarfile.open(packed) as file:
        file.extractall(top, filter="data")
    shutil.copytree(TOP / "crates" / EXAMPLE, top / "crates" / EXAMPLE, ignore=shutil.ignore_patterns("out"))
    (top / "crates.txt").write_text((top / "iox2_pubsub/lines.txt").read_text() + f"{EXAMPLE}: {CRATE}\n")
    (top / ".git").mkdir()
    said("sha256sum", "--check", "--quiet", f"iox2_pubsub/{SUMS}", cwd=top)
    before, started, used = stamps(top), time.monotonic(), processor_seconds()
    written = said("rt", "check", cwd=top / "crates" / EXAMPLE)
    seconds, used = time.monotonic() - started, processor_seconds() - used
    if not re.search(r"^logic=proved ", written, re.M):
        raise Failed(written[-3000:])
    if stamps(top) != before:
        raise Failed(f"a crate of the library was built anew:\n{written[-3000:]}")
    if used > MOST_SECONDS:
        raise Failed(f"it took {used:.0f} seconds of a processor, more than {MOST_SECONDS}")
    return f"{EXAMPLE} is proved over it in {seconds:.0f} s, {used:.0f} s of a processor; no crate of the library is"
