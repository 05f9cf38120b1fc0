# SPDX-License-Identifier: Apache-2.0 OR MIT
"""The sum by which an archive tells builds of what is proved in it apart."""
from .folder import ARCHIVE_CRATE, join_archives, kit_folder
from .steps import Failed, said
from .targets import build_sum, members


def says_it(archive, target, work):
    """Joined anew, an archive says the sum of what is proved in it, and another one with a byte more."""
    work = work / f"sum_{target.name}"
    work.mkdir()
    archiver, proved, alone, joined = kit_folder() / "toolchain/bin/llvm-ar", work / f"{ARCHIVE_CRATE}.o", work / "alone.a", work / target.archive
    said(archiver, "x", archive, proved.name, cwd=work)
    sums = set()
    for byte in (b"", b"\0"):
        proved.write_bytes(proved.read_bytes() + byte)
        alone.unlink(missing_ok=True)
        said(archiver, "rcs", alone, proved)
        join_archives(alone, joined, target)
        sums.add(build_sum(alone))
        saying = sum(build_sum(alone).to_bytes(8, "little") in file for file in members(joined))
        if saying != 1 or " R iox2ps_build_sum" not in said("nm", joined):
            raise Failed(f"{saying} files of the archive say its sum, {build_sum(alone):016x}")
    if len(sums) != 2:
        raise Failed("with a byte more it has the same sum")
    return ", ".join(f"{number:016x}" for number in sums)
