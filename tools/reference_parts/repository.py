# SPDX-License-Identifier: Apache-2.0 OR MIT
"""The files of the repository, and where they lie."""
import re
import subprocess
from dataclasses import dataclass
from functools import cached_property
from pathlib import Path, PurePosixPath

TOP = Path(__file__).resolve().parents[2]


@dataclass(frozen=True)
class Repository:
    """A folder with the files of the repository: this clone, or a copy of it."""

    top: Path = TOP

    @cached_property
    def names(self):
        """All files, also new ones that git doesn't ignore; of a copy without git, all that are there."""
        if not (self.top / ".git").exists():
            return sorted(file.relative_to(self.top).as_posix() for file in self.top.rglob("*") if file.is_file())
        words = ["git", "-C", str(self.top), "ls-files", "-z", "--cached", "--others", "--exclude-standard"]
        listed = subprocess.run(words, capture_output=True, text=True, check=True).stdout.split("\0")
        return sorted(name for name in set(listed) if name and (self.top / name).is_file())

    def text(self, name):
        return (self.top / name).read_text(errors="replace")

    def below(self, folder, end=""):
        """The files of a folder with this end."""
        return [name for name in self.names if name.startswith(f"{folder}/") and name.endswith(end)]

    @cached_property
    def crates(self):
        """The crates of crates.txt, each with those of the repository that it names."""
        lines = [line.split("#")[0] for line in self.text("crates.txt").splitlines()]
        named = {line.split(":")[0].split()[0]: line.split(":")[1].split() for line in lines if ":" in line}
        return {crate: [other for other in below if other in named] for crate, below in named.items()}

    def modules(self, folder, end):
        """The files of a crate's sources, each with the path of its module."""
        for name in self.below(folder, end):
            parts = PurePosixPath(name).relative_to(folder).with_suffix("").parts
            yield name, tuple(part for part in parts if part not in ("lib", "main", "mod"))


def sentence(text):
    """A text on one line."""
    return re.sub(r"\s+", " ", text).strip()
