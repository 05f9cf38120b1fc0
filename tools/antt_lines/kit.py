# SPDX-License-Identifier: Apache-2.0 OR MIT
"""What the kit's own formatter says of files of antt: their tokens, and their layout."""
import json
import subprocess
from dataclasses import dataclass

# How many files one call is given, so that its words fit.
AT_ONCE = 500


class Unread(Exception):
    """What the kit doesn't read, with its words."""


@dataclass(frozen=True, slots=True)
class Token:
    """A token of a line: its text, and the columns at which it begins and ends, from 0."""

    text: str
    start: int
    end: int


def formatter(words, files):
    """Calls the kit's formatter, which prints nothing of files that it can't read."""
    ran = subprocess.run(["rattle", "fmt", *words, *map(str, files)], capture_output=True, text=True)
    if ran.returncode:
        raise Unread(ran.stderr.strip() or ran.stdout.strip())
    return ran.stdout


def lay_out(files):
    """Gives files their layout: how far each line stands to the right, and one item a line where a bracket has several lines."""
    for first in range(0, len(files), AT_ONCE):
        formatter(["--write"], files[first : first + AT_ONCE])


def tokens_of(files):
    """The lines of each file, each as its tokens."""
    found = {}
    for first in range(0, len(files), AT_ONCE):
        part = files[first : first + AT_ONCE]
        rows = formatter(["--tokens"], part).splitlines()
        starts = [at for at, row in enumerate(rows) if row.startswith("file ")]
        for file, start, end in zip(part, starts, [*starts[1:], len(rows)]):
            found[file] = by_line(file.read_bytes(), rows[start + 1 : end])
    return found


def by_line(data, rows):
    """The tokens of a file by line, of which the kit counts bytes from the file's start. Of Rattle only what is antt counts."""
    lines = data.split(b"\n")
    begins, found = [0], [[] for _ in lines]
    for line in lines:
        begins.append(begins[-1] + len(line) + 1)
    for row in rows:
        number, start, end, kind, text = row.split(" ", 4)
        if kind in ("Code", "Literal"):
            continue
        at = int(number) - 1
        before = lines[at][: int(start) - begins[at]].decode()
        shown = lines[at][int(start) - begins[at] : int(end) - begins[at]].decode()
        found[at].append(Token(json.loads(text), len(before), len(before) + len(shown)))
    return found
