# SPDX-License-Identifier: Apache-2.0 OR MIT
"""The definitions that clauses name: the words of specs/, each with its comment."""
import re
from dataclasses import dataclass

# A word with its signature; what stands before it says how it is seen. Lists of a crate's files begin with `mod`.
DEFINED = re.compile(r"(?:(?:abbrev|unfoldable|opaque|pub)\s+)*(?!mod |use |module )(?:(?:record|data)\s+)?([^\s:({]+)(?=\s[^=]*:)")


@dataclass
class Definition:
    """A word of specs/."""

    word: str
    file: str
    line: int
    comment: str
    text: str


def paragraphs(text):
    """The parts of a file between empty lines, each with the number of its first line."""
    lines, first = [], 1
    for number, line in enumerate([*text.split("\n"), ""], 1):
        if line.strip():
            lines.append(line)
        elif lines:
            yield first, lines
            lines = []
        if not lines:
            first = number + 1


def definitions(repository, crates):
    """All definitions of these crates, by their words."""
    found = {}
    for crate in crates:
        for name in repository.below(f"crates/{crate}/specs", ".antt"):
            for first, lines in paragraphs(repository.text(name)):
                note(found, name, first, lines)
    return found


def without_modules(first, lines):
    """A part of a file behind the heads of modules, and the number of its first line. A head ends in `where`; it may have several
    lines, and a comment."""
    at = next((at for at, line in enumerate(lines) if not line.lstrip().startswith("--")), len(lines))
    if at == len(lines) or not lines[at].lstrip().startswith("module "):
        return first, lines
    end = next(end for end in range(at, len(lines)) if lines[end].endswith("where")) + 1
    return without_modules(first + end, lines[end:])


def note(found, name, first, lines):
    """Notes a part of a file that is a definition. One in a module stands further right."""
    first, lines = without_modules(first, lines)
    comments = [line.strip()[2:].strip() for line in lines if line.lstrip().startswith("--")]
    code = [line for line in lines if not line.lstrip().startswith("--")]
    match = DEFINED.match(code[0].strip()) if code else None
    if match:
        indent = len(code[0]) - len(code[0].lstrip())
        text = "\n".join(line[indent:] for line in code)
        found.setdefault(match[1], []).append(Definition(match[1], name, first + len(lines) - len(code), " ".join(comments), text))
