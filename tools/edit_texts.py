# SPDX-License-Identifier: Apache-2.0 OR MIT
"""What stands in a file of an edit: lines 'file:', 'old:' and 'new:', and whom it is for ('proof: CRATE', 'tests: CRATE', 'prints: CRATE')."""


def read(path):
    """The lines of an edit, as pairs of a word and what stands behind it."""
    return [line.split(": ", 1) if ": " in line else [line.rstrip().removesuffix(":"), ""] for line in path.read_text().splitlines()]


def value(lines, wanted):
    """What stands behind the first such word, or None."""
    return next((text for word, text in lines if word == wanted), None)


def paired(lines):
    """The file, old and new text of each pair, as the prover's edits have them."""
    file = old = None
    for word, text in lines:
        if word == "file":
            file = text
        elif word == "old":
            old = text
        elif word == "new":
            yield file, old, text


def joined(lines):
    """The file, and the old and the new text, each of which may have many lines, as all other edits have them."""
    texts = {wanted: "\n".join(text for word, text in lines if word == wanted) for wanted in ("file", "old", "new")}
    yield texts["file"], texts["old"], texts["new"]
