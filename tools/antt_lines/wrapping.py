# SPDX-License-Identifier: Apache-2.0 OR MIT
"""Wraps the long lines of files of antt, and compares what the prover reads of them before and afterwards."""
import re

from . import kit
from .breaks import broken
from .plain import COMMENT, comment_lines, import_lines, moved_comment

# How often lines are broken at most; each time a line gets shorter.
MOST_ROUNDS = 40


def is_long(line, most):
    return len(line) > most


def changed_at(lines, at, tokens, most):
    """What stands in place of a long line, and of how many lines; nothing where it can't be wrapped."""
    line = lines[at]
    if COMMENT.match(line):
        return comment_lines(lines, at, most)
    found = import_lines(line, most) if line.lstrip().startswith(("use ", "pub use ")) else moved_comment(line) or broken(line, tokens, most)
    return (found, 1) if found else None


def wrapped_once(lines, tokens, most):
    """The lines, with each long one broken once, and whether one was."""
    result, at, is_changed = [], 0, False
    while at < len(lines):
        change = changed_at(lines, at, tokens[at], most) if is_long(lines[at], most) else None
        result += change[0] if change else [lines[at]]
        at += change[1] if change else 1
        is_changed |= bool(change)
    return result, is_changed


def wrap(files, most):
    """Wraps the files in place. What is long afterwards can't be wrapped."""
    rest = [file for file in files if any(is_long(line, most) for line in file.read_text().split("\n"))]
    for _ in range(MOST_ROUNDS):
        if not rest:
            return
        tokens, again = kit.tokens_of(rest), []
        for file in rest:
            lines, is_changed = wrapped_once(file.read_text().split("\n"), tokens[file], most)
            if is_changed:
                file.write_text("\n".join(lines))
                again.append(file)
        kit.lay_out(again)
        rest = again


def imports(texts, at):
    """The names that an import takes, each as an import of its own, and where it ends."""
    first = at - 1 if at and texts[at - 1] == "pub" else at
    module = " ".join(texts[first : at + 2])
    if texts[at + 2 : at + 4] != [".", "{"]:
        return [module], at + 2
    end = texts.index("}", at)
    names = re.sub(r" ?, ?", ",", " ".join(texts[at + 4 : end])).split(",")
    return [f"{module}.{name}" for name in names if name], end + 1


def meaning(lines):
    """What the prover reads of a file: its tokens, without those that only say that a list has several lines, and with one
    import for each name."""
    texts, found, at = [token.text for line in lines for token in line], [], 0
    while at < len(texts):
        if texts[at] == "use":
            found = found[:-1] if found and found[-1] == "pub" else found
            names, at = imports(texts, at)
            found += names
            continue
        is_last = texts[at] in ",;" and texts[at + 1 : at + 2] and texts[at + 1] in ")}]"
        is_first = texts[at] == "|" and found and found[-1] == "["
        if not is_last and not is_first:
            found.append(texts[at])
        at += 1
    return found


def comment_words(text):
    """The words of all comments of a file."""
    return sorted(word for comment in re.findall(r"(?:^|\s)-- (.*)$", text, re.M) for word in comment.split())
