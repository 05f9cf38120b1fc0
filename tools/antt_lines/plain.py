# SPDX-License-Identifier: Apache-2.0 OR MIT
"""Long lines that need no reading of terms: comments and imports."""
import re
import textwrap

USE = re.compile(r"((?:pub )?use [^\s{}]+\.)\{(.*)\}$")
COMMENT = re.compile(r"(\s*)-- (.*)$")
# A comment behind a term stands two spaces from it; none of our texts in quotes has such a sign.
BEHIND = re.compile(r"(\s*)(\S.*?\S)\s+-- (.*)$")
# A line of a comment that begins anew, whatever stands before it.
ANEW = re.compile(r"\(|- |\d+\. |`")


def filled(begin, words, end, most):
    """Lines that begin and end so, with as many of the words on each as fit."""
    lines, row = [], []
    for word in words:
        if row and len(begin + ", ".join([*row, word]) + end) > most:
            lines.append(begin + ", ".join(row) + end)
            row = []
        row.append(word)
    return [*lines, begin + ", ".join(row) + end]


def import_lines(line, most):
    """An import of many names as several imports of the same module; nothing where it has one name alone, or isn't one."""
    match = USE.match(line)
    words = match and [word.strip() for word in match[2].split(",") if word.strip()]
    return filled(match[1] + "{", words, "}", most) if words and len(words) > 1 else None


def moved_comment(line):
    """A line with a comment behind its term as two: the comment stands above it then. Nothing where it has none."""
    match = BEHIND.match(line)
    return match and [f"{match[1]}-- {match[3]}", match[1] + match[2]]


def comment_lines(lines, at, most):
    """A comment's line as two, of which the second takes up the line below where that goes on; and how many lines they replace."""
    match = COMMENT.match(lines[at])
    if not match or " " not in match[2]:
        return None
    begin = f"{match[1]}-- "
    first, *more = textwrap.wrap(match[2], most - len(begin), break_long_words=False, break_on_hyphens=False)
    if not more:
        return None
    below = COMMENT.match(lines[at + 1]) if at + 1 < len(lines) else None
    goes_on = below and below[1] == match[1] and not ANEW.match(below[2])
    rest = " ".join([*more, *([below[2]] if goes_on else [])])
    return [begin + first, begin + rest], 2 if goes_on else 1
