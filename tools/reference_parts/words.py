# SPDX-License-Identifier: Apache-2.0 OR MIT
"""Reads Rattle and Rust as a list of words, each with its line."""
import re
from dataclasses import dataclass

WORDS = re.compile(
    r"""(?P<doc>///(?!/)[^\n]*) | (?P<skip>//[^\n]*|/\*.*?\*/|\s+)
      | (?P<text>b?"(?:\\.|[^"\\])*"|b?r\#".*?"\#|b'(?:\\.|[^'\\])'|'(?:\\.[^']*|[^'\\])')
      | (?P<life>'\w+) | (?P<number>\d[\w]*(?:\.\d\w*)?) | (?P<name>[^\W\d]\w*)
      | (?P<mark>::|->|=>|==|!=|<=|>=|&&|\|\||\.\.=|\.\.\.|\.\.|<<=|>>=|[+\-*/%&|^]=|.)""",
    re.X | re.S,
)


@dataclass(frozen=True, slots=True)
class Word:
    """A word of a file: its kind, itself, where it begins and ends, and its line."""

    kind: str
    text: str
    start: int
    end: int
    line: int


def words_of(text):
    """All words of a text, without comments that aren't documentation."""
    found, line, at = [], 1, 0
    for match in WORDS.finditer(text):
        line += text.count("\n", at, match.start())
        at = match.start()
        if match.lastgroup != "skip":
            found.append(Word(match.lastgroup, match[0], match.start(), match.end(), line))
    return found


class Unread(Exception):
    """What isn't understood, and where."""


class Reader:
    """Goes through words."""

    def __init__(self, words, at=0, end=None):
        self.words, self.at, self.end = words, at, len(words) if end is None else end

    def peek(self, ahead=0):
        at = self.at + ahead
        return self.words[at].text if at < self.end else ""

    def kind(self, ahead=0):
        at = self.at + ahead
        return self.words[at].kind if at < self.end else ""

    def next(self):
        if self.at >= self.end:
            raise Unread("the end")
        self.at += 1
        return self.words[self.at - 1].text

    def skip(self, *texts):
        """Passes over the next word if it is one of these."""
        if self.at < self.end and self.peek() in texts:
            self.at += 1
            return True
        return False

    def expect(self, text):
        if not self.skip(text):
            raise Unread(f"{text} is missing in line {self.words[min(self.at, len(self.words) - 1)].line}: {self.peek()}")

    def close(self):
        """Where the bracket that comes next is closed."""
        depth, at = 0, self.at
        while at < self.end:
            text = self.words[at].text if self.words[at].kind == "mark" else ""
            depth += (text in ("(", "[", "{")) - (text in (")", "]", "}"))
            if depth == 0:
                return at
            at += 1
        raise Unread("a bracket that isn't closed")

    def inside(self):
        """A reader of what the bracket that comes next holds; this one goes behind it."""
        last = self.close()
        inner = Reader(self.words, self.at + 1, last)
        self.at = last + 1
        return inner

    def until(self, *texts):
        """A reader of the words up to one of these, outside of brackets."""
        first = self.at
        while self.at < self.end and self.peek() not in texts:
            if self.kind() == "mark" and self.peek() in ("(", "[", "{"):
                self.at = self.close()
            self.at += 1
        return Reader(self.words, first, self.at)

    def generics(self):
        """A reader of what `<..>` holds, if that comes next; this one goes behind it."""
        if self.peek() != "<":
            return None
        first, depth = self.at + 1, 0
        while self.at < self.end:
            text = self.next()
            depth += (text == "<") - (text == ">")
            if depth == 0:
                return Reader(self.words, first, self.at - 1)
        raise Unread("a < that isn't closed")

    def parts(self, mark=","):
        """Readers of the parts between commas, outside of brackets and of `<..>`."""
        first, depth = self.at, 0
        while self.at < self.end:
            if self.kind() == "mark" and self.peek() in ("(", "[", "{"):
                self.at = self.close()
            text = self.peek()
            depth += (text == "<") - (text == ">")
            if text == mark and depth == 0:
                if self.at > first:
                    yield Reader(self.words, first, self.at)
                first = self.at + 1
            self.at += 1
        if self.at > first:
            yield Reader(self.words, first, self.at)
