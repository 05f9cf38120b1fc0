# SPDX-License-Identifier: Apache-2.0 OR MIT
"""Settings and answers that are exchanged with another of their type, or left out: where they stand in a text, and the text with each change."""
import re
from dataclasses import dataclass
from itertools import combinations

from .steps import Failed
from .swapped_fields import Swap


@dataclass(frozen=True)
class Change:
    """What is exchanged or left out, in words, and what stands instead of each span of a text."""

    what: str
    edits: tuple[tuple[int, int, str], ...]

    def made_in(self, text):
        """The text with the change."""
        return with_edits(text, self.edits)


@dataclass(frozen=True)
class Places:
    """Places of one file whose words may be exchanged where their types are the same: those of `place`, in what `region` finds. With an
    `owner`, the words behind it are values of one type, of which a program may choose one when it runs."""

    file: str
    region: str
    place: str
    owner: str | None = None
    # What stands instead of a place, with its own word, the other one and their type, where that is more than the other word.
    form: str = ""
    # The struct of C whose fields the words are, as a binding declares them, or the fields whose values they are, by their structs.
    struct: str = ""
    fields: tuple[tuple[str, str], ...] = ()
    # What C has before such a value.
    prefix: str = ""

    @property
    def is_of_archive(self):
        return bool(self.struct or self.fields)

    @property
    def is_switched(self):
        return self.owner is not None or self.is_of_archive

    def swaps(self, text, numbered):
        """The fields or values of C that change places."""
        for number, change in numbered:
            words = tuple(self.prefix + text[begin:end] for begin, end, _ in change.edits)
            if self.struct:
                yield Swap(number, self.struct, words)
            yield from (Swap(number, struct, words, field) for struct, field in self.fields)

    def switched(self, text, switch, numbered):
        """The edits that let a program choose each of these changes by its number. Fields and values change places in the archive."""
        if self.is_of_archive:
            return
        others = {}
        for number, change in numbered:
            for begin, end, word in change.edits:
                others.setdefault((begin, end), []).append((number, word))
        for (begin, end), words in others.items():
            start = begin - len(self.owner)
            if text[start:begin] != self.owner:
                raise Failed(f"{self.owner} isn't before {text[begin:end]}")
            yield start, end, switch.choose(self.owner, text[begin:end], words)

    def changes(self, text):
        """Each pair of words of one type that are exchanged."""
        region = re.search(self.region, text, re.M | re.S)
        found = list(re.compile(self.place, re.M).finditer(text, region.start(), region.end()))
        if len(found) < 2:
            raise Failed(f"{self} finds {len(found)} places")
        types = [match.groupdict().get("type") for match in found]
        for first, second in combinations(range(len(found)), 2):
            if types[first] == types[second]:
                yield exchange(text, found[first], found[second], self.form)


@dataclass(frozen=True)
class Statements:
    """Statements of one file that set or answer something: those of `statement`, in what `region` finds."""

    file: str
    region: str
    statement: str
    instead: str = ""
    # Whether it is a whole statement, which a program may pass over when it runs.
    is_switched: bool = True

    def switched(self, text, switch, numbered):
        """The edits that let a program choose each of these changes by its number."""
        for number, change in numbered:
            (begin, end, instead), = change.edits
            yield begin, begin, f"{{ if ({switch.name}({number})) {{ {instead} }} else {{ "
            yield end, end, " } }"

    def changes(self, text):
        """Each statement that is left out, or has another instead of it."""
        region = re.search(self.region, text, re.M | re.S)
        found = list(re.compile(self.statement, re.M).finditer(text, region.start(), region.end()))
        if not found:
            raise Failed(f"{self} finds nothing")
        for match in found:
            what = f"{line_of(text, match.start())}: {' '.join(match[0].split())} left out"
            yield Change(what, ((*match.span(), self.instead),))


@dataclass(frozen=True)
class Arguments:
    """Two arguments of one type of a function of the C header, which a macro behind the header exchanges."""

    file: str
    function: str
    arguments: tuple[str, ...]
    pair: tuple[str, str]
    is_switched = False

    def changes(self, text):
        """The one change."""
        other = dict(zip(self.pair, reversed(self.pair)))
        given, passed = ", ".join(self.arguments), ", ".join(other.get(name, name) for name in self.arguments)
        macro = f"#define {self.function}({given}) {self.function}({passed})\n"
        yield Change(f"{self.function}: {' and '.join(self.pair)} exchanged", ((len(text), len(text), macro),))


@dataclass(frozen=True)
class Switch:
    """How a program asks which change it runs with: by the name of a function, which stands behind the line that `behind` finds in a file."""

    name: str
    file: str
    behind: str
    function: str

    def choose(self, owner, word, others):
        """One of several values: that of the change with which the program runs."""
        if self.name.startswith("crate::"):
            chosen = "".join(f"if {self.name}({number}) {{ &mut {owner}{other} }} else " for number, other in others)
            return f"*({chosen}{{ &mut {owner}{word} }})"
        chosen = "".join(f"{self.name}({number}) ? {owner}{other} : " for number, other in others)
        return f"({chosen}{owner}{word})"

    def defined_in(self, text):
        """The edit that defines the function."""
        at = re.search(self.behind, text, re.M).end()
        return at, at, f"\n{self.function}\n"


def line_of(text, at):
    return f"line {text.count(chr(10), 0, at) + 1}"


def with_edits(text, edits):
    """The text with what stands instead of each span; of edits at one place, the earlier one comes first."""
    for begin, end, instead in sorted(edits, key=lambda edit: edit[:2], reverse=True):
        text = text[:begin] + instead + text[end:]
    return text


def exchange(text, first, second, form=""):
    """Each of two places says what the other says, in this form if there is one."""
    what = f"{line_of(text, first.start('word'))}: {first['word']} and {second['word']} exchanged"
    pairs = ((first, second), (second, first))
    if form:
        return Change(what, tuple((*own.span(), form % {**own.groupdict(), "other": other["word"]}) for own, other in pairs))
    return Change(what, tuple((*own.span("word"), other["word"]) for own, other in pairs))
