# SPDX-License-Identifier: Apache-2.0 OR MIT
"""What the headers of C and C++ declare: functions, their comments, and which functions of C a method calls."""
import re
from collections import defaultdict
from dataclasses import dataclass, field

from .repository import sentence

C_HEADER = "bindings/include/iox2_pubsub.h"
C_NAME = re.compile(r"\biox2ps_\w+")
# What the archive's functions end in that stand behind inline ones, which users call.
BEHIND = ("_sized", "_counted")
C_FUNCTION = re.compile(
    r"(?:/\*\*(?P<doc>(?:(?!\*/).)*)\*/\s*)?(?P<head>(?:IOX2PS_NODISCARD\s+)?(?:static inline\s+)?(?:const\s+)?\w+\s+\**)"
    r"\b(?P<name>iox2ps_\w+)\((?P<inputs>[^;{]*?)\)(?:;|\s*\{(?P<body>.*?)^\})",
    re.S | re.M,
)
WORDS = re.compile(r"/\*.*?\*/|//[^\n]*|\#(?:\\\n|[^\n])*|\"(?:\\.|[^\"\\])*\"|'(?:\\.|[^'\\])*'|::|->|\w+|\s+|.", re.S)


@dataclass
class CFunction:
    """A function of the header."""

    name: str
    line: int
    doc: str
    signature: str
    # Itself, or the archive's function that it calls where it is inline.
    archived: str


def plain(comment):
    """A comment without its frame, a line for each paragraph."""
    lines = [re.sub(r"^\s*\*? ?", "", line).rstrip() for line in comment.strip().split("\n")]
    text = "\n".join(lines)
    return re.sub(r"@name .*|@[{}]", "", text).strip()


def c_functions(repository):
    """The functions of the header that users call, as they come."""
    text = repository.text(C_HEADER)
    found = []
    for match in C_FUNCTION.finditer(text):
        doc = plain(match["doc"] or "")
        signature = sentence(re.sub(r"IOX2PS_NODISCARD|static inline", "", match["head"]) + f"{match['name']}({match['inputs']})")
        called = C_NAME.search(match["body"] or "")
        archived = called[0] if called else match["name"]
        found.append(CFunction(match["name"], text.count("\n", 0, match.start("name")) + 1, doc, signature, archived))
    return [one for one in found if not one.name.endswith(BEHIND)]


@dataclass
class Method:
    """A function of C++: of a class, or free."""

    owner: str
    name: str
    line: int
    is_public: bool
    is_detail: bool
    doc: str
    # The class in which its class is declared.
    within: str = ""
    uses: list = field(default_factory=list)


class Headers:
    """Reads headers of C++ for their functions."""

    def __init__(self, repository):
        self.methods, self.friends = [], defaultdict(set)
        for name in repository.below("bindings/include", ".hpp"):
            self.read(repository.text(name))
        self.by_owner = defaultdict(list)
        self.by_name = defaultdict(list)
        for method in self.methods:
            self.by_owner[method.owner, method.name].append(method)
            self.by_name[method.name].append(method)

    def read(self, text):
        self.words, line = [], 1
        for match in WORDS.finditer(text):
            word = match[0]
            if not word.isspace() and not word.startswith(("//", "#", '"')) and (not word.startswith("/*") or word.startswith("/**")):
                self.words.append((word, line))
            line += word.count("\n")
        self.scope(0, len(self.words), "", True)

    def close(self, at, end):
        """Where the bracket here is closed."""
        pairs, depth = {"(": 1, "[": 1, "{": 1, ")": -1, "]": -1, "}": -1}, 0
        while at < end:
            depth += pairs.get(self.words[at][0], 0)
            if depth == 0:
                return at
            at += 1
        return end - 1

    def scope(self, at, end, owner, is_public, is_detail=False, within=""):
        """The declarations of a namespace or a class."""
        doc, first = "", at
        while at < end:
            word = self.words[at][0]
            if word.startswith("/**"):
                if not word.startswith("/**<"):
                    doc = plain(word[3:-2])
                    first = at + 1
                at += 1
            elif word in ("public", "private", "protected") and self.words[at + 1][0] == ":":
                is_public, at, first = word == "public", at + 2, at + 2
            elif word == "namespace":
                opened = next(it for it in range(at, end) if self.words[it][0] in "{;=")
                if self.words[opened][0] == "{":
                    closed = self.close(opened, end)
                    self.scope(opened + 1, closed, owner, is_public, is_detail or self.words[at + 1][0] == "detail")
                    at = closed + 1
                else:
                    at = opened + 1
                first, doc = at, ""
            elif word == "friend":
                last = next(it for it in range(at, end) if self.words[it][0] in (";", "{"))
                self.friends[owner].update(text for text, _ in self.words[at:last])
                at = first = last
            elif word in ("class", "struct") and self.is_type(at, end):
                at = self.type(at, end, is_detail or not is_public, owner)
                first, doc = at, ""
            elif word == "(" and at > first:
                at = self.function(first, at, end, Method(owner, *self.words[at - 1], is_public, is_detail, doc, within))
                first, doc = at, ""
            elif word == "{":
                at = self.close(at, end) + 1
            elif word == ";":
                at, doc = at + 1, ""
                first = at
            else:
                at += 1

    def is_type(self, at, end):
        """Whether a class is defined here."""
        if self.words[at - 1][0] in ("enum", "<", ",", "friend"):
            return False
        return next((word for word, _ in self.words[at:end] if word in ("{", ";", "(")), "") == "{"

    def type(self, at, end, is_detail, within):
        opened = next(it for it in range(at, end) if self.words[it][0] == "{")
        words = [word for word, _ in self.words[at + 1 : opened]]
        while words and words[0] == "[":
            words = words[words.index("]") + 2 :]
        closed = self.close(opened, end)
        name = words[0] if words else ""
        self.scope(opened + 1, closed, name, self.words[at][0] == "struct", is_detail, within)
        return closed + 1

    def function(self, first, at, end, method):
        """Notes a function whose parameters begin here, if it is one; returns where it ends."""
        after = self.close(at, end) + 1
        while after < end and self.words[after][0] not in ("{", ";", "=", ":"):
            after = self.close(after, end) + 1 if self.words[after][0] == "(" else after + 1
        if after < end and self.words[after][0] == ":":
            after = self.body_behind_initialisers(after + 1, end)
        if after < end and self.words[after][0] == "{":
            closed = self.close(after, end)
            method.uses = [
                self.use(it) for it in range(first, closed) if re.match(r"[A-Za-z_]", self.words[it][0]) and self.words[it + 1][0] in "(<{"
            ]
            after = closed
        elif after < end and self.words[after][0] == "=":
            after = next((it for it in range(after, end) if self.words[it][0] == ";"), end - 1)
        if self.words[at - 2][0] == "~":
            method.name = f"~{method.name}"
        if re.match(r"~?[A-Za-z_]\w*$", method.name) and method.name not in ("alignas", "static_assert", "decltype", "noexcept"):
            self.methods.append(method)
        return after + 1

    def use(self, at):
        """A word with what stands before it: the class, where that is named."""
        before, name = self.words[at - 1][0], self.words[at][0]
        return (self.words[at - 2][0] if before == "::" and re.match(r"\w", self.words[at - 2][0]) else before, name)

    def body_behind_initialisers(self, at, end):
        while at < end:
            if self.words[at][0] in ("(", "{"):
                if self.words[at][0] == "{" and not re.match(r"\w", self.words[at - 1][0]) and self.words[at - 1][0] != ">":
                    return at
                at = self.close(at, end)
                if at + 1 < end and self.words[at + 1][0] == "{":
                    return at + 1
            at += 1
        return end - 1

    def followed(self, method):
        """The functions that a function may call."""
        for before, name in method.uses:
            own = self.by_owner.get((method.owner, name), [])
            if (before, name) in self.by_owner:
                yield from self.by_owner[before, name]
            elif before in (".", "->"):
                candidates = self.by_name.get(name, [])
                yield from (it for it in candidates if it.is_detail and it.within in ("", method.owner, method.within))
                yield from (it for it in candidates if not it.is_public and not it.is_detail and method.owner in self.friends[it.owner])
            elif own:
                yield from own
            elif before == "::":
                yield from self.by_name.get(name, [])
            else:
                yield from (it for it in self.by_name.get(name, []) if not it.owner)

    def reached(self, method):
        """The functions of C that a function calls, also by others."""
        seen, left, found = {id(method)}, [method], []
        while left:
            one = left.pop()
            found.extend(name for _, name in one.uses if C_NAME.fullmatch(name) and not name.endswith("_t") and name not in found)
            for other in self.followed(one):
                # What another public function promises is that function's own.
                if id(other) not in seen and (other.is_detail or not other.is_public or other.owner == method.owner):
                    seen.add(id(other))
                    left.append(other)
        return found

    def public(self):
        """The public functions with the functions of C that they call."""
        for method in self.methods:
            if method.is_public and not method.is_detail:
                yield method, self.reached(method)
