# SPDX-License-Identifier: Apache-2.0 OR MIT
"""The items of a file of Rattle or Rust: types, traits, functions with their clauses."""
from dataclasses import dataclass, field

from .words import Reader, Unread, words_of

CLAUSES = ("requires", "ensures")


@dataclass(frozen=True)
class Clause:
    """A clause of a contract. Its name is empty where it has none."""

    kind: str
    name: str
    text: str


@dataclass(eq=False)
class Item:
    """What a file declares."""

    kind: str
    name: str
    file: str
    line: int
    module: tuple
    is_public: bool
    doc: str = ""
    attributes: tuple = ()
    signature: str = ""
    clauses: list = field(default_factory=list)
    # Of an impl's or a trait's function: of which type it is, and of which trait.
    owner: object = None
    # Readers of what is looked at later: of a type, a field's type, parameters, a body.
    generics: object = None
    inputs: object = None
    output: object = None
    body: object = None
    members: list = field(default_factory=list)
    last_line: int = 0


@dataclass(eq=False)
class Owner:
    """The head of an impl or a trait."""

    generics: object
    trait: object
    type: object
    bounds: object = None
    doc: str = ""
    targets: dict = field(default_factory=dict)


@dataclass(eq=False)
class File:
    """What a file declares, and what it uses."""

    name: str
    module: tuple
    items: list = field(default_factory=list)
    uses: list = field(default_factory=list)
    public_uses: list = field(default_factory=list)
    impls: list = field(default_factory=list)


class Parser:
    """Reads the items of one file."""

    def __init__(self, name, module, text):
        self.text, self.file = text, File(name, module)
        self.reader = Reader(words_of(text))

    def parse(self):
        self.items(self.reader, self.file.module, None)
        return self.file

    def items(self, reader, module, owner):
        while reader.at < reader.end:
            self.item(reader, module, owner)

    def heads(self, reader):
        """Documentation and attributes before an item."""
        doc, attributes = [], []
        while reader.at < reader.end:
            if reader.kind() == "doc":
                doc.append(reader.next()[3:].removeprefix(" "))
            elif reader.peek() == "#":
                reader.next()
                reader.skip("!")
                inner = reader.inside()
                attributes.append(self.between(inner))
            else:
                break
        return "\n".join(doc), tuple(attributes)

    def between(self, reader):
        """The text of a reader's words."""
        if reader.at >= reader.end:
            return ""
        return self.text[reader.words[reader.at].start : reader.words[reader.end - 1].end]

    def item(self, reader, module, owner):
        doc, attributes = self.heads(reader)
        if reader.at >= reader.end:
            return
        line = reader.words[reader.at].line
        first = reader.at
        is_public = reader.skip("pub")
        if is_public and reader.peek() == "(":
            reader.inside()
            is_public = False
        while reader.peek() in ("unsafe", "async", "default", "const", "extern") and self.leads_to_function(reader):
            reader.next()
            if reader.kind() == "text":
                reader.next()
        word = reader.next()
        if word == "extern" and reader.kind() == "text":
            reader.next()
            self.items(reader.inside(), module, owner)
            return
        made = Item(word, "", self.file.name, line, module, is_public, doc, attributes, owner=owner)
        if word == "fn":
            self.function(reader, made, first)
        elif word in ("struct", "enum", "union"):
            self.type(reader, made)
        elif word == "trait":
            self.trait(reader, made)
        elif word == "impl":
            self.impl(reader, module, doc)
        elif word == "mod":
            self.module(reader, made, module)
        elif word == "use":
            (self.file.public_uses if is_public else self.file.uses).append((module, reader.until(";")))
            reader.skip(";")
        elif word == "type":
            self.alias(reader, made)
        elif word in ("const", "static"):
            self.constant(reader, made)
        elif word == "macro_rules" or reader.peek() == "!":
            reader.until("{", "(", ";")
            reader.inside() if reader.peek() in ("{", "(") else None
            reader.skip(";")
        else:
            # `ghost ..;`, and what isn't looked at.
            reader.until(";")
            reader.skip(";")
        made.last_line = reader.words[reader.at - 1].line

    @staticmethod
    def leads_to_function(reader):
        """Whether words such as `const` stand before `fn`, and not before a constant."""
        ahead = 0
        while reader.peek(ahead) in ("unsafe", "async", "default", "const", "extern") or reader.kind(ahead) == "text":
            ahead += 1
        return reader.peek(ahead) == "fn" or (reader.peek(ahead) in ("impl", "trait") and reader.peek() == "unsafe")

    def keep(self, made):
        self.file.items.append(made)

    def function(self, reader, made, first):
        made.name = reader.next()
        made.generics = reader.generics()
        made.inputs = reader.inside()
        if reader.skip("->"):
            made.output = reader.until(*CLAUSES, "{", ";", "where")
        if reader.skip("where"):
            reader.until(*CLAUSES, "{", ";")
        last = reader.words[reader.at - 1].end
        made.signature = self.text[reader.words[first].start : last]
        while reader.peek() in CLAUSES:
            kind = reader.next()
            # `ensures*` says it of what is lent, when that has ended.
            reader.skip("*")
            name = reader.next() if reader.peek() != "{" else ""
            made.clauses.append(Clause(kind, name, self.between(reader.inside())))
        if reader.peek() == "{":
            made.body = reader.inside()
        else:
            reader.until(";")
            reader.skip(";")
        self.keep(made)

    def type(self, reader, made):
        first = reader.words[reader.at - 1].start
        made.name = reader.next()
        made.generics = reader.generics()
        if reader.peek() == "where":
            reader.until("{", ";")
        if reader.peek() == "(":
            self.tuple_fields(reader.inside(), made)
            reader.until(";")
        elif reader.peek() == "{":
            inner = reader.inside()
            self.variants(inner, made) if made.kind == "enum" else self.fields(inner, made)
        made.signature = self.text[first : reader.words[reader.at - 1].end]
        reader.skip(";")
        self.keep(made)

    def tuple_fields(self, reader, made):
        for place, part in enumerate(reader.parts()):
            doc, _ = self.heads(part)
            is_public = part.skip("pub")
            if is_public and part.peek() == "(":
                part.inside()
            made.members.append((str(place), part, doc, is_public))

    def fields(self, reader, made):
        for part in reader.parts():
            doc, _ = self.heads(part)
            is_public = part.skip("pub")
            if is_public and part.peek() == "(":
                part.inside()
                is_public = False
            if part.peek() == "ghost" or part.at >= part.end:
                continue
            name = part.next()
            part.skip(":")
            made.members.append((name, part, doc, is_public))

    def variants(self, reader, made):
        for part in reader.parts():
            doc, attributes = self.heads(part)
            if part.at >= part.end:
                continue
            variant = Item("variant", part.next(), self.file.name, part.words[part.at - 1].line, made.module, True, doc, attributes)
            if part.peek() == "(":
                self.tuple_fields(part.inside(), variant)
            elif part.peek() == "{":
                self.fields(part.inside(), variant)
            made.members.append((variant.name, variant, doc, True))

    def alias(self, reader, made):
        first = reader.words[reader.at - 1].start
        made.name = reader.next()
        made.generics = reader.generics()
        reader.until("=", ";")
        if reader.skip("="):
            made.output = reader.until(";")
        made.signature = self.text[first : reader.words[reader.at - 1].end]
        reader.skip(";")
        if made.owner is None:
            self.keep(made)
        elif made.output:
            made.owner.targets[made.name] = made.output

    def constant(self, reader, made):
        first = reader.words[reader.at - 1].start
        reader.skip("mut")
        made.name = reader.next()
        reader.skip(":")
        made.output = reader.until("=", ";")
        made.signature = self.text[first : reader.words[reader.at - 1].end]
        if reader.skip("="):
            made.body = reader.until(";")
        reader.skip(";")
        if made.owner is None:
            self.keep(made)

    def trait(self, reader, made):
        first = reader.words[reader.at - 1].start
        made.name = reader.next()
        made.generics = reader.generics()
        reader.until("{", ";")
        made.signature = self.text[first : reader.words[reader.at - 1].end]
        made.members = []
        self.keep(made)
        if reader.peek() == "{":
            owner = Owner(made.generics, made, None)
            self.items(reader.inside(), made.module, owner)

    def impl(self, reader, module, doc):
        generics = reader.generics()
        head = reader.until("{", "where")
        bounds = reader.until("{") if reader.skip("where") else None
        trait, type_ = None, head
        depth = 0
        for at in range(head.at, head.end):
            text = head.words[at].text
            depth += (text in "<([") - (text in ">)]") if len(text) == 1 else 0
            if text == "for" and depth == 0 and (at + 1 >= head.end or head.words[at + 1].text != "<"):
                trait, type_ = Reader(head.words, head.at, at), Reader(head.words, at + 1, head.end)
                break
        owner = Owner(generics, trait, type_, bounds, doc)
        self.file.impls.append((module, owner))
        self.items(reader.inside(), module, owner)

    def module(self, reader, made, module):
        made.name = reader.next()
        if reader.peek() == "{":
            self.items(reader.inside(), (*module, made.name), None)
        else:
            reader.skip(";")
            self.keep(made)


def parsed(name, module, text):
    """The items of a file; where it can't be read, an error says which file."""
    try:
        return Parser(name, module, text).parse()
    except Unread as error:
        raise Unread(f"{name}: {error}") from error
