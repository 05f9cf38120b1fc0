# SPDX-License-Identifier: Apache-2.0 OR MIT
"""Which functions a body calls, by the types of its expressions as far as they are known."""
from .named import Calls
from .types import LIST, TUPLE, Type, copy_of
from .words import Unread

BINARY = set("+ - * / % & | ^ << >> == != < > <= >= && || .. ..= = += -= *= /= %= &= |= ^= <<=".split())
ENDS = {"", ")", "]", "}", ",", ";", "=>"}


class Body(Calls):
    """Goes through one function's body."""

    def calls(self):
        """The calls, and the names of methods whose type isn't known."""
        if self.item.body is None:
            return [], []
        for part in copy_of(self.item.inputs).parts():
            self.parameter(part)
        self.block(copy_of(self.item.body))
        return self.found, self.unknown

    def block(self, reader):
        """The type of a block's last expression."""
        self.names.append({})
        last = None
        while reader.at < reader.end:
            last = self.statement(reader)
        self.names.pop()
        return last

    def statement(self, reader):
        while reader.peek() == "#" or reader.kind() == "doc":
            if reader.next() == "#":
                reader.skip("!")
                reader.inside()
        text = reader.peek()
        if text == ";":
            reader.next()
            return None
        if text == "let":
            return self.let(reader)
        if text in ("ghost", "use", "const", "static", "type", "prove") and not (text == "prove" and reader.peek(1) not in ("!", "{")):
            if text == "prove":
                reader.next()
                reader.skip("!")
                reader.inside()
                reader.skip(";")
                return None
            reader.until(";")
            reader.skip(";")
            return None
        if text in ("fn", "struct", "enum", "impl", "trait", "mod") and reader.kind(1) == "name":
            reader.until("{", ";")
            reader.inside() if reader.peek() == "{" else reader.next()
            return None
        known = self.expression(reader)
        if reader.at < reader.end and reader.peek() == ";":
            reader.next()
            return None
        return known

    def let(self, reader):
        reader.next()
        pattern = reader.until(":", "=", ";")
        known = None
        if reader.skip(":"):
            known = self.type(reader.until("=", ";"))
        if reader.skip("="):
            value = self.expression(reader)
            known = known or value
            if reader.skip("else"):
                self.block(reader.inside())
        reader.skip(";")
        self.bind(pattern, known)
        return None

    def expression(self, reader, plain=False):
        """Goes through an expression and returns its type. A plain one has no literal of a struct outside of brackets."""
        if reader.peek() in ("..", "..="):
            reader.next()
            if reader.peek() in ENDS or (plain and reader.peek() == "{"):
                return None
        known = self.unary(reader, plain)
        while reader.at < reader.end:
            text = reader.peek()
            if text == "as":
                reader.next()
                known = self.cast(reader)
                continue
            if text not in BINARY:
                break
            reader.next()
            if text in ("<", ">") and reader.skip(text):
                reader.skip("=")
            if reader.peek() in ENDS or (plain and reader.peek() == "{"):
                break
            self.unary(reader, plain)
            known = None
        return known

    def cast(self, reader):
        while reader.peek() in ("*", "&", "const", "mut"):
            reader.next()
        known, path = None, []
        while reader.kind() == "name":
            path.append(reader.next())
            if not reader.skip("::"):
                break
        if reader.peek() == "<" and path and path[-1][:1].isupper():
            reader.generics()
        return known

    def unary(self, reader, plain):
        while reader.peek() in ("&", "&&", "*", "-", "!", "mut", "move", "raw") or (reader.peek() == "const" and reader.peek(1) in ("{",)):
            if reader.peek() == "move" or reader.kind() != "mark" and reader.peek() not in ("mut", "raw", "const"):
                reader.next()
                break
            reader.next()
        return self.postfix(self.primary(reader, plain), reader)

    def primary(self, reader, plain):
        text, kind = reader.peek(), reader.kind()
        if text == "(":
            parts = self.list(reader.inside())
            return parts[0] if len(parts) == 1 else Type(TUPLE, tuple(parts))
        if text == "[":
            return Type(LIST, tuple(self.list(reader.inside())[:1]) or (None,))
        if text == "{":
            return self.block(reader.inside())
        if text in ("|", "||"):
            return self.closure(reader)
        if kind == "life":
            reader.next()
            reader.skip(":")
            return self.primary(reader, plain) if reader.peek() in ("loop", "while", "for", "{") else None
        if kind in ("number", "text"):
            reader.next()
            return None
        words = {
            "if": self.if_,
            "match": self.match,
            "while": self.while_,
            "for": self.for_,
            "loop": self.loop,
            "unsafe": self.loop,
            "return": self.jump,
            "break": self.jump,
            "continue": self.jump,
            "move": self.moved,
            "const": self.loop,
        }
        if text in words:
            return words[text](reader)
        if kind == "name":
            return self.path(reader, plain)
        if text == "<":
            reader.generics()
            return self.path(reader, plain)
        raise Unread(f"{self.item.file}: {text!r} in line {reader.words[min(reader.at, len(reader.words) - 1)].line}")

    def list(self, reader):
        """The types of the expressions up to the end, which `,` or, in a macro and an array, `;` parts."""
        found = []
        while reader.at < reader.end:
            found.append(self.expression(reader))
            while reader.at < reader.end and not reader.skip(",", ";"):
                reader.next()
                if reader.at < reader.end and reader.peek() not in (",", ";"):
                    self.expression(reader)
        return found

    def moved(self, reader):
        reader.next()
        return self.primary(reader, False)

    def loop(self, reader):
        reader.next()
        return self.block(reader.inside())

    def jump(self, reader):
        reader.next()
        if reader.kind() == "life":
            reader.next()
        if reader.peek() not in ENDS:
            self.expression(reader)
        return None

    def condition(self, reader):
        """A condition, with its patterns."""
        while True:
            if reader.skip("let"):
                pattern = reader.until("=")
                reader.skip("=")
                self.bind(pattern, self.scrutinee(reader))
            else:
                self.expression(reader, plain=True)
            if not reader.skip("&&"):
                return

    def scrutinee(self, reader):
        """What is compared with a pattern: it ends before `&&`."""
        known = self.unary(reader, True)
        while reader.peek() in BINARY - {"&&"}:
            reader.next()
            self.unary(reader, True)
            known = None
        return known

    def if_(self, reader):
        reader.next()
        self.names.append({})
        self.condition(reader)
        known = self.block(reader.inside())
        self.names.pop()
        if reader.skip("else"):
            other = self.if_(reader) if reader.peek() == "if" else self.block(reader.inside())
            known = known or other
        return known

    def while_(self, reader):
        reader.next()
        self.names.append({})
        self.condition(reader)
        self.block(reader.inside())
        self.names.pop()
        return None

    def for_(self, reader):
        reader.next()
        pattern = reader.until("in")
        reader.skip("in")
        known = self.expression(reader, plain=True)
        each = known.args[0] if isinstance(known, Type) and known.args and known.name in (LIST, "Vec", "Option") else None
        self.names.append({})
        self.bind(pattern, each)
        self.block(reader.inside())
        self.names.pop()
        return None

    def match(self, reader):
        reader.next()
        known = self.expression(reader, plain=True)
        inner, result = reader.inside(), None
        while inner.at < inner.end:
            while inner.peek() == "#":
                inner.next()
                inner.inside()
            self.names.append({})
            pattern = inner.until("=>", "if")
            self.bind(pattern, known)
            if inner.peek() == "if":
                inner.next()
                self.condition(inner)
            inner.skip("=>")
            if inner.peek() == "{":
                of_arm = self.postfix(self.block(inner.inside()), inner) if inner.peek() != "," else None
            else:
                of_arm = self.expression(inner)
            inner.skip(",")
            self.names.pop()
            result = result or of_arm
        return result

    def closure(self, reader):
        self.names.append({})
        handed, self.handed = self.handed, None
        if reader.next() == "|":
            for part in reader.until("|").parts():
                pattern = part.until(":")
                self.bind(pattern, self.type(part) if part.skip(":") else handed)
                handed = None
            reader.skip("|")
        if reader.skip("->"):
            self.type(reader)
        while reader.peek() in ("requires", "ensures"):
            reader.until("{")
            reader.inside()
        self.expression(reader)
        self.names.pop()
        return None
