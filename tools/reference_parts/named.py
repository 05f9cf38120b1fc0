# SPDX-License-Identifier: Apache-2.0 OR MIT
"""Paths, calls and what follows them by a dot."""
from .lookups import WRAPPERS, Call
from .patterns import Patterns
from .types import LIST, Method, Parameter, Scope, Type, copy_of
from .words import Unread


class Calls(Patterns):
    """Notes what is called or named."""

    def __init__(self, world, item, scope):
        super().__init__(world, item, scope)
        # Of what the first parameter is of the closure that comes next.
        self.handed = None

    def path(self, reader, plain):
        path, turbofish, of_type = [reader.next()], None, None
        while reader.peek() == "::":
            reader.next()
            if reader.peek() == "<":
                given = reader.generics()
                if reader.peek() == "::" and len(path) >= 1:
                    of_type = given
                else:
                    turbofish = given
            else:
                path.append(reader.next())
        path = tuple(path)
        if reader.peek() == "!" and reader.peek(1) in ("(", "[", "{"):
            reader.next()
            return self.macro(path, reader.inside())
        if reader.peek() == "(":
            return self.call(path, turbofish, of_type, reader.inside())
        if reader.peek() == "{" and not plain and path[-1][:1].isupper():
            return self.literal(path, reader.inside())
        if len(path) == 1:
            for names in reversed(self.names):
                if path[0] in names:
                    return names[path[0]]
        return self.value(path)

    def value(self, path):
        """The type of a constant, a unit struct or a variant; a function's name counts as a call."""
        found = self.lookup(path)
        if isinstance(found, Method):
            self.found.append(Call(found.item))
            return None
        if found is None or isinstance(found, Scope):
            return None
        if found.kind == "fn":
            self.found.append(Call(found))
            return None
        if found.kind == "variant":
            self.found.append(Call(found))
            return Type(self.world.enum_of(found), ())
        if found.kind in ("const", "static"):
            self.found.append(Call(found))
            return self.world.type(copy_of(found.output), self.world.scope_of(found))
        if found.kind == "struct":
            self.found.append(Call(found))
            return Type(found, ())
        return None

    def lookup(self, path):
        """What a path means: an item, or a function of a type."""
        if len(path) > 1:
            before = self.world.named(path[:-1], (), self.scope, self.own)
            if isinstance(before, (Type, Parameter)) and not isinstance(before, Parameter):
                methods = self.methods(before, path[-1])
                if methods:
                    return methods[0]
        return self.world.item(path, self.scope)

    def macro(self, path, inner):
        """The expressions in a macro's brackets; `;` and `,` part them."""
        if path[-1] in ("unreachable", "prove", "vec!"):
            return None
        mark = (len(self.found), len(self.unknown))
        try:
            self.list(inner)
        except Unread:
            del self.found[mark[0] :], self.unknown[mark[1] :]
        return None

    def call(self, path, turbofish, of_type, inner):
        args = self.list(inner)
        if path[-1] in ("Some", "Ok", "Err"):
            wrapper = "Option" if path[-1] == "Some" else "Result"
            return Type(wrapper, (None, *args[:1]) if path[-1] == "Err" else tuple(args[:1]))
        if len(path) > 1:
            before = self.world.named(path[:-1], self.args_of(of_type), self.scope, self.own)
            methods = self.methods(before, path[-1])
            if methods:
                return self.results(methods, before, turbofish)
        found = self.world.item(path, self.scope)
        if found is None or isinstance(found, Scope):
            return None
        if found.kind == "fn":
            return self.result(found, self.world.scope_of(found), {}, turbofish, args)
        self.found.append(Call(found))
        if found.kind == "variant":
            return Type(self.world.enum_of(found), ())
        return Type(found, ()) if found.kind == "struct" else None

    def literal(self, path, inner):
        found = self.lookup(path) if path != ("Self",) else None
        while inner.at < inner.end:
            while inner.peek() == "#":
                inner.next()
                inner.inside()
            if not inner.skip("..") and inner.peek(1) == ":":
                inner.next()
                inner.next()
            if inner.at < inner.end and inner.peek() != ",":
                self.expression(inner)
            inner.skip(",")
        if path == ("Self",):
            return self.own.get("Self")
        if found is None or isinstance(found, (Scope, Method)):
            return self.world.named(path, (), self.scope, self.own)
        self.found.append(Call(found))
        if found.kind == "variant":
            return Type(self.world.enum_of(found), ())
        return self.world.named(path, (), self.scope, self.own)

    def postfix(self, known, reader):
        while reader.at < reader.end:
            text = reader.peek()
            if text == "?":
                reader.next()
                known = known.args[0] if isinstance(known, Type) and known.name in WRAPPERS and known.args else None
            elif text == ".":
                reader.next()
                known = self.dotted(known, reader)
            elif text == "(":
                self.list(reader.inside())
                known = None
            elif text == "[":
                self.list(reader.inside())
                known = known.args[0] if isinstance(known, Type) and known.name in (LIST, "Vec") and known.args else None
            else:
                break
        return known

    def dotted(self, known, reader):
        if reader.kind() == "number":
            place = reader.next()
            for one in place.split("."):
                known = self.field(known, one)
            return known
        name, turbofish = reader.next(), None
        if reader.peek() == "::":
            reader.next()
            turbofish = reader.generics()
        if reader.peek() != "(":
            return self.field(known, name)
        self.handed = known.args[0] if isinstance(known, Type) and known.name in (*WRAPPERS, LIST, "Vec") and known.args else None
        args = self.list(reader.inside())
        self.handed = None
        methods = self.methods(known, name)
        if methods:
            return self.results(methods, known, turbofish, args)
        return self.of_std(known, name)
