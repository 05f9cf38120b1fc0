# SPDX-License-Identifier: Apache-2.0 OR MIT
"""What the names of patterns are: those of parameters, of `let`, of arms."""
from .lookups import WRAPPERS, Lookups
from .types import LIST, TUPLE, Scope, Type, parameters


class Patterns(Lookups):
    """Gives names the types of what they are bound to."""

    def __init__(self, world, item, scope):
        super().__init__(world, item, scope)
        self.names = [{}]

    def parameter(self, part):
        while part.peek() in ("&", "mut") or part.kind() == "life":
            part.next()
        if part.peek() == "self":
            self.names[-1]["self"] = self.own.get("Self")
            return
        pattern = part.until(":")
        known = self.type(part) if part.skip(":") else None
        self.bind(pattern, known)

    def bind(self, reader, known):
        """Gives the names of a pattern the types of the parts of what they are bound to."""
        while reader.peek() in ("&", "mut", "ref", "&&", "box", "|"):
            reader.next()
        if reader.at >= reader.end:
            return
        if reader.peek() in ("(", "["):
            self.bind_list(reader.inside(), known)
            return
        if reader.kind() != "name":
            return
        path = [reader.next()]
        while reader.peek() == "::":
            reader.next()
            if reader.peek() == "<":
                reader.generics()
            else:
                path.append(reader.next())
        if reader.peek() in ("(", "{"):
            self.bind_fields(tuple(path), reader.peek() == "(", reader.inside(), known)
        elif reader.peek() == "@":
            reader.next()
            self.names[-1][path[0]] = known
            self.bind(reader, known)
        elif len(path) == 1 and path[0][:1].islower() and path[0] not in ("_", "true", "false"):
            self.names[-1][path[0]] = known
        if reader.skip("|"):
            self.bind(reader, known)

    def bind_list(self, reader, known):
        parts = list(reader.parts())
        args = known.args if isinstance(known, Type) and known.name == TUPLE else ()
        each = known.args[0] if isinstance(known, Type) and known.name == LIST and known.args else None
        for place, part in enumerate(parts):
            self.bind(part, args[place] if place < len(args) else known if len(parts) == 1 and not args and each is None else each)

    def bind_fields(self, path, is_tuple, reader, known):
        if path[-1] in ("Some", "Ok", "Err") and is_tuple:
            is_second = path[-1] == "Err"
            args = known.args if isinstance(known, Type) and known.name in WRAPPERS else ()
            self.bind(reader, args[is_second] if len(args) > is_second else None)
            return
        members, given = self.members(path, known)
        for place, part in enumerate(reader.parts()):
            if part.peek() == "..":
                continue
            if is_tuple:
                self.bind(part, self.member(members, str(place), given))
                continue
            name = next(
                (
                    part.words[at].text
                    for at in range(part.at, part.end)
                    if part.words[at].kind == "name" and part.words[at].text not in ("ref", "mut")
                ),
                "",
            )
            of = self.member(members, name, given)
            head = part.until(":")
            self.bind(part, of) if part.skip(":") else self.bind(head, of)

    def members(self, path, known):
        """The fields of the struct or the variant that a pattern names, and what its parameters stand for."""
        found = self.world.item(path, self.scope)
        if found is None and path[0] == "Self" and isinstance(self.own.get("Self"), Type):
            found = self.own["Self"].name
            if len(path) == 2 and not isinstance(found, str):
                found = next((member[1] for member in found.members if member[0] == path[1]), None)
        if found is None or isinstance(found, (Scope, str)):
            return None, {}
        return found, self.given(found, known)

    def given(self, item, known):
        of = self.world.enum_of(item) if item.kind == "variant" else item
        if of is None or not isinstance(known, Type) or known.name is not of:
            return {}
        return dict(zip(parameters(of.generics), known.args))
