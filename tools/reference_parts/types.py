# SPDX-License-Identifier: Apache-2.0 OR MIT
"""Which item a name means where it stands, and of which type an expression is, as far as declarations say it."""
from dataclasses import dataclass, field

from .words import Reader, Unread


@dataclass(frozen=True)
class Type:
    """A type: the item that it names, or one of Rust's own by its name, with its arguments."""

    name: object
    args: tuple = ()


@dataclass(frozen=True)
class Parameter:
    """A type's parameter."""

    name: str


TUPLE, LIST = "(", "["


@dataclass(eq=False)
class Method:
    """A function of a type or a trait."""

    item: object
    owner: object
    scope: object
    type: object


@dataclass(eq=False)
class Scope:
    """What the names of a module mean."""

    crate: object
    path: tuple
    items: dict = field(default_factory=dict)
    uses: dict = field(default_factory=dict)
    globs: list = field(default_factory=list)


class Crate:
    """A crate's modules, types and functions."""

    def __init__(self, name, files, world):
        self.name, self.files, self.world, self.scopes = name, files, world, {}
        for file in files:
            self.scope(file.module)
            for item in file.items:
                if item.owner is None:
                    self.scope(item.module).items.setdefault(item.name, item)
            for module, reader in (*file.uses, *file.public_uses):
                self.use(self.scope(module), (), Reader(reader.words, reader.at, reader.end))

    def scope(self, path):
        return self.scopes.setdefault(path, Scope(self, path))

    def use(self, scope, before, reader):
        """Notes the names of a `use`."""
        path = list(before)
        while reader.at < reader.end:
            text = reader.next()
            if text == "{":
                reader.at -= 1
                for part in reader.inside().parts():
                    self.use(scope, tuple(path), part)
                return
            if text == "*":
                scope.globs.append(tuple(path))
                return
            if text == "as":
                scope.uses[reader.next()] = tuple(path)
                return
            if text != "::":
                path.append(text)
        if path[-1] == "self":
            path.pop()
        if path:
            scope.uses.setdefault(path[-1], tuple(path))


class World:
    """All crates that know each other."""

    def __init__(self, external=()):
        self.crates, self.methods, self.traits = {}, {}, {}
        # The names by which crates know others that have another name here.
        self.external = dict(external)

    def add(self, name, files):
        self.crates[name] = Crate(name, files, self)

    def link(self):
        """Notes the functions of each type and trait. It comes when all crates are there."""
        for crate in self.crates.values():
            for file in crate.files:
                for item in file.items:
                    if item.kind == "fn" and item.owner:
                        self.note(item, crate.scope(item.module))
                for module, owner in file.impls:
                    self.note_deref(owner, crate.scope(module))

    def owner_type(self, owner, scope):
        """The type that an impl is of, and the trait."""
        if not hasattr(owner, "known"):
            owner.known = None
            if owner.type is None:
                owner.known = Type(owner.trait, ())
            else:
                owner.known = self.type(Reader(owner.type.words, owner.type.at, owner.type.end), scope, parameters(owner.generics))
        return owner.known

    def note(self, item, scope):
        known = self.owner_type(item.owner, scope)
        if known:
            name = known.name if not isinstance(known, Parameter) else known
            self.methods.setdefault((name if isinstance(name, (str, Parameter)) else id(name), item.name), []).append(
                Method(item, item.owner, scope, known)
            )

    def note_deref(self, owner, scope):
        if "Target" in owner.targets:
            known = self.owner_type(owner, scope)
            target = owner.targets["Target"]
            if known and not isinstance(known, Parameter):
                into = self.type(Reader(target.words, target.at, target.end), scope, parameters(owner.generics))
                self.methods.setdefault((id(known.name), "*"), []).append(into)

    def item(self, path, scope, seen=()):
        """What a path means in a scope: an item, a scope, or none."""
        if (path, id(scope)) in seen:
            return None
        seen = (*seen, (path, id(scope)))
        first, rest = path[0], path[1:]
        found = self.first(first, scope, seen, not rest)
        for place, name in enumerate(rest, 1):
            if isinstance(found, Scope):
                found = self.inside(found, name, seen, place == len(rest))
            elif found is not None and found.kind == "enum":
                found = next((member[1] for member in found.members if member[0] == name), None)
            else:
                return None
        return found

    def first(self, first, scope, seen, is_last):
        if first == "crate":
            return scope.crate.scope(())
        if first == "self":
            return scope
        if first == "super":
            return scope.crate.scope(scope.path[:-1])
        return self.inside(scope, first, seen, is_last) or self.root(self.external.get((scope.crate.name, first), first))

    def root(self, name):
        return self.crates[name].scope(()) if name in self.crates else None

    def inside(self, scope, name, seen, is_last):
        """What a name means in a module. A function may have a module's name, and is meant where the path ends."""
        if name in scope.items and scope.items[name].kind != "mod":
            return scope.items[name]
        module = scope.crate.scopes.get((*scope.path, name))
        if module and not is_last:
            return module
        if name in scope.uses and scope.uses[name] != (name,):
            found = self.item(scope.uses[name], scope, seen)
            if found:
                return found
        if module:
            return module
        if name in scope.uses:
            return self.root(name)
        for glob in scope.globs:
            of = self.item(glob, scope, seen)
            found = self.inside(of, name, seen, is_last) if isinstance(of, Scope) and of is not scope else None
            if found:
                return found
        return None

    def type(self, reader, scope, own=()):
        """The type that words say, or none."""
        while reader.peek() in ("&", "&&", "mut", "dyn", "impl", "*", "const", "?") or reader.kind() == "life" or reader.peek() == "for":
            if reader.next() == "for":
                reader.generics()
        if reader.peek() == "(":
            inner = reader.inside()
            parts = tuple(self.type(part, scope, own) for part in inner.parts())
            return parts[0] if len(parts) == 1 and inner.words[inner.end - 1].text != "," else Type(TUPLE, parts)
        if reader.peek() == "[":
            inner = reader.inside()
            return Type(LIST, (self.type(inner.until(";"), scope, own),))
        if reader.kind() != "name":
            return None
        path, args = [reader.next()], ()
        while True:
            if reader.peek() == "<":
                args = self.arguments(reader.generics(), scope, own)
            elif reader.peek() == "::":
                reader.next()
                if reader.peek() != "<":
                    path.append(reader.next())
            else:
                break
        return self.named(tuple(path), args, scope, own)

    def arguments(self, reader, scope, own):
        return tuple(self.type(part, scope, own) for part in reader.parts() if part.kind() != "life" and part.peek(1) != "=")

    def named(self, path, args, scope, own):
        """The type of a path with arguments. An alias is what it stands for."""
        if len(path) == 1 and path[0] in own:
            return own[path[0]] if isinstance(own, dict) else Parameter(path[0])
        if path[0] == "Self" and isinstance(own, dict) and "Self" in own:
            return own["Self"] if len(path) == 1 else None
        found = self.item(path, scope)
        if found is None or isinstance(found, Scope):
            return Type(path[-1], args) if found is None else None
        scope_of = self.scope_of(found)
        if found.kind == "type" and found.output:
            names = parameters(found.generics)
            given = dict(zip(names, args)) | {
                name: default for name, default in self.defaults(found, scope_of).items() if name not in dict(zip(names, args))
            }
            known = self.type(Reader(found.output.words, found.output.at, found.output.end), scope_of, parameters(found.generics))
            return substituted(known, given)
        return Type(found, args) if found.kind != "variant" else Type(self.enum_of(found), ())

    def scope_of(self, item):
        for crate in self.crates.values():
            if item.file.startswith(crate.files[0].name.rsplit("/src/", 1)[0] + "/"):
                return crate.scope(item.module)
        raise Unread(item.file)

    def enum_of(self, variant):
        scope = self.scope_of(variant)
        return next((item for item in scope.items.values() if any(member[1] is variant for member in item.members)), None)

    def defaults(self, item, scope):
        """The defaults of a type's parameters."""
        if not hasattr(item, "default_types"):
            item.default_types = {}
            for part in copy_of(item.generics).parts() if item.generics else ():
                name = part.next() if part.kind() == "name" else None
                part.until("=")
                if name and part.skip("="):
                    item.default_types[name] = self.type(part, scope)
        return item.default_types


def copy_of(reader):
    return Reader(reader.words, reader.at, reader.end)


def parameters(generics):
    """The names of parameters of types, without lifetimes."""
    if generics is None:
        return ()
    names = []
    for part in copy_of(generics).parts():
        if part.kind() == "name":
            name = part.next()
            names.append(part.next() if name == "const" else name)
    return tuple(names)


def substituted(type_, given):
    """A type with others in place of its parameters."""
    if isinstance(type_, Parameter):
        return given.get(type_.name, type_)
    if isinstance(type_, Type):
        return Type(type_.name, tuple(substituted(arg, given) for arg in type_.args))
    return type_


def matched(pattern, type_, given):
    """Whether a type may be what a pattern with parameters says; notes what these stand for."""
    if pattern is None or type_ is None or isinstance(type_, Parameter):
        return True
    if isinstance(pattern, Parameter):
        given.setdefault(pattern.name, type_)
        return True
    if pattern.name is not type_.name and pattern.name != type_.name:
        return False
    return all(matched(one, other, given) for one, other in zip(pattern.args, type_.args))
