# SPDX-License-Identifier: Apache-2.0 OR MIT
"""The public items of a crate, under the names by which users know them."""
import re
from dataclasses import dataclass, field

from .types import Parameter, Scope, Type, copy_of
from .words import Reader

ORIGINAL = re.compile(r"iceoryx2's (`[^`]+`)(?:,? (when it is dropped)| (of a slice))?")
OWN = re.compile(r"[Tt]his\s+library's\s+own")


@dataclass(eq=False)
class Entry:
    """A public item, under the name by which users know it."""

    name: str
    crate: str
    item: object
    parent: object = None
    entries: list = field(default_factory=list)
    tests: list = field(default_factory=list)
    mutants: list = field(default_factory=list)
    of_trait: object = None
    # Tested calls that make this one, where no test makes it itself.
    callers: list = field(default_factory=list)

    @property
    def is_call(self):
        return self.item.kind == "fn"

    @property
    def text(self):
        """The comment: its own, or that of the `impl` of a trait."""
        return self.item.doc or (self.item.owner.doc if self.item.owner else "")

    @property
    def original(self):
        """What the comment says of the original: its name, or that there is none; nothing if it doesn't say."""
        text = re.sub(r"\s+", " ", self.text)
        if match := ORIGINAL.search(text):
            return "drop of " + match[1] if match[2] else match[1]
        return "own" if OWN.search(text) else ""

    @property
    def clauses(self):
        """The clauses: its own, or those of the trait's function."""
        return self.item.clauses or (self.of_trait.clauses if self.of_trait else [])


@dataclass(eq=False)
class Test:
    """A test, and where it stands."""

    crate: str
    item: object

    @property
    def name(self):
        """A test's name with its crate and module, or a program's crate."""
        if self.item.name == "main":
            return self.crate
        module = [part for part in self.item.module if part != "tests"]
        return "::".join((self.crate, *module, self.item.name))


class PublicItems:
    """Finds the public items of the crates of a world."""

    def public(self, crate):
        found = []
        self.public_names(crate, self.world.crates[crate].scope(()), "", found)
        return found

    def public_names(self, crate, scope, prefix, found):
        """The names that a module has for others."""
        for file in self.world.crates[crate].files:
            for module, reader in file.public_uses:
                if module == scope.path:
                    self.names_of_use(crate, scope, prefix, found, (), copy_of(reader))
        for item in [
            item
            for file in self.world.crates[crate].files
            for item in file.items
            if item.module == scope.path and item.is_public and not item.owner
        ]:
            if item.kind == "mod":
                self.public_names(crate, self.world.crates[crate].scope((*scope.path, item.name)), f"{prefix}{item.name}::", found)
            else:
                found.append(self.entry(crate, f"{prefix}{item.name}", item))

    def names_of_use(self, crate, scope, prefix, found, before, reader):
        path = list(before)
        while reader.at < reader.end:
            text = reader.next()
            if text == "{":
                reader.at -= 1
                for part in reader.inside().parts():
                    self.names_of_use(crate, scope, prefix, found, tuple(path), part)
                return
            if text != "::":
                path.append(text)
        item = self.world.item(tuple(path), scope)
        if item is not None and not isinstance(item, Scope):
            found.append(self.entry(crate, f"{prefix}{path[-1]}", item))

    def entry(self, crate, name, item):
        """The entry of an item, with its functions."""
        entry = Entry(name, crate, item)
        for method in self.functions(item):
            entry.entries.append(Entry(f"{name}::{method.name}", crate, method, entry, of_trait=self.of_trait(method)))
        return entry

    def of_trait(self, item):
        """The trait's function that a function of an `impl` is."""
        if not item.owner or not isinstance(item.owner.trait, Reader):
            return None
        trait = self.world.type(copy_of(item.owner.trait), self.world.scope_of(item), {})
        if trait is None or isinstance(trait, Parameter) or isinstance(trait.name, str):
            return None
        return next((method.item for method in self.world.methods.get((id(trait.name), item.name), ())), None)

    def functions(self, item):
        """The public functions of a type, an alias or a trait, as they stand in the files."""
        if item.kind == "type":
            scope = self.world.scope_of(item)
            known = self.world.type(copy_of(item.output), scope, {}) if item.output else None
            wanted, of = known, known.name if known is not None else None
        else:
            wanted, of = None, item
        if of is None or isinstance(of, str):
            return []
        found = []
        for (key, _), methods in self.world.methods.items():
            if key != id(of):
                continue
            for method in methods:
                if not hasattr(method, "item") or not self.is_shown(method):
                    continue
                if self.is_of_kind(method, wanted) and method.item not in found:
                    found.append(method.item)
        return sorted(found, key=lambda one: (one.file, one.line))

    @staticmethod
    def is_shown(method):
        """Whether users see a function: it is public, or a trait's with a comment."""
        return method.item.is_public or (method.owner.trait is not None and bool(method.item.doc or method.owner.doc))

    def is_of_kind(self, method, wanted):
        """Of a type that has kinds: whether a function is of the kind alone (an alias's), or of the usual one and of all (the type's)."""
        kinds = [arg for arg in method.type.args if arg is not None and not isinstance(arg, Parameter)]
        if wanted is not None:
            of_alias = [arg for arg in wanted.args if arg is not None and not isinstance(arg, Parameter)]
            return bool(kinds) and any(kind.name is other.name for kind in kinds for other in of_alias)
        if not kinds or isinstance(method.type.name, str):
            return True
        defaults = self.world.defaults(method.type.name, self.world.scope_of(method.type.name))
        usual = {id(default.name) for default in defaults.values() if isinstance(default, Type)}
        return not usual or all(id(kind.name) in usual for kind in kinds)
