# SPDX-License-Identifier: Apache-2.0 OR MIT
"""Which functions a type has, which fields, and what they give: as far as declarations say it."""
from dataclasses import dataclass

from .types import LIST, TUPLE, Parameter, Type, copy_of, matched, parameters, substituted
from .words import Reader

# What these hold comes out by `?`, by a pattern or by a call.
WRAPPERS = {"Option", "Result"}
# Methods of Rust's own types: those that give what a wrapper holds, the same wrapper, or an element of a list.
OPENING = {"unwrap", "expect", "unwrap_or", "unwrap_or_else", "unwrap_or_default", "into_inner", "take", "replace"}
KEEPING = set(
    "as_ref as_mut ok as_deref as_deref_mut copied cloned or or_else filter ok_or ok_or_else clone map_err iter iter_mut into_iter by_ref rev"
    " as_slice borrow borrow_mut to_owned".split()
)
ELEMENTS = {"pop", "pop_front", "pop_back", "first", "last", "get", "get_mut", "next", "remove", "swap_remove", "front", "back"}


@dataclass(frozen=True)
class Call:
    """A call: the function, what its parameters stand for, and the parameter of the caller that is asked for a trait's function."""

    item: object
    given: tuple = ()
    parameter: str = ""


class Lookups:
    """What a function's body may refer to."""

    def __init__(self, world, item, scope):
        self.world, self.item, self.scope = world, item, scope
        self.found, self.unknown = [], []
        names = (*parameters(item.generics), *(parameters(item.owner.generics) if item.owner else ()))
        self.own = {name: Parameter(name) for name in names}
        if item.owner:
            self.own["Self"] = world.owner_type(item.owner, scope)
        self.bounds = {}
        for generics in (item.generics, item.owner.generics if item.owner else None):
            self.note_bounds(generics)

    def note_bounds(self, generics):
        """Which traits parameters have to have."""
        for part in copy_of(generics).parts() if generics else ():
            if part.kind() == "name":
                name = part.next()
                if part.skip(":"):
                    self.bounds[name] = [self.type(bound) for bound in part.parts("+")]

    def type(self, reader):
        return self.world.type(reader, self.scope, self.own)

    def args_of(self, reader):
        return self.world.arguments(reader, self.scope, self.own) if reader else ()

    def member(self, item, name, given):
        """The type of a field."""
        for member in item.members if item is not None else ():
            if member[0] == name and isinstance(member[1], Reader):
                of = self.world.enum_of(item) if item.kind == "variant" else item
                own = {one: Parameter(one) for one in parameters(of.generics)} if of is not None else {}
                known = self.world.type(copy_of(member[1]), self.world.scope_of(item), own)
                return substituted(known, given)
        return None

    def of_std(self, known, name):
        """What a method of Rust's own types gives, as far as names show it."""
        if isinstance(known, Type):
            if known.name in WRAPPERS and name in OPENING and known.args:
                return known.args[0]
            if known.name == "Box" and name in KEEPING and known.args:
                return known.args[0]
            if name in KEEPING:
                return Type("Option", known.args) if known.name == "Result" and name == "ok" else known
            if known.name in (LIST, "Vec", "Option", "Box", "HeapCircularBuffer") and name in ELEMENTS and known.args:
                return Type("Option", known.args[:1]) if known.name != "Option" else known
        if known is None or isinstance(known, Parameter):
            self.unknown.append(name)
        return None

    def field(self, known, name):
        """The type of a field, also of what a type leads to."""
        for _ in range(3):
            if not isinstance(known, Type):
                return None
            if known.name == TUPLE and name.isdigit():
                return known.args[int(name)] if int(name) < len(known.args) else None
            if known.name == "Box" and known.args:
                known = known.args[0]
                continue
            if isinstance(known.name, str):
                return None
            given = dict(zip(parameters(known.name.generics), known.args))
            found = self.member(known.name, name, given)
            if found is not None:
                return found
            leads = self.world.methods.get((id(known.name), "*"))
            known = leads[0] if leads else None
        return None

    def methods(self, known, name):
        """The functions of a type by a name: its own, or of what it leads to, or of a trait that its parameter has to have."""
        if isinstance(known, Parameter):
            return [method for bound in self.bounds.get(known.name, ()) for method in self.methods(bound, name)]
        for _ in range(4):
            if not isinstance(known, Type):
                return []
            if known.name in ("Box", "Rc", "Arc") and known.args:
                own = []
            else:
                key = known.name if isinstance(known.name, str) else id(known.name)
                own = [method for method in self.world.methods.get((key, name), ()) if matched(method.type, self.filled(known), {})]
            if own:
                return own
            if known.name in ("Box", "Rc", "Arc", "MutexGuard", "RefMut", "Ref") and known.args:
                known = known.args[0]
                continue
            leads = self.world.methods.get((id(known.name), "*")) if not isinstance(known.name, str) else None
            known = leads[0] if leads else None
        return []

    def filled(self, known):
        """A type with the defaults of the parameters that aren't given."""
        if isinstance(known.name, str) or not known.name.generics:
            return known
        names = parameters(known.name.generics)
        defaults = self.world.defaults(known.name, self.world.scope_of(known.name))
        rest = tuple(defaults.get(name) for name in names[len(known.args) :])
        return Type(known.name, (*known.args, *rest)) if any(rest) or known.args else known

    def results(self, methods, known, turbofish, args=()):
        """Notes the functions, and returns what the first gives."""
        parameter = known.name if isinstance(known, Parameter) else ""
        for other in methods[1:]:
            self.found.append(Call(other.item, (), parameter))
        method, given = methods[0], {}
        matched(method.type, self.filled(known) if isinstance(known, Type) else known, given)
        given["Self"] = known
        return self.result(method.item, method.scope, given, turbofish, args, parameter)

    def result(self, item, scope, given, turbofish, args, parameter=""):
        """Notes a call, and returns the type that the function gives back."""
        names = parameters(item.generics)
        own = {name: Parameter(name) for name in (*names, *(parameters(item.owner.generics) if item.owner else ()))}
        own["Self"] = given.get("Self")
        if turbofish is not None:
            given = given | dict(zip(names, self.args_of(turbofish)))
        elif names and args:
            self.guess(item, scope, own, args, given)
        self.found.append(
            Call(item, tuple((name, given[name]) for name in own if name != "Self" and given.get(name) is not None), parameter)
        )
        return substituted(self.world.type(copy_of(item.output), scope, own), given) if item.output else None

    def guess(self, item, scope, own, args, given):
        """What a function's parameters stand for, by its arguments."""
        inputs = [part for part in copy_of(item.inputs).parts()]
        inputs = [part for part in inputs if not any(part.words[at].text == "self" for at in range(part.at, part.end))]
        for part, known in zip(inputs, args):
            part.until(":")
            if part.skip(":"):
                matched(self.world.type(part, scope, own), known, given)
