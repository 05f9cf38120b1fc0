# SPDX-License-Identifier: Apache-2.0 OR MIT
"""What a function calls, directly and by others."""
from collections import defaultdict
from functools import cached_property

from .calls import Body
from .types import Parameter, Type, copy_of
from .words import Reader


class Graph:
    """Which functions of a world call which."""

    def __init__(self, world):
        self.world, self.called = world, {}

    def calls(self, item):
        """The calls in a function's body."""
        if id(item) not in self.called:
            found, _ = Body(self.world, item, self.world.scope_of(item)).calls() if item.body and item.kind == "fn" else ([], [])
            self.called[id(item)] = found
        return self.called[id(item)]

    def reach(self, item, is_within):
        """What a function calls, also by functions within, with how many calls lead there."""
        found, seen, left = {}, set(), [(item, {}, 0)]
        while left:
            one, given, steps = left.pop(0)
            for call in self.calls(one):
                other = self.of_type(call, given)
                passed = {name: given.get(type_.name, type_) if isinstance(type_, Parameter) else type_ for name, type_ in call.given}
                key = (id(other), tuple(sorted((name, str(id(getattr(type_, "name", None)))) for name, type_ in passed.items())))
                if key not in seen and other is not item:
                    seen.add(key)
                    found.setdefault(id(other), (other, steps + 1))
                    if is_within(other):
                        left.append((other, passed, steps + 1))
        return list(found.values())

    def of_type(self, call, given):
        """The function that is called: of a trait, that of the type which the caller's parameter stands for, if that is known."""
        type_ = given.get(call.parameter)
        if isinstance(type_, Type) and not isinstance(type_.name, str):
            own = self.world.methods.get((id(type_.name), call.item.name))
            return own[0].item if own else call.item
        return call.item

    @cached_property
    def implementations(self):
        """Of each function of a trait, those of the types that have it."""
        found = defaultdict(list)
        for methods in self.world.methods.values():
            for method in methods:
                if hasattr(method, "item") and isinstance(method.owner.trait, Reader):
                    trait = self.world.type(copy_of(method.owner.trait), method.scope, {})
                    if trait is not None and not isinstance(trait, Parameter) and not isinstance(trait.name, str):
                        for of_trait in self.world.methods.get((id(trait.name), method.item.name), ()):
                            found[id(of_trait.item)].append(method.item)
        return found
