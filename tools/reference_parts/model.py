# SPDX-License-Identifier: Apache-2.0 OR MIT
"""What the reference says: each public item with its clauses, its original, its tests, its names in other languages, its mutants."""
from collections import defaultdict
from functools import cached_property

from .definitions import definitions
from .entries import PublicItems, Test
from .graph import Graph
from .items import parsed
from .languages import EXPORTS, Languages
from .mutants import mutants
from .types import World

# The crates whose public items have a page, the first with those that it passes on.
SHOWN = ("iox2_pubsub", "iox2_runs", "iox2_recorded", "iox2_request_response")


class Model(PublicItems, Graph, Languages):
    """Everything."""

    def __init__(self, repository):
        self.repository, self.called = repository, {}
        self.world = World()
        for crate in repository.crates:
            sources = repository.modules(f"crates/{crate}/src", ".rt")
            self.world.add(crate, [parsed(name, module, repository.text(name)) for name, module in sources])
        self.world.link()
        self.entries = {crate: self.public(crate) for crate in SHOWN if crate in self.world.crates}
        self.by_item = {}
        for entry in self.all():
            self.by_item.setdefault(id(entry.item), entry)
        self.note_tests()
        self.note_exports()
        self.note_mutants()

    def all(self):
        """Each entry, also those within others."""
        for entries in self.entries.values():
            for entry in entries:
                yield entry
                yield from entry.entries

    def entries_of(self, item):
        """The entries that a call of an item is a call of."""
        for one in (item, *self.implementations.get(id(item), ())):
            if id(one) in self.by_item:
                yield self.by_item[id(one)]

    # ---- tests

    @cached_property
    def library(self):
        """The crates that the shown ones and C's are made of."""
        found, left = set(), [*SHOWN, EXPORTS]
        while left:
            name = left.pop()
            if name in self.repository.crates and name not in found:
                found.add(name)
                left.extend(self.repository.crates[name])
        return found

    def is_of_tests(self, item):
        """Whether a function belongs to a test or a program, and not to the library."""
        return item.file.split("/")[1] not in self.library and id(item) not in self.by_item

    def note_tests(self):
        """Gives each entry its tests, those first that call it most directly, and behind them the programs that the gate runs."""
        found = defaultdict(list)
        for name in sorted(self.world.crates.keys() - self.library):
            for item in (item for file in self.world.crates[name].files for item in file.items):
                is_program = item.name == "main" and item.file.endswith("/main.rt")
                if "test" in item.attributes or is_program:
                    for other, steps in self.reach(item, self.is_of_tests):
                        for entry in self.entries_of(other):
                            found[id(entry)].append((is_program, steps, len(self.calls(item)), Test(name, item), entry))
        for tests in found.values():
            tests.sort(key=lambda row: (*row[:3], row[3].name))
            entry = tests[0][4]
            for row in tests:
                if row[3].name not in [test.name for test in entry.tests]:
                    entry.tests.append(row[3])
        self.note_callers()

    def note_callers(self):
        """Gives a call that no test makes itself the tested calls that make it."""
        lacking = {id(entry): entry for entry in self.all() if entry.is_call and not entry.tests}
        for entry in [entry for entry in self.all() if entry.is_call and entry.tests] if lacking else ():
            for other, _ in self.reach(entry.item, lambda one: True):
                for called in self.entries_of(other):
                    if id(called) in lacking and entry not in called.callers:
                        called.callers.append(entry)

    # ---- mutants

    def function_at(self, file, line):
        """The function whose lines have this one."""
        return next((item for item in self.lines.get(file, ()) if item.line <= line <= item.last_line), None)

    @cached_property
    def lines(self):
        found = defaultdict(list)
        for crate in self.world.crates.values():
            for file in crate.files:
                for item in file.items:
                    if item.kind == "fn":
                        found[file.name].append(item)
        return found

    def note_mutants(self):
        """Gives each entry the mutants of the functions that its body leads to, in the library."""
        by_function = defaultdict(list)
        self.mutants = list(mutants(self.repository))
        for mutant in self.mutants:
            mutant.function = self.function_at(mutant.file, mutant.line)
            if mutant.function:
                by_function[id(mutant.function)].append(mutant)
        for entry in self.all():
            if entry.is_call:
                reached = [(entry.item, 0), *self.reach(entry.item, lambda one: True)]
                for item, _ in sorted(reached, key=lambda pair: pair[1]):
                    entry.mutants.extend(mutant for mutant in by_function.get(id(item), ()) if mutant not in entry.mutants)

    @cached_property
    def definitions(self):
        return definitions(self.repository, self.repository.crates)
