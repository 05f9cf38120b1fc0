# SPDX-License-Identifier: Apache-2.0 OR MIT
"""The names of calls in C, C++ and Rust: which functions of C call them, and who calls these."""
import re
from collections import defaultdict
from functools import cached_property

from .foreign import Headers, c_functions
from .graph import Graph
from .items import parsed
from .types import Parameter, World

# The crate whose functions C calls.
EXPORTS = "iox2_c"


def is_drop(method):
    return method.item.name == "drop" and method.owner.trait is not None


def is_users(method):
    """Whether users of the crate of Rust call a function, or have it called by a drop."""
    if not hasattr(method, "item") or isinstance(method.type, Parameter) or isinstance(method.type.name, str):
        return False
    return method.type.name.is_public and (method.item.is_public or is_drop(method))


def name_in_rust(method):
    of = method.type.name.name
    return f"drop of {of}" if is_drop(method) else f"{of}::{method.item.name}"


def functions_of_c(graph, item):
    """The functions of C that a function of Rust calls, also by others that no user calls."""
    reached = graph.reach(item, lambda other: not (other.is_public and other.owner))
    return [other.name for other, _ in reached if other.name.startswith("iox2ps_")]


class Languages:
    """A part of the model: what other languages call."""

    def note_exports(self):
        """Gives C's functions the calls that they make."""
        self.c_functions = c_functions(self.repository)
        self.c_calls = {}
        items = [item for file in self.world.crates[EXPORTS].files for item in file.items]
        exports = {item.name: item for item in items if "no_mangle" in " ".join(item.attributes)}
        for function in self.c_functions:
            function.item = exports.get(function.archived)
            reached = self.reach(function.item, lambda one: one.file.startswith(f"crates/{EXPORTS}/")) if function.item else []
            calls = [entry for other, _ in reached for entry in self.entries_of(other) if entry.is_call]
            self.c_calls[function.name] = list(dict.fromkeys(calls))
        self.note_cpp()
        self.note_rust()
        self.note_programs()

    def steps_of(self, function):
        """Of the calls that a function of C makes, those that are its step: with an original, of its name, or such as change the domain."""
        calls = self.c_calls[function]
        chosen = [entry for entry in calls if self.is_step(entry, function)]
        return chosen or [entry for entry in calls if entry.item.owner and not entry.name.startswith("Unique")]

    @staticmethod
    def is_step(entry, function):
        inputs = entry.item.inputs
        changes = ":&mutDomain" in "".join(word.text for word in inputs.words[inputs.at : inputs.end])
        last = entry.name.split("::")[-1]
        if function.endswith(f"_{last}"):
            return True
        # An id and a header are asked for on the way of many calls.
        return last not in ("id", "header") and (changes or entry.original not in ("", "own"))

    @cached_property
    def counterparts(self):
        """Of each call, the functions of C whose step it is."""
        found = defaultdict(list)
        for function in self.c_functions:
            for entry in self.steps_of(function.name):
                found[entry.name].append(function.name)
        for name, functions in found.items():
            functions.sort(key=lambda one: not one.endswith("_" + name.split("::")[-1]))
        return found

    def note_cpp(self):
        self.cpp = defaultdict(list)
        for method, reached in Headers(self.repository).public():
            name = "::".join(filter(None, (method.owner, method.name)))
            for function in reached:
                if name not in self.cpp[function]:
                    self.cpp[function].append(name)
        for function, names in self.cpp.items():
            self.sort_names(function, names)

    @staticmethod
    def sort_names(function, names):
        """Those first that are named as the function is, then those that drop, then the shortest."""
        last = function.removeprefix("iox2ps_").split("_", 1)[-1]
        names.sort(
            key=lambda name: (
                name.split("::")[-1] != last,
                "~" not in name and not name.startswith("drop"),
                "ing_" in name or "timed_" in name,
                name.count("_"),
            )
        )

    def note_rust(self):
        """The functions of the crate of Rust, by the functions of C that they call."""
        self.rust = defaultdict(list)
        world = World({("iox2_pubsub", "sys"): "iox2_pubsub_sys"})
        for name, folder in (("iox2_pubsub_sys", "bindings/rust-sys/src"), ("iox2_pubsub", "bindings/rust/src")):
            world.add(name, [parsed(file, module, self.repository.text(file)) for file, module in self.repository.modules(folder, ".rs")])
        world.link()
        graph = Graph(world)
        for method in [method for methods in world.methods.values() for method in methods if is_users(method)]:
            for function in functions_of_c(graph, method.item):
                if name_in_rust(method) not in self.rust[function]:
                    self.rust[function].append(name_in_rust(method))
        for function, names in self.rust.items():
            self.sort_names(function, names)

    def note_programs(self):
        """The programs of tests that call a function of C."""
        self.programs = defaultdict(list)
        for name in (*self.repository.below("bindings/c"), *self.repository.below("bindings/beside", ".c")):
            for function in dict.fromkeys(re.findall(r"\biox2ps_\w+(?=\()", self.repository.text(name))):
                self.programs[function].append(name.rsplit("/", 1)[1])
