# SPDX-License-Identifier: Apache-2.0 OR MIT
"""The table of calls, as a page: docs/CALLS.md."""
import re

PAGE = "docs/CALLS.md"
MOST_NAMES = 3
HEAD = """\
# Calls

Each public call and function of C. `tools/reference --table` writes this page from the sources, and `tools/docs` refuses one that is stale; so edit the comments and contracts, and not this page. `tools/reference` makes the long form, as HTML in `out/reference`: each item with its text, the clauses of its contract and the definitions that they name, all its tests, and the mutants of what it calls. [CLAUSES.md](CLAUSES.md) says how to read a clause, and [DIFFERENCES.md](DIFFERENCES.md) why a call differs from its original.

- *own*: iceoryx2 0.9.3 has no such call; *same*: it has one with the same name; *drop*: there it is what a drop does. An empty cell: the comment doesn't say.
- *one*: a contract of a single clause without a name; *none*: a call that promises nothing.
- The test is the one that makes the call most directly; *by* names a call that makes it, where no test does so itself.
"""


def code(name):
    return f"`{name}`"


def listed(names, most=MOST_NAMES):
    """Some names, and how many more there are."""
    shown = ", ".join(code(name) for name in names[:most])
    return f"{shown} and {len(names) - most} more" if len(names) > most else shown


def original(entry):
    text = entry.original
    if not text or text == "own":
        return f"*{text}*" if text else ""
    if text.startswith("drop of "):
        return "*drop*"
    return "*same*" if text.strip("`") == entry.name.removeprefix("slice::") else text


def clauses(entry):
    """The names of what a call promises."""
    names = list(dict.fromkeys(clause.name for clause in entry.clauses if clause.kind == "ensures"))
    if not names:
        return "*none*"
    return "*one*" if names == [""] else ", ".join(code(name) for name in names if name)


def test(entry):
    if entry.tests:
        return code(entry.tests[0].name)
    return f"by {code(entry.callers[0].name)}" if entry.callers else ""


def row(*cells):
    return f"|{'|'.join(cells)}|"


def calls(model, crate):
    """The rows of a crate's calls."""
    yield row("Call", "iceoryx2", "Clauses", "C", "Test")
    yield row(*["---"] * 5)
    for entry in model.all():
        if entry.crate == crate and entry.is_call:
            yield row(code(entry.name), original(entry), clauses(entry), listed(model.counterparts[entry.name]), test(entry))


def functions(model):
    """The rows of C's functions."""
    yield row("C", "The library's calls", "C++", "Rust")
    yield row(*["---"] * 4)
    for function in model.c_functions:
        made = [entry.name for entry in model.steps_of(function.name)]
        yield row(code(function.name), listed(made, len(made)), listed(model.cpp[function.name]), listed(model.rust[function.name]))


def page(model):
    """The whole page."""
    parts = [HEAD]
    for crate in model.entries:
        parts.append(f"## `{crate}`\n\n" + "\n".join(calls(model, crate)) + "\n")
    parts.append(
        "## Functions of C\n\nThe library's calls are those that a function makes, without those that only turn numbers into handles. "
        "Of C++ and Rust the table has those that are named alike first.\n\n" + "\n".join(functions(model)) + "\n"
    )
    return re.sub(r"\n{3,}", "\n\n", "\n".join(parts))
