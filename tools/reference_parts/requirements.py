# SPDX-License-Identifier: Apache-2.0 OR MIT
"""The requirements: which clauses keep each, and the tests and mutants of the calls that have them."""
import re
import tomllib
from dataclasses import dataclass, field

from .pages import anchor, code, escaped, inline
from .table import code as span

SOURCE = "docs/requirements.toml"
PAGE = "docs/REQUIREMENTS.md"
# How many names a cell of the page has. The HTML has all.
MOST_NAMES = 2
# How deep a field may lie: in a record that a clause names, or in one that such a record names.
MOST_RECORDS = 3
HEAD = """\
# Requirements, clauses, tests, mutants

`tools/reference --table` writes this page from `docs/requirements.toml`, the contracts, the tests and the mutants, and `tools/docs` refuses one that is stale or names a clause that isn't there. `tools/reference` lists all tests and mutants of each, in `out/reference/requirements.html`.

- A clause is one of the functions' contracts, or a field of the record that such a clause names. A law has one clause, without a name. All are proved.
- *Tests* counts the tests and programs that make one of these calls, and names the most direct ones.
- *Mutants* counts changed bodies of what the calls are made of. One kind the prover has to kill: at a clause of the contract of the function that was changed, which stands behind it (where the function has several, and the goal isn't written down in `tools/refusing_goals.txt`, all of them). The other kind a test has to kill.
"""


@dataclass
class Requirement:
    """A requirement, with what keeps it."""

    number: int
    says: str
    entries: list
    clauses: list
    tests: list = field(default_factory=list)
    mutants: list = field(default_factory=list)
    faults: list = field(default_factory=list)


def has_clause(model, entry, name, depth=MOST_RECORDS):
    """Whether a contract has a clause or a field of a clause by this name."""
    return any(clause.name == name or has_field(model, clause.text, name, depth, set()) for clause in entry.clauses)


def has_field(model, text, name, depth, seen):
    """Whether a record that a text names has a field by this name."""
    for word in set(re.findall(r"[A-Z]\w*", text)) - seen:
        seen.add(word)
        for definition in model.definitions.get(word, ()) if depth else ():
            if re.search(rf"\bpub {name} :", definition.text) or has_field(model, definition.text, name, depth - 1, seen):
                return True
    return False


def requirements(model):
    """All requirements, with their faults: a function or a clause that isn't there."""
    names = {entry.name: entry for entry in model.all()}
    for number, row in enumerate(tomllib.loads(model.repository.text(SOURCE))["requirement"], 1):
        found = Requirement(number, row["says"], [names[name] for name in row["functions"] if name in names], row["clauses"])
        found.faults += [f"there is no {name}" for name in row["functions"] if name not in names]
        found.faults += [
            f"no contract has the clause {name}"
            for name in row["clauses"]
            if not any(has_clause(model, entry, name) for entry in found.entries)
        ]
        gather(found)
        yield found


def gather(found):
    """The tests and mutants, in turns, so that each function has its first one among the first."""
    for kind, into in (("tests", found.tests), ("mutants", found.mutants)):
        lists = [getattr(entry, kind) for entry in found.entries]
        for place in range(max(map(len, lists), default=0)):
            for one in (each[place] for each in lists if place < len(each)):
                key = one.name if kind == "tests" else one.path
                if key not in [known.name if kind == "tests" else known.path for known in into]:
                    into.append(one)
    # Those first whose clause is known, above all where it is one of the requirement's.
    found.mutants.sort(key=lambda one: (not one.is_for_prover, len(one.refused_by) > 1, set(one.refused_by).isdisjoint(found.clauses)))


def some(names):
    shown = ", ".join(span(name) for name in names[:MOST_NAMES])
    return f"{len(names)}: {shown}" if len(names) > MOST_NAMES else shown


def by_clause(mutants):
    """The mutants that the prover refuses, by the function and its clauses that refuse them; those of one clause first."""
    found = {}
    for mutant in mutants:
        if mutant.is_for_prover:
            found.setdefault((mutant.where, tuple(mutant.refused_by)), []).append(mutant)
    return list(found.items())


def contract(where, clauses):
    """A function with the clauses of it that refuse a mutant; of a contract of one clause without a name, the function alone."""
    names = [clause if " " in clause else span(clause) for clause in clauses if clause]
    return f"{span(where)}: {', '.join(names)}" if names else span(where)


def mutants_cell(mutants):
    """How many there are of each kind, and some with the clause that refuses them."""
    refused, killed = by_clause(mutants), [one.name for one in mutants if not one.is_for_prover]
    shown = "; ".join(f"{span(ones[0].name)} by {contract(*key)}" for key, ones in refused[:MOST_NAMES])
    parts = []
    if refused:
        parts.append(f"{sum(len(ones) for _, ones in refused)} refused by {len({where for (where, _), _ in refused})} contracts: {shown}")
    if killed:
        parts.append(f"{len(killed)} killed by tests: {span(killed[0])}")
    return "; ".join(parts)


def mutants_table(mutants):
    """The same of all of them, as HTML."""
    rows = ""
    for (where, clauses), ones in by_clause(mutants):
        names = "<br>".join(code(one.path) + (f" at {code(one.goal)}" if one.goal else "") for one in ones)
        said = ", ".join(clause if " " in clause else code(clause) for clause in clauses if clause) or "its only clause"
        rows += f"<tr><td class=name>{code(where)}</td><td>{said}</td><td>{names}</td></tr>"
    refused = f"<table><tr><th>Contract of</th><th>Clause</th><th>Mutants that it refuses</th></tr>{rows}</table>" if rows else ""
    killed = "".join(f"<li>{code(one.path)}, in {code(one.where)}</li>" for one in mutants if not one.is_for_prover)
    return refused + (f"<p>Killed by tests:</p><ul>{killed}</ul>" if killed else "")


def page(model):
    """The page."""
    rows = [HEAD, "|#|Requirement|Kept by|Tests|Mutants, and the clause that refuses each|", "|---|---|---|---|---|"]
    for one in requirements(model):
        kept = ", ".join(span(entry.name) for entry in one.entries) + (f" ({', '.join(map(span, one.clauses))})" if one.clauses else "")
        rows.append(f"|{one.number}|{one.says}|{kept}|{some([test.name for test in one.tests])}|{mutants_cell(one.mutants)}|")
    return "\n".join(rows) + "\n"


def shortened(text, most=60):
    """The first words of a text, without code spans."""
    text = text.replace("`", "")
    return text if len(text) <= most else text[:most].rsplit(" ", 1)[0] + " …"


def html(model, link):
    """The same with everything, as HTML."""
    parts = ["<h1>Requirements</h1>"]
    for one in requirements(model):
        tests = "".join(f"<li>{code(test.name)}</li>" for test in one.tests)
        mutants = mutants_table(one.mutants)
        parts.append(
            f'<h2 id="{anchor(f"R{one.number}")}">R{one.number}</h2><p>{inline(one.says)}.</p><p>Kept by {", ".join(link(entry.name) for entry in one.entries)}'
            f'{"; clauses " + ", ".join(map(code, one.clauses)) if one.clauses else ""}.</p>'
            f"<details><summary>{len(one.tests)} tests and programs</summary><ul>{tests}</ul></details>"
            f"<details><summary>{len(one.mutants)} mutants, by the clause that refuses them</summary>{mutants}</details>"
        )
    links = "".join(f'<a class=to href="#R{one.number}">R{one.number}: {escaped(shortened(one.says))}</a>' for one in requirements(model))
    return "".join(parts), links
