# SPDX-License-Identifier: Apache-2.0 OR MIT
"""Mutants, which the prover or a test has to kill, with the functions and clauses that they break."""
import re
from dataclasses import dataclass, field
from pathlib import PurePosixPath

# Folders of edits beside those of crates, and what has to see them.
FOLDERS = (
    "tools/bodies_that_proofs_refuse",
    "tools/bodies_that_give_up",
    "tools/calls_too_often",
    "tools/faults_in_recordings",
    "tools/faults_in_requests",
    "tools/faults_in_runs",
    "tools/faults_in_scripts",
    "tools/faults_in_the_model",
)
# The goals at which the prover refused edits, as `tools/wrong_bodies --goals` wrote them down: the edit's path, and the goal's name.
GOALS = "tools/refusing_goals.txt"
# What a goal is named after, and what it stands for. The first part names a clause of the contract, or is all of a contract of one.
OF_GOALS = (
    (re.compile(r"returns.*?-clause-(\w+)(-\w+)*$"), "{}"),
    (re.compile(r"returns()"), "{}"),
    (re.compile(r"(?:.*?-)?(\w+)-requires.*?-clause-(\w+)"), "what {} requires: {}"),
    (re.compile(r"(?:.*?-)?(\w+)-requires"), "what {} requires"),
    (re.compile(r"invariant_of()"), "the invariant of its type{}"),
    (re.compile(r"loop()"), "the invariant of a loop{}"),
)


@dataclass
class Mutant:
    """An edit: its name, its file, and the function or the clause whose text it replaces."""

    name: str
    path: str
    file: str
    line: int
    # Whether the prover has to refuse it; else tests have to kill it.
    is_for_prover: bool
    # The goal at which the prover refused it, where that is written down.
    goal: str = ""
    # The function that it changes, where the text is in one.
    function: object = field(default=None, compare=False)

    @property
    def promises(self):
        """The names of what the function promises; of a contract of one clause, that may be empty."""
        return list(dict.fromkeys(clause.name for clause in self.function.clauses if clause.kind == "ensures")) if self.function else []

    @property
    def refused_by(self):
        """The clauses that refuse it: the one that the goal names, or else all that the function has."""
        if self.goal:
            return [said_by(self.goal)]
        return self.promises

    @property
    def where(self):
        """The function, by its type or its module."""
        if not self.function:
            return PurePosixPath(self.file).name
        before = self.function.module[-1:]
        if self.function.owner and hasattr(self.function.owner.type, "words"):
            reader = self.function.owner.type
            names = [word.text for word in reader.words[reader.at : reader.end] if re.fullmatch(r"[A-Z]\w+", word.text)]
            before = names[:1] or before
        return "::".join((*before, self.function.name))


def said_by(goal):
    """What a goal stands for; itself, where none of the forms is its."""
    for form, words in OF_GOALS:
        if found := form.match(goal):
            return words.format(*found.groups())
    return goal


def goals(repository):
    """The goals that are written down, by the path of the edit."""
    return dict(line.split() for line in repository.text(GOALS).splitlines() if not line.startswith("#"))


def read(repository, path, folder, goal):
    """The mutant that an edit file says, for each text that it replaces."""
    text = repository.text(path)
    file = None
    for word, value in re.findall(r"^(file|old): ?(.*)$", text, re.M):
        if word == "file":
            file = f"{folder}{value}"
        elif file in repository.names and (at := repository.text(file).find(value)) >= 0:
            line = repository.text(file).count("\n", 0, at) + 1
            is_for_prover = "/must-fail/" in path or bool(re.search("^proof:", text, re.M))
            yield Mutant(PurePosixPath(path).stem, path, file, line, is_for_prover, goal)


def mutants(repository):
    """All of them."""
    told = goals(repository)
    for crate in repository.crates:
        for path in repository.below(f"crates/{crate}/must-fail", ".edit"):
            yield from read(repository, path, f"crates/{crate}/", told.get(path, ""))
    for folder in FOLDERS:
        for path in repository.below(folder, ".edit"):
            yield from read(repository, path, "", told.get(path, ""))


def faults(repository, found):
    """Goals of edits that aren't there, and of clauses that their functions don't have."""
    paths = {}
    for mutant in found:
        paths.setdefault(mutant.path, []).append(mutant)
    for path, goal in goals(repository).items():
        clause = re.match(r"returns.*?-clause-(\w+)", goal)
        if path not in paths:
            yield f"{GOALS}:1: there is no edit {path}: run tools/wrong_bodies --goals"
        elif clause and not any(clause[1] in one.promises for one in paths[path]):
            yield f"{GOALS}:1: no function that {path} changes has the clause {clause[1]}: run tools/wrong_bodies --goals {path}"
