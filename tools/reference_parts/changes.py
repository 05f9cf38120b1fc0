# SPDX-License-Identifier: Apache-2.0 OR MIT
"""What the reference has to say, and that it follows the sources."""
import re
import tempfile
from pathlib import Path

from . import mutants, requirements, settings, table
from .model import Model
from .pages import Pages
from .repository import TOP, Repository

# The crate whose calls all have to be tested.
LIBRARY = "iox2_pubsub"
# What is taken out of a copy: what it is, the file, the text, and what the reference then doesn't say any more.
TAKEN = (
    ("a clause", "crates/iox2_pubsub/src/sample/release.rt", re.compile(r"^ *ensures gives_back \{.*\n", re.M), "gives_back"),
    (
        "an item",
        "crates/iox2_pubsub/src/domain.rt",
        re.compile(r"^ *pub fn book_count\(&self\) -> usize.*?^    \}\n", re.M | re.S),
        "Domain::book_count",
    ),
    (
        "a test",
        "crates/iox2_tests/src/tests/samples.rt",
        re.compile(r"^#\[test\]\nfn a_sample_is_released\(.*?^\}\n", re.M | re.S),
        "iox2_tests::samples::a_sample_is_released",
    ),
    (
        "a function of C",
        "bindings/include/iox2_pubsub.h",
        re.compile(r"^IOX2PS_NODISCARD iox2ps_status_t iox2ps_loan_payload\(.*?;\n", re.M | re.S),
        "iox2ps_loan_payload",
    ),
    (
        "a mutant",
        "crates/iox2_connections/must-fail/release-by-its-hint-looks-at-another-number.edit",
        re.compile(r".*", re.S),
        "release-by-its-hint-looks-at-another-number",
    ),
    (
        "the goal of a mutant",
        mutants.GOALS,
        re.compile(r"^.*/channel-0-is-asked-whether-it-is-closed\.edit .*\n", re.M),
        "returns-then-not-is_open-clause-puts",
    ),
)


def faults(model):
    """What is stale or lacks a test."""
    found = []
    for module in (table, requirements):
        if model.repository.text(module.PAGE) != module.page(model):
            found.append(f"{module.PAGE}:1: the page is stale: run tools/reference --table")
    found += [
        f"{requirements.SOURCE}:1: requirement {one.number}: {fault}" for one in requirements.requirements(model) for fault in one.faults
    ]
    for entry in model.all():
        if entry.crate == LIBRARY and entry.is_call and not entry.tests and not entry.callers:
            found.append(f"{entry.item.file}:{entry.item.line}: no test calls {entry.name}, nor a call that has tests")
    return found + [*mutants.faults(model.repository, model.mutants)] + settings.faults(model.repository)


# What the check has to find: the file, the text that is replaced and the one in its place, and a part of the fault.
FAULTS = (
    (table.PAGE, "`Sample::release`", "`Sample::return`", "the page is stale"),
    (requirements.PAGE, "`SampleMut::send`", "`SampleMut::sends`", "the page is stale"),
    (requirements.SOURCE, '"given_back"', '"given_away"', "no contract has the clause given_away"),
    ("crates/iox2_pubsub/src/sample.rt", "ensures header {", "ensures headers {", "the page is stale"),
    (mutants.GOALS, "/channel-is-missing.edit ", "/channel-goes-missing.edit ", "there is no edit"),
    (mutants.GOALS, "-is_open-clause-puts", "-is_open-clause-pulls", "has the clause pulls"),
    (
        "crates/iox2_slice_tests/src/tests/custom_payloads.rt",
        ".receive_custom_payload(",
        ".receive(",
        "no test calls slice::Subscriber::receive_custom_payload",
    ),
)


class Changed(Repository):
    """The files of the repository, of which one has another text."""

    def __init__(self, name, text):
        super().__init__(TOP)
        object.__setattr__(self, "changed", (name, text))

    def text(self, name):
        return self.changed[1] if name == self.changed[0] else super().text(name)


def written(repository):
    """Everything that the reference says, the pages and the table."""
    model = Model(repository)
    with tempfile.TemporaryDirectory(prefix="reference-") as folder:
        Pages(model, Path(folder)).write()
        return table.page(model) + requirements.page(model) + "".join(file.read_text() for file in sorted(Path(folder).glob("*.html")))


def faults_of(repository):
    """The same of a repository."""
    return faults(Model(repository))


def test():
    """Takes parts out, one at a time: the reference that said them doesn't any more, and the check finds what it has to."""
    passed = failed = 0
    whole = Repository()
    before = written(whole)
    for what, name, text, told in TAKEN:
        after = written(Changed(name, text.sub("", whole.text(name), count=1)))
        # Text of the same name may stand elsewhere: what was taken out is said less often.
        if after.count(told) < before.count(told):
            passed += 1
        else:
            failed += 1
            print(f"FAILED  the reference says {told} all the same where {what} is taken out of {name}")
    rows = [(faults_of, *row) for row in FAULTS] + [(settings.faults, *row) for row in settings.FAULTS]
    for find, name, old, new, told in rows:
        if any(told in fault for fault in find(Changed(name, whole.text(name).replace(old, new)))):
            passed += 1
        else:
            failed += 1
            print(f"FAILED  the check doesn't say {told!r} where {old} is {new} in {name}")
    print(f"{passed} passed, {failed} failed")
    return 1 if failed else 0
