# SPDX-License-Identifier: Apache-2.0 OR MIT
"""Docstrings: all that is public has one, and their examples are run."""
import doctest
import inspect
from pathlib import Path

import pytest

import iox2_pubsub as ps
from iox2_pubsub import _core, conversion, domain, errors, listener, nodes, publisher, settings, subscriber, values, waits

MODULES = [ps, conversion, domain, errors, listener, nodes, publisher, settings, subscriber, values, waits]
CLASSES = [_core.Domain, _core.Port, _core.Publisher, _core.Subscriber, _core.Listener, _core.DeadNodes, ps.Loan, ps.Notifier, ps.Sample, ps.Blocked]


def documented():
    """Names with what they are of."""
    for module in MODULES:
        yield module.__name__, module
    for name in ps.__all__:
        if not isinstance(getattr(ps, name), int):
            yield name, getattr(ps, name)
    for kind in [*CLASSES, ps.Domain, ps.Publisher, ps.Subscriber, ps.Listener, ps.DeadNodes]:
        for name, what in vars(kind).items():
            if not name.startswith("_"):
                yield f"{kind.__name__}.{name}", what
            elif name in ("__iter__", "__aiter__"):
                yield f"{kind.__name__}.{name}", what


DOCUMENTED = dict(documented())


@pytest.mark.parametrize("name", DOCUMENTED)
def test_what_is_public_is_documented_and_its_examples_are_true(name):
    doc = inspect.getdoc(DOCUMENTED[name])
    assert doc
    examples = doctest.DocTestParser().get_doctest(doc, {**vars(DOCUMENTED[name] if inspect.ismodule(DOCUMENTED[name]) else errors), "ps": ps}, name, None, None)
    runner = doctest.DocTestRunner(verbose=False)
    assert runner.run(examples).failed == 0


def test_each_call_has_an_example():
    calls = [name for name, what in DOCUMENTED.items() if "." in name and callable(what) and not name.startswith("iox2_pubsub")]
    without = [name for name in calls if ">>>" not in inspect.getdoc(DOCUMENTED[name])]
    assert len(calls) > 30 and without == []


def test_calls_say_their_arguments():
    assert str(inspect.signature(ps.Loan.send)) == "(self, /, timeout=None)"
    assert str(inspect.signature(ps.Publisher.loan)) == "(self, /, count=None, timeout=0)"
    assert str(inspect.signature(ps.Subscriber.receive)) == "(self, /, timeout=0)"


def test_the_version_is_the_header_s():
    text = (Path(__file__).parents[1] / "pyproject.toml").read_text()
    assert f'version = "{ps.__version__}"' in text
