# SPDX-License-Identifier: Apache-2.0 OR MIT
"""The programs on the page about processes, a subscriber in C++ and a publisher in Rust: they are compiled as they stand there, and meet."""
import os
import re
import subprocess
from contextlib import ExitStack
from pathlib import Path

from .places import BINDINGS
from .programs import WARNINGS
from .steps import Failed, said

PAGE = BINDINGS / "PROCESSES.md"
# By which no other run has a domain.
NAME = f"test_page.{os.getpid()}."
# How many lines are read.
LINES = 3


def block_of(language):
    """What the page has in a language, by that name."""
    found = re.findall(rf"^```{re.escape(language)}\n(.*?)^```", PAGE.read_text(), re.M | re.S)
    if len(found) != 1 or '"My/Service"' not in found[0]:
        raise Failed(f"{PAGE} has {len(found)} programs in {language}")
    return found[0].replace("My/Service", NAME)


def compiled(crates, library):
    """Both programs."""
    source, subscriber = library.work / "page.cpp", library.work / "page_subscriber"
    source.write_text(block_of("c++"))
    said("g++", "-std=c++17", *WARNINGS, *library.includes(), source, library.packed, "-pthread", "-o", subscriber)
    (crates.work / "crates/rust/examples/page.rs").write_text(block_of("rust"))
    crates.cargo("build", "--example", "page", RUSTFLAGS="-D warnings", target="target_page")
    return subscriber, crates.work / "target_page/debug/examples/page"


def started(stack, *words):
    """A program that is ended with the stack, and what it prints line by line."""
    program = stack.enter_context(subprocess.Popen(words, stdout=subprocess.PIPE, text=True))
    stack.callback(program.terminate)
    return program.stdout


def meet(crates, library):
    """The subscriber prints what the publisher sends, from the first message on that finds it there."""
    subscriber, publisher = compiled(crates, library)
    with ExitStack() as stack:
        printed = started(stack, "timeout", "-s", "KILL", "3600", "stdbuf", "-oL", subscriber)
        started(stack, "timeout", "-s", "KILL", "3600", publisher)
        lines = [printed.readline().strip() for _ in range(LINES)]
    for file in Path("/dev/shm").glob(f"iox2ps.{NAME}*"):  # of two that were ended
        file.unlink()
    first = float(lines[0].split()[0]) if lines[0] else -1
    if first < 20 or lines != [f"{first + i:.1f} °C" for i in range(LINES)]:
        raise Failed(f"the subscriber prints {lines}")
    return ", ".join(lines)
