# SPDX-License-Identifier: Apache-2.0 OR MIT
"""What tools read on the pages by its words. `tools/docs` looks for all of it, so that a page that says it in other words fails there,
and not an hour later where a tool reads it."""
import re
from dataclasses import dataclass

from .places import TOP
from .steps import Failed

PRODUCT, BINDINGS, BOARDS, GATEWAY = "docs/FOR-YOUR-PRODUCT.md", "bindings/README.md", "bindings/AARCH64.md", "bindings/DDS.md"


@dataclass(frozen=True)
class PageText:
    """What a tool reads on a page: the first match of a pattern."""

    page: str
    what: str
    pattern: str

    def find(self):
        """The match."""
        found = re.search(self.pattern, (TOP / self.page).read_text(), re.M | re.S)
        if not found:
            raise Failed(f"{self.page} doesn't have {self.what}, which a tool reads there")
        return found


def commands(page, starting):
    """The lines of a page's block of commands that has one that begins so."""
    pattern = rf"(?:^    [^\n]*\n)*^    {re.escape(starting)}[^\n]*\n(?:^    [^\n]*\n)*"
    return PageText(page, f"the command {starting}", pattern)


def lines_of(block):
    """The commands of such a block, one a line, without what stands behind them."""
    return [line.split("  #")[0].strip() for line in block.find()[0].splitlines()]


def program(page, language):
    """The page's first whole program in a language, without its fences."""
    within = r"(?:(?!^```).)*"
    return PageText(page, f"a program in {language}", rf"^```{re.escape(language)}\n({within}\bmain\({within})^```$")


def words(page, text):
    """These words."""
    return PageText(page, repr(text), re.escape(text))


# What the archives need (tools/binding_steps/needs.py): all of them, and that for x86-64-v2 alone.
LIBRARY = PageText(
    PRODUCT,
    "which glibc the archives need, and what they call",
    r"Linux with glibc (\d+\.\d+) or newer\. Each archive calls ([^.]*)\. That for x86-64-v2 also calls ([^.]*)\.",
)
WITHOUT_MARKS = words(PRODUCT, "(CET)")

# Which release the pages speak of, and the first program (tools/binding_steps/first_program.py).
RELEASED = (
    PageText("README.md", "its status", r"^\*\*Status:\*\* pre-release \((\d+\.\d+\.\d+)\)"),
    PageText(PRODUCT, "which version there is", r"^\| Which version \| (\d+\.\d+\.\d+), "),
)
FIRST = commands("README.md", "tar xzf dist/")
# The same for a board, where `dist/` has a release for it.
UNPACK_FOR_BOARDS = commands(BOARDS, "tar xzf dist/")
FIRST_FOR_BOARDS = {
    "C": commands(BOARDS, "aarch64-linux-gnu-gcc"),
    "C++": commands(BOARDS, "aarch64-linux-gnu-g++"),
    "CMake": commands(BOARDS, "cmake -S cross"),
    "cargo": commands(BOARDS, "cd cross && cargo run"),
}

# The first programs (tools/binding_steps/packages.py).
FIRST_MESSAGE, WHOLE = "examples/first_message/first_message.{}", r"\A(.*)\Z"
PROGRAMS = {
    **{language: PageText(FIRST_MESSAGE.format(language), "a program", WHOLE) for language in ("c", "cpp")},
    "rust": program("README.md", "rust"),
}

# What a linker for another processor says of the archive, and of the shared library (tools/binding_steps/emulated.py).
OTHER_LINKER = (
    ("Relocations in generic ELF (EM: 183)", "error adding symbols: file in wrong format"),
    ("skipping incompatible", "cannot find -liox2_pubsub"),
)

# The program of bindings/DDS.md and the commands that build it (bindings/dds/tests/everything.py).
GATEWAY_PROGRAM = program(GATEWAY, "c++")
GATEWAY_COMMANDS = PageText(
    GATEWAY, "how the gateway and its program are built", r"((?:^    cmake [^\n]*\n)+)^    (g\+\+ [^\n]*first_dds[^\n]*) && \./first_dds$"
)

# Lines of Python that are run (tools/binding_steps/python_package.py).
PYTHON_LINES = PageText("bindings/python/README.md", "lines of Python", r"^```python\n.*?^```")

ALWAYS = (
    LIBRARY, WITHOUT_MARKS, *RELEASED, FIRST, *FIRST_FOR_BOARDS.values(), *PROGRAMS.values(), *(words(BOARDS, text) for text in sum(OTHER_LINKER, ())),
    GATEWAY_PROGRAM, GATEWAY_COMMANDS, PYTHON_LINES,
)


def all_texts():
    """What tools read, as `dist/` is now."""
    return (*ALWAYS, UNPACK_FOR_BOARDS) if list((TOP / "dist").glob("*-aarch64.tar.gz")) else ALWAYS


def functions_called(is_plain=False):
    """The functions that an archive calls, as the page has them in code spans: the one for x86-64-v2, or the one for each x86-64 processor."""
    of_all, of_v2 = (set(re.findall(r"`(\w+)`", names)) for names in LIBRARY.find().groups()[1:])
    if not of_all or not of_v2:
        raise Failed(f"{PRODUCT} has no function that the archive calls")
    return of_all if is_plain else of_all | of_v2


def first_commands():
    """The two commands of the first page."""
    lines = lines_of(FIRST)
    if len(lines) != 2:
        raise Failed(f"the first page has {len(lines)} commands, and a tool runs two")
    return lines
