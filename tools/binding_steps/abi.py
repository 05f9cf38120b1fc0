# SPDX-License-Identifier: Apache-2.0 OR MIT
"""Compares the binary interface of two headers: that of the last release, and this one's."""
import re
import subprocess

from .places import HEADER, TOP, is_here
from .release import unpacked
from .steps import Failed, said

FUNCTION = re.compile(
    r"IOX2PS_NODISCARD\s+([\w\s*]+?)\b(iox2ps_\w+)\(([^;{]*?)\);|^((?:const )?\w+[\s*]+)(iox2ps_\w+)\(([^;{]*?)\);", re.M | re.S
)
# Of what `abidiff` returns: it found a change; it couldn't compare.
CHANGED, WRONG = 4, 3


def functions(header):
    """The functions that a header declares: what each returns, its name, its parameters."""
    text = re.sub(r"/\*.*?\*/", "", header.read_text(), flags=re.S)
    text = re.sub(r"^\s*#(?:\\\n|[^\n])*", "", text, flags=re.M)
    for match in FUNCTION.finditer(text):
        result, name, inputs = (match[1], match[2], match[3]) if match[2] else (match[4], match[5], match[6])
        yield result.strip(), name, inputs


def library(header, work, name):
    """A shared library that has the header's functions with empty bodies, with what a debugger wants to know of their types."""
    body = "".join(
        f"{result} {function}({inputs}) {{ {'return 0;' if result != 'void' else ''} }}\n" for result, function, inputs in functions(header)
    )
    # No function's type names an enum, since what C passes is a number.
    enums = "".join(f"enum {enum} of_{enum};\n" for enum in re.findall(r"typedef enum (\w+) \{", header.read_text()))
    source = work / f"{name}.c"
    source.write_text(f'#include "{header}"\n{enums}{body}')
    made = work / f"{name}.so"
    said("gcc", "-std=c11", "-g", "-fPIC", "-shared", "-Wno-unused-parameter", "-DIOX2PS_ABI", source, "-o", made)
    return made


def changes(before, after, work):
    """What changed in the interface between two headers, or nothing. A function or an enum more changes nothing for programs that are
    compiled already."""
    words = ["abidiff", "--no-show-locs", "--no-added-syms", library(before, work, "before"), library(after, work, "after")]
    ran = subprocess.run(words, capture_output=True, text=True)
    if ran.returncode & WRONG:
        raise Failed(f"abidiff can't compare them: {ran.stdout}{ran.stderr}")
    return ran.stdout.strip() if ran.returncode & CHANGED else ""


def version_in(header):
    text = header.read_text()
    return ".".join(re.search(rf"#define IOX2PS_VERSION_{part} (\d+)", text)[1] for part in ("MAJOR", "MINOR", "PATCH"))


def same_or_newer(last, header, work):
    """The interface is that of the last release, or the version is another, and not by its last number alone."""
    before = unpacked(last, work) / "include/iox2_pubsub.h"
    changed = changes(before, header, work)
    if changed and version_in(before).rsplit(".", 1)[0] == version_in(header).rsplit(".", 1)[0]:
        raise Failed(f"the interface isn't that of {last.name}: it needs a new minor version\n{changed}")
    return f"{'another' if changed else 'the same'} as {last.name}"


def compare(steps, last, work):
    """Compares with the last release, if there is one."""
    if last is None:
        print("there is no earlier release to compare the binary interface with")
    elif not is_here("abidiff"):
        steps.skip("the binary interface beside the last release's", "abidiff (Debian's abigail-tools)")
    else:
        steps.run("the binary interface", same_or_newer, last, TOP / HEADER, work)
