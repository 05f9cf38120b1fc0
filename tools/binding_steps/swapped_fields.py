# SPDX-License-Identifier: Apache-2.0 OR MIT
"""An archive in which two fields of a struct change places at each call that reads or fills one, or two values of a field: as for a binding
that declares them the other way round. Which two, the program says when it runs."""
import re
from dataclasses import dataclass

from .steps import said

# A call of the header, as it is declared.
CALL = re.compile(r"^(?:IOX2PS_NODISCARD )?(?P<result>void|iox2ps_status_t) (?P<name>iox2ps_\w+)\((?P<parameters>[^)]*)\);", re.M)
PARAMETER = re.compile(r"(?P<is_read>const )?(?P<type>\w+) \*?(?P<name>\w+)$")


@dataclass(frozen=True)
class Swap:
    """Two fields of a struct of C, or two values of one, and the number by which a program asks for their exchange."""

    number: int
    struct: str
    exchanged: tuple[str, str]
    # The field whose values are exchanged, where these aren't fields.
    field: str = ""

    @property
    def case(self):
        """What is done to a struct."""
        one, other = self.exchanged
        if self.field:
            field = f"it->{self.field}"
            return f"  case {self.number}: {field} = {field} == {one} ? {other} : {field} == {other} ? {one} : {field}; break;\n"
        return f"  case {self.number}: {{ __typeof__(it->{one}) kept = it->{one}; it->{one} = it->{other}; it->{other} = kept; break; }}\n"


def exchange_function(struct, swaps):
    """Exchanges the fields of a struct that the program asks for."""
    cases = "".join(swap.case for swap in swaps if swap.struct == struct)
    return f"static void exchange_{struct}({struct} *it) {{\n  switch (chosen()) {{\n{cases}  }}\n}}\n"


def call_between(declared, structs):
    """The call with a copy of each struct that is read, and both before and behind it where one is filled."""
    parameters = [PARAMETER.search(" ".join(one.split())) for one in declared["parameters"].split(",")]
    before, behind, passed = [], [], []
    for one in parameters:
        given = one["name"]
        if one["type"] in structs and one["is_read"]:
            before.append(f"{one['type']} own_{given} = *{given}; exchange_{one['type']}(&own_{given});")
            given = f"&own_{given}"
        elif one["type"] in structs:
            before.append(f"exchange_{one['type']}({given});")
            behind.append(f"exchange_{one['type']}({given});")
        passed.append(given)
    result, name, own = declared["result"], declared["name"], declared["parameters"]
    keeps, returns = ("", "") if result == "void" else (f"{result} result = ", " return result;")
    call = f"{keeps}real_{name}({', '.join(passed)});"
    return f"{result} real_{name}({own});\n{result} {name}({own}) {{ {' '.join([*before, call, *behind])}{returns} }}\n"


def make_archive(work, swaps, variable):
    """Puts the calls between the archive of a copy of bindings/ and its programs. They read the number in this variable."""
    structs = sorted({swap.struct for swap in swaps})
    calls = [call for call in CALL.finditer((work / "include/iox2_pubsub.h").read_text()) if any(f"{struct} *" in call["parameters"] for struct in structs)]
    chosen = f'static int chosen(void) {{\n  const char *number = getenv("{variable}");\n  return number ? atoi(number) : 0;\n}}\n'
    text = "".join(['#include "iox2_pubsub.h"\n#include <stdlib.h>\n', chosen, *(exchange_function(struct, swaps) for struct in structs)])
    source, made, archive = work / "lib/swapped.c", work / "lib/swapped.o", work / "lib/libiox2_pubsub.a"
    source.write_text(text + "".join(call_between(call, structs) for call in calls))
    said("gcc", "-std=gnu11", "-O1", "-I", work / "include", "-c", source, "-o", made)
    said("objcopy", *(f"--redefine-sym={call['name']}=real_{call['name']}" for call in calls), archive)
    said("ar", "rs", archive, made)
