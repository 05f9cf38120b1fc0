# SPDX-License-Identifier: Apache-2.0 OR MIT
"""What clang-tidy says of the headers and programs of C and C++, by bindings/.clang-tidy."""
from .places import BINDINGS, is_here
from .steps import said

# What each program does on purpose, and no header may: it uses what was moved from, copies a handle, lets a vector grow, compares bytes
# between the fields of a struct, or names a type by a macro.
BUT = {
    "c/bad_input.c": ("bugprone-suspicious-memory-comparison",),
    "c/calls.c": ("bugprone-macro-parentheses",),
    "c/random_channels.c": ("bugprone-macro-parentheses", "bugprone-branch-clone"),
    "cpp/tests.cpp": ("bugprone-use-after-move", "performance-unnecessary-copy-initialization"),
    "cpp/gone.cpp": ("bugprone-use-after-move",),
    "cpp/joined.cpp": ("bugprone-use-after-move",),
    "cpp/settings.cpp": ("performance-inefficient-vector-operation",),
    "cpp/threads.cpp": ("performance-inefficient-vector-operation",),
    "cpp/wait_sets.cpp": ("bugprone-use-after-move", "performance-inefficient-vector-operation"),
    "dds/tests/moved.cpp": ("bugprone-use-after-move",),
}
# What is said where a program is compiled.
DEFINES = {f"c/wrong_{what}.c": ("-DFAULT=1",) for what in ("answers", "pointers", "recordings")}


def programs():
    """The programs that need no other library."""
    return [*sorted(BINDINGS.glob("c/*.c")), *sorted(BINDINGS.glob("cpp/*.cpp")), BINDINGS / "dds/tests/moved.cpp"]


def tidy(program):
    """A program with the headers that it uses, without a warning."""
    standard = "c11" if program.suffix == ".c" else "c++17"
    name = str(program.relative_to(BINDINGS))
    but = ",".join(f"-{check}" for check in BUT.get(name, ()))
    includes = ("-I", BINDINGS / "include", "-I", BINDINGS / "dds/include")
    said("clang-tidy", "--quiet", f"--checks={but}", program, "--", f"-std={standard}", *DEFINES.get(name, ()), *includes)
    return "no warning"


def run_tidy(steps):
    """All of them."""
    if not is_here("clang-tidy"):
        steps.skip("headers and programs by clang-tidy", "clang-tidy")
        return
    for program in programs():
        steps.run(f"{program.relative_to(BINDINGS)}, clang-tidy", tidy, program)
