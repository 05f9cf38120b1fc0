# SPDX-License-Identifier: Apache-2.0 OR MIT
"""C++ over domains that processes share: between processes, types that are refused, and the tests of ordinary domains over shared ones."""
import re
import subprocess

from .places import BINDINGS, is_here
from .programs import BUT_REACHABLE, GRIND, PAIRS, SANITIZERS, WARNINGS
from .steps import Failed, said

COMPILERS = tuple(cpp for _, cpp in PAIRS)
TESTS = BINDINGS / "processes/tests"
FOR_SO_LONG = ("timeout", "-s", "KILL", "3600")
BETWEEN = ("processes", "one_thread", "nodes", "listeners", "refused")
# It counts instructions.
COSTS = "costs"
# Calls that make a domain, in a test that knows nothing of several processes.
CREATES = re.compile(r"((?:iox2ps::)?(?:Shared)?Domain(?:<[^()=;]*?>)?)::create\(")
# The tests of which a merge runs the first, and what is otherwise over shared domains: what stands there, and what stands in its place.
SHORT = ("tests", "threads")
WHOLE = (*SHORT, "wait_sets", "settings", "at_exit", "large", "gone", "one_thread", "forked", "allocations")
OTHERWISE = {
    # Where a recording is asked for, or memory grows beyond what the creator has set aside.
    "settings": (
        ("  auto domain = made(config);\n  auto subscriber = domain.subscriber().expect(\"a subscriber\");\n  CHECK(domain.publisher()->send_copy(0x0201)",
         "  auto domain = Domain<std::uint16_t>::create(config).expect(\"a domain\");\n"
         "  auto subscriber = domain.subscriber().expect(\"a subscriber\");\n  CHECK(domain.publisher()->send_copy(0x0201)"),
        ("  auto domain = made(Config<Byte[]>(7, 1));\n", "  auto domain = Domain<Byte[]>::create(Config<Byte[]>(7, 1)).expect(\"a domain\");\n"),
    ),
    # What its parent has received.
    "forked": (("  CHECK(**its.sample == 1);\n", ""),),
}
FLAGS_OF = {"one_thread": ("-DIOX2PS_CHECK_THREADS=",)}

TYPES = """#include "iox2_pubsub_processes.hpp"
#include <functional>
#include <string>
{}
"""
CALLS = "\nvoid call() {{ (void)iox2ps::Domain<int>::create(iox2ps::Config<int>(7))->{}; }}"
OPENS = "\nvoid open() {{ (void)iox2ps::Domain<{0}>::open_or_create(\"a\", iox2ps::Config<{0}>(7)); }}"
OF_FIELDS = "template <> struct iox2ps::ZeroCopySend<T> : iox2ps::Fields<{}> {{}};"
PROMISED = "template <> struct iox2ps::ZeroCopySend<T> : std::true_type {};"
# What is refused when it is compiled, and in which words; the first isn't.
REFUSED = (
    ("struct T { int a; double b[2]; };" + OF_FIELDS.format("&T::a, &T::b") + OPENS.format("T"), None),
    (OPENS.format("int *"), "processes share no pointers"),
    ("template <typename T> using Pointer = T *;" + OPENS.format("Pointer<void()>[]"), "processes share no pointers"),
    ("struct T { int *at; };" + OF_FIELDS.format("&T::at") + OPENS.format("T"), "a field is no plain bytes"),
    ("struct T { int &of; };" + PROMISED + OPENS.format("T"), "without a reference"),
    ("struct T { int a, b; };" + OF_FIELDS.format("&T::a") + OPENS.format("T"), "these aren't all fields"),
    ("struct T { ~T(); int a; };" + PROMISED + OPENS.format("T"), "has to be destroyed|have to be destroyed|is ever destroyed"),
    ("struct T { int a; };" + OPENS.format("T"), "plain bytes without pointers"),
    (OPENS.format("std::reference_wrapper<int>"), "plain bytes without pointers"),
    (OPENS.format("std::string"), "is ever destroyed"),
    (CALLS.format("subscriber()->set_listener([] {})"), "SharedDomain"),
    (CALLS.format("set_dead_node_listener([](const iox2ps::NodeView &) {})"), "SharedDomain"),
    ("void wait(const iox2ps::SharedDomain<int> &domain) { (void)domain.wait(iox2ps::WaitFor::Message); }", "threads that share a domain wait"),
)
WITHOUT_HEADER = (OPENS.format("int"), *(CALLS.format(call) for call in ("nodes()", "dead_nodes()", "cleanup_dead_nodes()", "timed_wait({}, {})", "subscriber()->blocking_receive()", "notifier()", "listener()")))


def compiled(library, compiler, source, program, *flags):
    """A program of C++ over the library."""
    includes = (*library.includes(), "-I", BINDINGS / "cpp", "-I", TESTS)
    said(compiler, *WARNINGS, *flags, *includes, source, library.packed, "-pthread", "-o", program)
    return program


def run_between(library, compiler, name, *flags):
    """A test between processes."""
    return said(*FOR_SO_LONG, compiled(library, compiler, TESTS / f"{name}.cpp", library.work / f"{name}_cpp", *flags))


def over_shared(library, compiler, name, *flags):
    """A test of ordinary domains, as a program whose domains are shared."""
    text = (BINDINGS / f"cpp/{name}.cpp").read_text()
    text, creates = CREATES.subn(r"create_shared<\1>(", text)
    for old, new in OTHERWISE.get(name, ()):
        if old not in text:
            raise Failed(f"cpp/{name}.cpp has no {old}")
        text = text.replace(old, new)
    if creates == 0:
        raise Failed(f"cpp/{name}.cpp makes no domain")
    source = library.work / f"{name}.cpp"
    source.write_text(text)
    before = ("-include", TESTS / "shared_instead.hpp")
    return compiled(library, compiler, source, library.work / f"shared_{name}", *FLAGS_OF.get(name, ()), *flags, *before)


def run_over_shared(library, compiler, name, *flags):
    return said(*FOR_SO_LONG, over_shared(library, compiler, name, *flags))


def refuses(library, compiler):
    """Types that processes can't share, and calls without the header."""
    without = (('#include "iox2_pubsub.hpp"' + code, 'include "iox2_pubsub_processes.hpp"') for code in WITHOUT_HEADER)
    for text, words in (*((TYPES.format(code), words) for code, words in REFUSED), *without):
        ran = subprocess.run([compiler, "-x", "c++", "-std=c++17", "-fsyntax-only", *map(str, library.includes()), "-"],
                             input=text, capture_output=True, text=True)
        if (ran.returncode == 0) != (words is None) or not re.search(words or "", ran.stderr):
            raise Failed(f"{compiler} of\n{text}\nsays {ran.stderr[-3000:]}")
    return f"{len(REFUSED) + len(WITHOUT_HEADER)} programs"


def run_cpp(steps, library, whole):
    """What a merge runs, or all."""
    compilers = [compiler for compiler in COMPILERS if is_here(compiler)]
    for compiler in compilers if whole else compilers[:1]:
        for name in BETWEEN:
            steps.run(f"tests/{name}.cpp, {compiler}", run_between, library, compiler, name, "-std=c++17", "-O1")
        steps.run(f"instructions of a message, {compiler}", run_between, library, compiler, COSTS, "-std=c++17", "-O2")
        steps.run(f"types that are refused, {compiler}", refuses, library, compiler)
        for name in WHOLE if whole else SHORT:
            steps.run(f"bindings/cpp/{name}.cpp, {compiler}", run_over_shared, library, compiler, name, "-std=c++17", "-O1" if whole else "-O0")
    if whole:
        for compiler in compilers:
            run_checked(steps, library, compiler)


def run_checked(steps, library, compiler):
    """Under the sanitizers, as C++20, and under valgrind."""
    for name in BETWEEN:
        steps.run(f"tests/{name}.cpp, {compiler} c++20, sanitizers", run_between, library, compiler, name, "-std=c++20", "-O1", *SANITIZERS)
    for name in WHOLE:
        if name != "allocations":  # which counts those of the program
            steps.run(f"bindings/cpp/{name}.cpp, {compiler} c++20, sanitizers", run_over_shared, library, compiler, name, "-std=c++20", "-O1", *SANITIZERS)
    if compiler != COMPILERS[0] or not is_here("valgrind"):
        return
    for name in ("tests", "threads"):
        steps.run(f"bindings/cpp/{name}.cpp, valgrind", lambda name=name: said(*GRIND, *BUT_REACHABLE, over_shared(library, compiler, name, "-std=c++17", "-O1", "-g")))
