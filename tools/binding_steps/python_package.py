# SPDX-License-Identifier: Apache-2.0 OR MIT
"""The package for Python: its wheel, built twice and installed into an empty environment, its tests, types and page."""
import os
import re
import shutil
import subprocess

from . import python_build, python_costs, python_faults
from .places import BINDINGS, OUT, is_here
from .programs import ARCHIVE, SANITIZERS
from .python_wheels import (
    IGNORED, NO_DATE, SOURCE, TESTED_BY, answers, build_wheel, built_twice, by_later_pythons, by_nothing_else, environment, include, interpreter, lacking,
    later_pythons, same_bytes
)
from .steps import Failed, said
from .targets import X86_64

# Random calls: their seeds, and how many of each.
SEEDS, CALLS = range(1, 5), 20_000
# The page's line that builds a wheel here.
BUILDS = re.compile(r"^    (pip wheel .* -w (\w+) \.)$", re.M)


def built_by_the_page(work):
    """A wheel that the page's line builds in a release's folder, where nothing names one."""
    line, made = BUILDS.search((SOURCE / "README.md").read_text()).groups()
    for name in ("include", "lib", "python"):
        shutil.copytree(OUT / name, work / name, ignore=IGNORED)
    places = {name: value for name, value in os.environ.items() if name != "IOX2_PUBSUB_DIR"}
    said(interpreter(), "-m", *line.split(), cwd=work / "python", env={**places, "SOURCE_DATE_EPOCH": NO_DATE})
    return next((work / "python" / made).glob("*.whl"))


def same_wheel_twice(work):
    """A clone and a release give the same bytes, wherever they are built."""
    said_of = built_twice(work, X86_64)
    same_bytes(next(work.glob("*.whl")), built_by_the_page(work / "release"))
    return said_of


def cameras(work):
    """The libraries of other languages that Python loads: in C++, and in Rust where cargo is here."""
    made = [work / "libcamera_cpp.so"]
    words = ("g++", "-std=c++17", "-O1", "-g", "-fPIC", "-shared", "-I", include(), "-I", OUT / "include", SOURCE / "tests/languages/camera.cpp")
    said(*words, ARCHIVE, "-pthread", "-Wl,--exclude-libs,ALL", "-o", made[0])
    if is_here("cargo"):
        crate, target = work / "languages", work / "target_languages"
        shutil.copytree(SOURCE / "tests/languages", crate)
        manifest = crate / "Cargo.toml"
        manifest.write_text(manifest.read_text().replace('"../../../rust"', f'"{OUT}/rust"'))
        said("cargo", "build", "--offline", "--quiet", "--release", cwd=crate, env={**os.environ, "CARGO_TARGET_DIR": str(target)})
        made.append(target / "release/libcamera.so")
    return ":".join(map(str, made))


def tested(work, python, others):
    """All tests, also the lines in the comments, and those of other languages in the same process."""
    places = {**os.environ, "IOX2_PUBSUB_CAMERAS": others}
    return said(python, "-m", "pytest", "-q", "-p", "no:cacheprovider", SOURCE / "tests", cwd=work, env=places)


# What is tested over domains of one process, and over those that processes share just so.
BOTH_WAYS = ("answers", "bad_input", "channels", "events", "lifetimes", "messages", "processes", "sends", "settings", "threads", "waits")


def tested_by_name(work, python):
    """The same tests of domains that processes share."""
    files = [SOURCE / f"tests/test_{name}.py" for name in BOTH_WAYS]
    places = {**os.environ, "PYTHONPATH": str(SOURCE / "tests"), "PYTHONDONTWRITEBYTECODE": "1"}
    return said(python, "-m", "pytest", "-q", "-p", "no:cacheprovider", "-p", "by_name", *files, cwd=work, env=places)


# What is said of calls in their order. Threads that ran one after the other would take three turns.
TURNS = re.compile(r"lock_order: \d+ calls, (\d+) of them by another thread")
LEAST_TURNS = 10


def check_turns(printed):
    """That calls of several threads came in between."""
    turns = TURNS.search(printed)
    if not turns or int(turns[1]) < LEAST_TURNS:
        raise Failed(f"no threads whose calls take turns: {printed[-300:]}")


def random_calls(work, python, script_of_run):
    """Random calls of four threads, whose replies are those of run."""
    order, stress = work / "lock_order.o", BINDINGS / "stress"
    said("gcc", "-O1", "-fPIC", "-I", OUT / "include", "-c", stress / "lock_order.c", "-o", order)
    wraps = [f"-Wl,--wrap={name}" for name in (stress / "wrapped.txt").read_text().split()]
    package = python_build.build(include(), work / "ordered", *wraps, beside=(order,))
    replies = 0
    for seed in SEEDS:
        program = (SOURCE / "tests/random_calls.py", seed, CALLS, 4, work / "script", work / "replies")
        printed = said(python, *program, cwd=work, env={**os.environ, "PYTHONPATH": str(package)})
        check_turns(printed)
        with (work / "script").open() as lines:
            wanted = subprocess.run([script_of_run], stdin=lines, stdout=subprocess.PIPE, check=True).stdout
        if wanted != (work / "replies").read_bytes():
            raise Failed(f"seed {seed}: the replies aren't those of run")
        replies += wanted.count(b"\n")
    if replies < len(SEEDS) * CALLS // 4:
        raise Failed(f"only {replies} replies")
    return f"{len(SEEDS)} lists of 4 threads, {replies} replies are those of run"


def typed(work):
    """What mypy says of the package and of lines that use it, as strictly as it can; and of the extension's names, as it finds them."""
    places = {**os.environ, "MYPYPATH": str(SOURCE)}
    copy = work / "typed"
    shutil.copytree(SOURCE / "iox2_pubsub", copy / "iox2_pubsub", ignore=IGNORED)
    uses = sorted(str(path) for path in SOURCE.glob("tests/typed*.py"))
    cache = ("--cache-dir", work / "mypy")
    return said(interpreter(), "-m", "mypy", "--strict", *cache, "iox2_pubsub", *uses, cwd=copy, env=places)


def stubs_fit(work, python):
    """The types that are said are those that the extension has."""
    allowed = SOURCE / "tests/stubtest_allowed.txt"
    words = ("--allowlist", allowed) if allowed.exists() else ()
    return said(python, "-m", "mypy.stubtest", *words, "iox2_pubsub._core", cwd=work)


def page_runs(work, python):
    """The lines of Python on the page, as they stand there."""
    blocks = re.findall(r"^```python\n(.*?)^```", (SOURCE / "README.md").read_text(), re.M | re.S)
    if not blocks:
        raise Failed("README.md has no block of Python")
    for number, block in enumerate(blocks):
        program = work / f"block_{number}.py"
        program.write_text(block)
        said(python, program, cwd=work)
    return f"{len(blocks)} blocks"


def page_compiles(work):
    """The line of C++ on the page, as it stands there, in a function that has a domain."""
    (block,) = re.findall(r"^```cpp\n(.*?)^```", (SOURCE / "README.md").read_text(), re.M | re.S)
    program = work / "block.cpp"
    program.write_text(
        "#define PY_SSIZE_T_CLEAN\n#include <Python.h>\n#include \"iox2_pubsub_shared.hpp\"\n"
        f"PyObject *shared(const iox2ps::SharedDomain<double> &domain) {{\n{block}return capsule;\n}}\n"
    )
    said("g++", "-std=c++17", "-Wall", "-Wextra", "-Werror", "-fsyntax-only", "-I", include(), "-I", OUT / "include", program)
    return "compiles"


def run_page(steps, work, python):
    """What the page shows."""
    steps.run("python, the page's lines", page_runs, work, python)
    steps.run("python, the page's line of C++", page_compiles, work)


# The interpreter's own memory is the C library's, so that each object is a block of its own.
WATCHED = {"PYTHONMALLOC": "malloc", "PYTHONHASHSEED": "0"}


def sanitized(work, python, others):
    """All tests with the extension under gcc's address and undefined sanitizers, which the interpreter isn't compiled with."""
    package = python_build.build(include(), work / "sanitized", *SANITIZERS)
    runtime = said("gcc", "-print-file-name=libasan.so", both=False).strip()
    places = {**os.environ, **WATCHED, "PYTHONPATH": str(package), "LD_PRELOAD": runtime, "ASAN_OPTIONS": "detect_leaks=0:allocator_may_return_null=1", "IOX2_PUBSUB_CAMERAS": others}
    return said(python, "-m", "pytest", "-q", "-p", "no:cacheprovider", SOURCE / "tests", cwd=work, env=places)


def ground(work, python, package, others, *words):
    """A program of Python's and what it forks under valgrind, which has to find nothing. Its threads take turns, as those that wait for
    one another need."""
    grind = ("valgrind", "--quiet", "--error-exitcode=9", "--undef-value-errors=no", "--fair-sched=yes", python)
    places = {**os.environ, **WATCHED, "PYTHONPATH": str(package), "IOX2_PUBSUB_CAMERAS": others}
    return said(*grind, *words, cwd=work, env=places) or "nothing is found"


def lost(work, python, package, messages, domains):
    """How many bytes nothing leads to at the end of a run, as valgrind finds."""
    grind = ("valgrind", "--leak-check=full", "--show-leak-kinds=definite", "--undef-value-errors=no", python)
    words = [*map(str, (*grind, SOURCE / "tests/leaks.py", messages, domains))]
    places = {**os.environ, **WATCHED, "PYTHONPATH": str(package)}
    # What the process grows by says nothing here, where valgrind takes memory too.
    ran = subprocess.run(words, cwd=work, env=places, stdout=subprocess.PIPE, stderr=subprocess.STDOUT, text=True, check=False)
    found = re.search(r"definitely lost: ([\d,]+) bytes", ran.stdout)
    if f"{messages} messages and {domains} domains" not in ran.stdout or not found:
        raise Failed(ran.stdout[-3000:])
    return int(found[1].replace(",", ""))


def nothing_is_lost(work, python, package):
    """Messages and domains leave no block that a run without any doesn't leave."""
    before, after = (lost(work, python, package, *numbers) for numbers in ((0, 0), (2000, 50)))
    if after > before:
        raise Failed(f"{after - before} bytes are lost")
    return f"{after} bytes with messages and without"


def run_checked(steps, work):
    """The tests while each access to memory is watched."""
    if lack := lacking() or lacking(TESTED_BY):
        steps.skip("the package for Python, watched", lack)
        return
    build_wheel(work)
    python = environment(work, "with_numpy", "--system-site-packages")
    others = cameras(work)
    steps.run("python, pytest, sanitizers", sanitized, work, python, others)
    if not is_here("valgrind"):
        steps.skip("python by valgrind", "valgrind")
        return
    package = python_build.build(include(), work / "ground", "-g")
    steps.run("python, tests/without_numpy.py, valgrind", ground, work, python, package, others, SOURCE / "tests/without_numpy.py")
    steps.run("python, pytest, valgrind", ground, work, python, package, others, "-m", "pytest", "-q", "-p", "no:cacheprovider", SOURCE / "tests")
    steps.run("python, leaks by valgrind", nothing_is_lost, work, python, package)


def run_bench(work):
    """The table of times."""
    if lack := lacking() or lacking(TESTED_BY):
        raise Failed(f"{lack} isn't here")
    build_wheel(work)
    python_costs.bench(work, environment(work, "with_numpy", "--system-site-packages"))


def run_types(steps, work, python):
    """What mypy finds."""
    if not answers("import mypy"):
        steps.skip("python by mypy", "mypy")
        return
    steps.run("python, mypy --strict", typed, work)
    steps.run("python, stubtest", stubs_fit, work, python)


def run_python(steps, work, script_of_run):
    """All of these. The program that replies as `run` does may be none."""
    if lack := lacking():
        steps.skip("the package for Python", lack)
        return
    before = steps.failed
    steps.run("python, a wheel has the same bytes each time", same_wheel_twice, work)
    if steps.failed > before:
        return
    steps.run("python, an empty environment", by_nothing_else, work)
    if later_pythons():
        steps.run("python, later versions", by_later_pythons, work)
    else:
        steps.skip("python, later versions", "Python 3.12")
    if lack := lacking(TESTED_BY):
        steps.skip("python, tests", lack)
        return
    python = environment(work, "with_numpy", "--system-site-packages")
    others = cameras(work)
    steps.run("python, pytest", tested, work, python, others)
    steps.run("python, pytest over domains that processes share", tested_by_name, work, python)
    run_types(steps, work, python)
    run_page(steps, work, python)
    steps.run("python, a million messages leave nothing", said, python, SOURCE / "tests/leaks.py")
    python_costs.run_costs(steps, work, python)
    if script_of_run is None:
        steps.skip("python, random calls beside run", "pubsub_script (--script)")
    else:
        steps.run("python, random calls", random_calls, work, python, script_of_run)
    python_faults.run_faults(steps, work, python, include(), others)


def run_planted(steps, work):
    """What is planted in the package, which its tests have to see."""
    if lack := lacking() or lacking(TESTED_BY):
        steps.skip("the package for Python, with planted faults", lack)
        return
    build_wheel(work)
    python = environment(work, "with_numpy", "--system-site-packages")
    python_faults.run_faults(steps, work, python, include(), cameras(work))
