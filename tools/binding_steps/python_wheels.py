# SPDX-License-Identifier: Apache-2.0 OR MIT
"""Wheels for Python: with which interpreter they are built, for which processors, and what each has to be."""
import filecmp
import os
import re
import shutil
import subprocess
import tempfile
import zipfile
from contextlib import contextmanager
from functools import cache
from pathlib import Path

from .folder import PYTHON_MADE
from .places import BINDINGS, LICENCES, is_here, version
from .steps import Failed, said
from .targets import MACHINE_AT, TARGETS, X86_64

SOURCE = BINDINGS / "python"
# Whether Python has its header, and is one that the package is for.
HEADER = "import os, sys, sysconfig; sys.exit(sys.version_info < (3, 11) or not os.path.exists(sysconfig.get_path('include') + '/Python.h'))"
# What a package of Debian has, and its name.
WANTED = (("import setuptools, wheel", "python3-setuptools, python3-wheel"), ("import pip", "python3-pip"), ("import venv, ensurepip", "python3-venv"))
TESTED_BY = (("import numpy", "python3-numpy"), ("import pytest", "python3-pytest"))
# So many seconds after the beginning of 1980, which is the first that a wheel can say.
NO_DATE = "315619200"
IGNORED = shutil.ignore_patterns(*PYTHON_MADE)
# The glibc that manylinux2014 has, which the wheel says that it runs on.
GLIBC = (2, 17)
# The loader, which finds the variables of a thread, and is there wherever glibc is.
LOADERS = {"x86_64": "ld-linux-x86-64.so.2", "aarch64": "ld-linux-aarch64.so.1"}


# ---- the interpreter


def has(python, line):
    """Whether a Python runs a line."""
    try:
        return subprocess.run([python, "-c", line], capture_output=True, check=False).returncode == 0
    except OSError:
        return False


def lacks(python, wanted=WANTED):
    """The first package that a Python hasn't, or None."""
    return next((package for line, package in ((HEADER, "python3-dev"), *wanted) if not has(python, line)), None)


@cache
def interpreter():
    """The Python that the package is built and tested with: the first that has all, or else the first."""
    found = [*filter(None, (shutil.which("python3"), "/usr/bin/python3", *map(shutil.which, ("python3.14", "python3.13", "python3.12", "python3.11"))))]
    return next((python for python in found if lacks(python, (*WANTED, *TESTED_BY)) is None), found[0])


def answers(line):
    """Whether it runs a line."""
    return has(interpreter(), line)


def asked(line):
    """What it says of a line."""
    return said(interpreter(), "-c", f"import sys, sysconfig; print({line})").strip()


def include():
    """Where its header lies."""
    return Path(asked("sysconfig.get_path('include')"))


def lacking(wanted=WANTED):
    """The first package that it hasn't, or None."""
    return lacks(interpreter(), wanted)


def lacking_for(target):
    """What isn't here of what builds a wheel for a target, or None."""
    compiler = target.compilers[0]
    return lacking() or (compiler if target.is_crossed and not is_here(compiler) else None)


# ---- building


def config_for(target, to):
    """Writes Python's settings for a target to where its header looks for them: those of this machine, which `same_sizes` compares."""
    multiarch = target.triple.replace("-unknown", "")
    here = Path("/usr/include", asked("sysconfig.get_config_var('MULTIARCH') or ''"), asked("f'python{sys.version_info[0]}.{sys.version_info[1]}'"))
    config = next((path for path in (here / "pyconfig.h", include() / "pyconfig.h") if path.exists()))
    (to / multiarch / here.name).mkdir(parents=True)
    shutil.copyfile(config, to / multiarch / here.name / "pyconfig.h")
    return to


@contextmanager
def compiled_for(target):
    """What setuptools is told of the processor: nothing for this machine's."""
    if not target.is_crossed:
        yield {}
        return
    with tempfile.TemporaryDirectory() as place:
        compiler = target.compilers[0]
        yield {
            "CC": compiler,
            "LDSHARED": f"{compiler} -shared",
            "CFLAGS": f"-I{config_for(target, Path(place))}",
            "_PYTHON_HOST_PLATFORM": f"linux-{target.name}",
        }


# The types whose sizes Python's header takes from its settings.
SIZES = {"SHORT": "short", "INT": "int", "LONG": "long", "LONG_LONG": "long long", "DOUBLE": "double", "VOID_P": "void *", "SIZE_T": "size_t",
         "UINTPTR_T": "uintptr_t", "WCHAR_T": "wchar_t", "TIME_T": "time_t", "PID_T": "pid_t", "OFF_T": "off_t", "PTHREAD_T": "pthread_t"}


def same_sizes(work, target):
    """The sizes that Python's settings say are the target's, as its compiler has them."""
    config, program = config_for(target, work / f"config_{target.name}"), work / "sizes.c"
    lines = "".join(f'_Static_assert(sizeof({kind}) == SIZEOF_{name}, "{name}");\n' for name, kind in SIZES.items())
    program.write_text(f"#include <Python.h>\n#include <pthread.h>\n{lines}")
    said(target.compilers[0], "-std=gnu11", "-I", config, "-I", include(), "-fsyntax-only", program)
    return f"{len(SIZES)} types"


def build_wheel(work, folder=None, source=SOURCE, date=NO_DATE, target=X86_64):
    """Builds a wheel of a copy of the sources over the archive of a folder, without a net, and returns it."""
    with tempfile.TemporaryDirectory(dir=work) as place, compiled_for(target) as words:
        copy, made = Path(place) / "python", Path(place) / "wheel"
        shutil.copytree(source, copy, ignore=IGNORED)
        places = {"IOX2_PUBSUB_DIR": str(folder or target.out), "SOURCE_DATE_EPOCH": date, "PIP_DISABLE_PIP_VERSION_CHECK": "1"}
        line = ("-m", "pip", "wheel", "--no-build-isolation", "--no-deps", "--no-index", "--quiet", "-w", made, copy)
        said(interpreter(), *line, env={**os.environ, **places, **words}, cwd=place)
        wheel = next(made.glob("*.whl"))
        return Path(shutil.move(wheel, work / wheel.name))


def same_bytes(first, other):
    """Two files that were built alike are alike."""
    if first.name != other.name or not filecmp.cmp(first, other, shallow=False):
        raise Failed(f"{first.name}, built again, has other bytes")


def built_twice(work, target, date=NO_DATE):
    """A wheel for a target, which is built twice and is what it says."""
    again = work / f"again_{target.name}"
    again.mkdir()
    first = build_wheel(work, date=date, target=target)
    same_bytes(first, build_wheel(again, date=date, target=target))
    has_files(first)
    return f"{first.name}: {is_wheel_for(first, target)}"


# ---- what a wheel has to be


def is_wheel_for(wheel, target):
    """Refuses a wheel that isn't one for a target: by its name and tag, and by what its extension is for, shows and wants."""
    tag = f"cp311-abi3-linux_{target.name}"
    if not wheel.name.endswith(f"-{tag}.whl"):
        raise Failed(f"{wheel.name} is no wheel for {target.name}")
    with zipfile.ZipFile(wheel) as file, tempfile.TemporaryDirectory() as place:
        (said_of,) = (file.read(name).decode() for name in file.namelist() if name.endswith(".dist-info/WHEEL"))
        if f"Tag: {tag}\n" not in said_of:
            raise Failed(f"{wheel.name} has another tag than {tag}")
        return is_extension_for(Path(file.extract("iox2_pubsub/_core.abi3.so", place)), target)


def has_files(wheel):
    """The files of a wheel are this clone's, with the extension and the licences."""
    info = f"iox2_pubsub-{version()}.dist-info"
    wanted = {f"iox2_pubsub/{path.name}" for path in (SOURCE / "iox2_pubsub").iterdir() if path.is_file()}
    wanted |= {"iox2_pubsub/_core.abi3.so", *(f"{info}/{name}" for name in ("METADATA", "RECORD", "WHEEL", "top_level.txt", *LICENCES))}
    with zipfile.ZipFile(wheel) as file:
        if set(file.namelist()) != wanted:
            raise Failed(f"the wheel has other files: {', '.join(sorted(set(file.namelist()) ^ wanted))}")


def is_extension_for(extension, target):
    """An extension for a target shows the module alone, and wants Python and a glibc that is old."""
    machine = int.from_bytes(extension.read_bytes()[MACHINE_AT : MACHINE_AT + 2], "little")
    if machine != target.machine:
        raise Failed(f"the extension is for ELF's machine {machine}, not for {target.name}")
    symbols = re.findall(r"^ +\d+: \w+ +\d+ \w+ +(?:GLOBAL|WEAK) +\w+ +(\w+) +([\w.@]+)", said("readelf", "--dyn-syms", "--wide", extension), re.M)
    shown = [name for where, name in symbols if where != "UND"]
    if shown != ["PyInit__core"]:
        raise Failed(f"the extension shows {shown}")
    libraries = re.findall(r"\(NEEDED\) +Shared library: \[(.*)\]", said("readelf", "--dynamic", "--wide", extension))
    if not {"libc.so.6"} <= set(libraries) <= {"libc.so.6", LOADERS[target.name]}:
        raise Failed(f"the extension wants {libraries}")
    newest = max(tuple(map(int, found.split("."))) for found in re.findall(r"@GLIBC_([\d.]+)", " ".join(name for _, name in symbols)))
    if newest > GLIBC:
        raise Failed(f"the extension wants glibc {newest}: {[name for _, name in symbols if str(newest[1]) in name]}")
    return f"{sum(name.startswith(('Py', '_Py')) for _, name in symbols) - 1} functions of Python, glibc {'.'.join(map(str, newest))}"


# ---- running


def environment(work, name, *flags):
    """A virtual environment with this machine's wheel alone, and the Python of it."""
    said(interpreter(), "-m", "venv", *flags, work / name)
    python = work / name / "bin/python"
    said(python, "-m", "pip", "install", "--no-index", "--no-deps", "--quiet", next(work.glob(f"*_{X86_64.name}.whl")))
    return python


def by_nothing_else(work):
    """The wheel in an environment that has nothing else, not even numpy."""
    return said(environment(work, "empty"), SOURCE / "tests/without_numpy.py", cwd=work)


# Where pyenv has other versions.
PYENV = Path(os.environ.get("PYENV_ROOT", Path.home() / ".pyenv"), "versions")


def python_of(minor):
    """An interpreter of Python 3 with this second number on this machine, or None."""
    name = f"python3.{minor}"
    found = filter(None, (shutil.which(name), *sorted(PYENV.glob(f"3.{minor}.*/bin/{name}"))))
    return next((python for python in found if has(python, f"import sys; assert sys.version_info[:2] == (3, {minor})")), None)


def later_pythons():
    """Those of later versions than the package is built for, by their version."""
    found = {f"3.{minor}": python_of(minor) for minor in range(12, 20)}
    return {version_: python for version_, python in found.items() if python}


def by_later_pythons(work):
    """The one wheel, unpacked, by each of them."""
    place, pythons = work / "unpacked_for_later", later_pythons()
    with zipfile.ZipFile(next(work.glob(f"*_{X86_64.name}.whl"))) as file:
        file.extractall(place)
    for python in pythons.values():
        said(python, SOURCE / "tests/without_numpy.py", cwd=work, env={**os.environ, "PYTHONPATH": str(place)})
    return ", ".join(pythons)


# Where Debian's packages for other processors are installed, or unpacked.
ROOT = Path(os.environ.get("IOX2_PUBSUB_ROOT", "/"))
# Debian has Python as a library for another processor beside this one's: a program of one line is the interpreter.
MAIN = "int Py_BytesMain(int count, char **words);\nint main(int count, char **words) { return Py_BytesMain(count, words); }\n"


def emulated_python(work, target):
    """How a Python for another processor is called here, or nothing where the emulator or Debian's library of it isn't installed."""
    libraries = ROOT / "usr/lib" / target.triple.replace("-unknown", "")
    library = next(iter(sorted(libraries.glob("libpython3.*.so.1.0"))), None)
    if target.lacking() or library is None:
        return None
    source, program = work / "python.c", work / f"python_{target.name}"
    source.write_text(MAIN)
    said(target.compilers[0], source, library, "-Wl,--allow-shlib-undefined", "-o", program)
    loader = target.emulator[:3] if ROOT == Path("/") else (target.emulator[0], "-L", ROOT)
    paths = f"{target.emulator[2]}/lib:{libraries}" if ROOT == Path("/") else libraries
    return (*loader, "-E", f"LD_LIBRARY_PATH={paths}", "-E", f"PYTHONHOME={ROOT / 'usr'}", program)


def run_emulated(work, target, python):
    """The wheel for another processor, unpacked, by the emulator."""
    wheel, place = next(work.glob(f"*_{target.name}.whl")), work / f"unpacked_{target.name}"
    with zipfile.ZipFile(wheel) as file:
        file.extractall(place)
    words = (*python[:-1], "-E", f"PYTHONPATH={place}", python[-1], SOURCE / "tests/without_numpy.py")
    return said("timeout", 600, *words, cwd=work)


def run_crossed(steps, work, target):
    """The wheel for another processor, as far as this machine has what it takes."""
    name = f"the wheel for Python on {target.name}"
    if lack := lacking_for(target):
        steps.skip(name, lack)
        return
    before = steps.failed
    steps.run(f"{name}, sizes of types", same_sizes, work, target)
    steps.run(f"{name} is built twice", built_twice, work, target)
    if steps.failed == before:
        try_emulated(steps, work, target)


def try_emulated(steps, work, target):
    """Runs a wheel that lies in a folder."""
    python = emulated_python(work, target)
    if python is None:
        steps.skip(f"the wheel for Python on {target.name}, run by the emulator", "libpython3.11:arm64")
        return
    steps.run(f"the wheel for Python on {target.name}, by the emulator", run_emulated, work, target, python)


# ---- a release's


def wheels_for(steps, targets, work):
    """The wheels that are released beside the archives, with the date of the commit, where Python's headers are here."""
    folder = work / "wheels"
    folder.mkdir()
    date = said("git", "log", "-1", "--format=%ct", cwd=BINDINGS, both=False).strip()
    for target in targets:
        if lack := lacking_for(target):
            steps.skip(f"the wheel for Python on {target.name}", lack)
        else:
            steps.run(f"the wheel for Python on {target.name} is built twice", built_twice, folder, target, date)
    return sorted(folder.glob("*.whl"))


def run_released(steps, work, dist):
    """The wheels of a release: each is what it says, and runs where nothing else is installed."""
    for wheel in sorted(dist.glob("*.whl")):
        target = next((target for target in TARGETS.values() if wheel.name.endswith(f"_{target.name}.whl")), X86_64)
        shutil.copyfile(wheel, work / wheel.name)
        steps.run(wheel.name, is_wheel_for, work / wheel.name, target)
        if target.is_crossed:
            try_emulated(steps, work, target)
        elif lack := lacking():
            steps.skip(f"{wheel.name} in an empty environment", lack)
        else:
            steps.run(f"{wheel.name} in an empty environment", by_nothing_else, work)
