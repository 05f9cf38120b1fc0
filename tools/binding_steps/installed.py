# SPDX-License-Identifier: Apache-2.0 OR MIT
"""The folder as packagers take it: installed, moved, as a shared library, as a part of another project, for another processor."""
import os
import re
import shutil

from .places import BINDINGS, EXAMPLES, OUT, is_here, version
from .programs import PAIRS, WARNINGS, check_example
from .steps import Failed, said
from .targets import AARCH64, PLAIN

# Where distributions have their libraries.
LIBDIRS = ("lib", "lib/x86_64-linux-gnu")
MINOR = version().rsplit(".", 1)[0]
FIND = f"find_package(iox2_pubsub {MINOR} REQUIRED)"
SONAME, NODE = f"libiox2_pubsub.so.{MINOR}", f"IOX2PS_{MINOR}"

PROJECT = """cmake_minimum_required(VERSION 3.16)
project(taken C)
{taking}
get_target_property(links iox2_pubsub::iox2_pubsub INTERFACE_LINK_LIBRARIES)
if(NOT links STREQUAL "Threads::Threads")
  message(FATAL_ERROR "it links ${{links}}")
endif()
add_executable(thermometer_c {examples}/thermometer/thermometer.c)
target_link_libraries(thermometer_c PRIVATE iox2_pubsub::{target})
"""


def taken(work, name, taking, compilers, *flags, target="iox2_pubsub"):
    """A project that takes the folder so, by these compilers: the example prints what it has to."""
    folder = work / f"taken_{name}_{compilers[0]}"
    shutil.rmtree(folder, ignore_errors=True)
    folder.mkdir()
    (folder / "CMakeLists.txt").write_text(PROJECT.format(taking=taking, examples=EXAMPLES, target=target))
    said("cmake", "-S", folder, "-B", folder / "build", f"-DCMAKE_C_COMPILER={compilers[0]}", *flags)
    said("cmake", "--build", folder / "build")
    check_example(folder / "build/thermometer_c", work=work)
    return folder / "build"


def installed(work, name, compilers, *flags):
    """Installs the folder, and moves what was installed."""
    build, first, prefix = (work / f"{part}_{name}" for part in ("installing", "first", "installed"))
    said("cmake", "-S", OUT, "-B", build, f"-DCMAKE_C_COMPILER={compilers[0]}", *flags)
    said("cmake", "--build", build)
    said("cmake", "--install", build, "--prefix", first)
    shutil.rmtree(prefix, ignore_errors=True)
    first.rename(prefix)
    return prefix


def in_libdir(work, libdir, compilers):
    """The package and the file for pkg-config find themselves in this folder, wherever it was moved."""
    from .packages import pkg_config

    name = libdir.replace("/", "_")
    prefix = installed(work, f"{name}_{compilers[0]}", compilers, f"-DCMAKE_INSTALL_LIBDIR={libdir}")
    has_plain = (OUT / "lib" / PLAIN.archive).exists()
    there = sorted(path.relative_to(prefix).as_posix() for path in (prefix / libdir).rglob("*") if path.is_file())
    wanted = [f"{libdir}/{part}" for part in (
        "cmake/iox2_pubsub/iox2_pubsubConfig.cmake", "cmake/iox2_pubsub/iox2_pubsubConfigVersion.cmake",
        "libiox2_pubsub.a", "pkgconfig/iox2_pubsub.pc", *(("libiox2_pubsub_plain.a", "pkgconfig/iox2_pubsub_plain.pc") if has_plain else ()),
        "libiox2_pubsub_processes.a", "pkgconfig/iox2_pubsub_processes.pc",
    )]
    if there != sorted(wanted):
        raise Failed(f"there is {there}")
    taken(work, name, FIND, compilers, f"-DCMAKE_PREFIX_PATH={prefix}")
    return pkg_config(work, prefix, libdir) if is_here("pkg-config") else "by CMake"


def shows_calls_alone(library):
    """A shared library has its name and version, and shows the archive's functions of the header and nothing else."""
    dynamic = said("readelf", "--dynamic", "--wide", library)
    if f"Library soname: [{SONAME}]" not in dynamic:
        raise Failed(dynamic)
    symbols = re.findall(r" [A-Z] (\S+)", said("nm", "--dynamic", "--defined-only", library))
    defined = re.findall(r" T (iox2ps_\w+)", said("nm", "--defined-only", OUT / "lib/libiox2_pubsub.a"))
    if sorted(symbols) != sorted([f"{name}@@{NODE}" for name in defined] + [NODE]):
        raise Failed(f"it shows {sorted(symbols)}")
    return f"{len(defined)} functions"


def shared(work, compilers):
    """A shared library beside the archive: programs link it by CMake and pkg-config, and the tests of C pass over it."""
    from .packages import pkg_config

    prefix = installed(work, f"shared_{compilers[0]}", compilers, "-DIOX2PS_SHARED=ON", "-DCMAKE_INSTALL_LIBDIR=lib")
    library = prefix / f"lib/libiox2_pubsub.so.{version()}"
    shown = shows_calls_alone(library)
    build = taken(work, "shared", FIND, compilers, f"-DCMAKE_PREFIX_PATH={prefix}", target="shared")
    if f"Shared library: [{SONAME}]" not in said("readelf", "--dynamic", build / "thermometer_c"):
        raise Failed("a program that links iox2_pubsub::shared doesn't want it")
    if is_here("pkg-config"):
        pkg_config(work, prefix)
    program = work / f"calls_{compilers[0]}"
    said(compilers[0], "-std=c11", *WARNINGS, "-I", prefix / "include", BINDINGS / "c/calls.c", "-L", prefix / "lib", "-liox2_pubsub", "-o", program)
    passed = said(program, env={**os.environ, "LD_LIBRARY_PATH": str(prefix / "lib")}).splitlines()[-1]
    return f"{SONAME}, {shown}, calls.c {passed}"


def as_part(work, how, compilers):
    """A project that has the folder in itself, or fetches it, with the archive or with the shared library."""
    taking = {
        "add_subdirectory": f'add_subdirectory("{OUT}" iox2_pubsub)',
        "FetchContent": f'include(FetchContent)\nFetchContent_Declare(iox2_pubsub SOURCE_DIR "{OUT}")\nFetchContent_MakeAvailable(iox2_pubsub)',
    }[how]
    build = taken(work, how, taking, compilers)
    taken(work, f"{how}_shared", taking, compilers, "-DIOX2PS_SHARED=ON", target="shared")
    if said("cmake", "--install", build, "--prefix", work / "nothing") and (work / "nothing").exists():
        raise Failed("the project installs the library's files")
    return "with the archive, and with the shared library"


# A compiler's test program is compiled, and not linked, for which a machine may lack libraries.
COMPILE_ALONE = "-DCMAKE_TRY_COMPILE_TARGET_TYPE=STATIC_LIBRARY"
FINDS = "cmake_minimum_required(VERSION 3.16)\nproject(finds C)\n{taking}\n"


def refused(work, name, words, *flags):
    """Projects that find the folder, or have it in themselves, for another processor: each is told what the archive is for."""
    for how, taking in (("find", FIND), ("add", f'add_subdirectory("{OUT}" iox2_pubsub)')):
        folder = work / f"refused_{name}_{how}"
        shutil.rmtree(folder, ignore_errors=True)
        folder.mkdir()
        (folder / "CMakeLists.txt").write_text(FINDS.format(taking=taking))
        written = said("cmake", "-S", folder, "-B", folder / "build", f"-DCMAKE_PREFIX_PATH={OUT}", *flags, fails=True)
        if words not in " ".join(written.split()):
            raise Failed(written)
    return words


def run_installed(steps, work):
    """All of these, by each pair of compilers."""
    for compilers in (pair for pair in PAIRS if is_here(pair[0]) and is_here(pair[1])):
        for libdir in LIBDIRS:
            steps.run(f"cmake --install into {libdir}, {compilers[0]}", in_libdir, work, libdir, compilers)
        steps.run(f"cmake, a shared library, {compilers[0]}", shared, work, compilers)
        for how in ("add_subdirectory", "FetchContent"):
            steps.run(f"cmake, {how}, {compilers[0]}", as_part, work, how, compilers)
        bits = "for Linux on x86_64 of 64 bits, not for Linux on a processor of 4 bytes"
        steps.run(f"cmake, 32 bits, {compilers[0]}", refused, work, f"32_{compilers[0]}", bits, f"-DCMAKE_C_COMPILER={compilers[0]}", "-DCMAKE_C_FLAGS=-m32", COMPILE_ALONE)
    if is_here(AARCH64.compilers[0]):
        other = "for Linux on x86_64 of 64 bits, not for Linux on aarch64"
        steps.run("cmake, AArch64", refused, work, "aarch64", other, f"-DCMAKE_C_COMPILER={AARCH64.compilers[0]}")
    else:
        steps.skip("cmake, AArch64", AARCH64.compilers[0])
