# SPDX-License-Identifier: Apache-2.0 OR MIT
"""Builds the extension, which has the archive in it, and domains that processes share where the folder has their library: of the folder that IOX2_PUBSUB_DIR names, of the release that this lies in, or of
the clone's bindings/out. All else is in pyproject.toml."""
import os
from pathlib import Path

from setuptools import Extension, setup

HERE = Path(__file__).resolve().parent


def folder():
    """Where include/ and lib/ lie."""
    named = os.environ.get("IOX2_PUBSUB_DIR")
    for one in [Path(named)] if named else [HERE.parent, HERE.parent / "out"]:
        if (one / "lib/libiox2_pubsub.a").exists():
            return one
    raise SystemExit(f"lib/libiox2_pubsub.a isn't {'in ' + named if named else 'here'}: IOX2_PUBSUB_DIR names the folder of a release, or a "
                     "clone's bindings/out after `tools/bindings build`")


OUT = folder()
# The archive with the calls for domains that processes share, where it was built, and else the archive alone.
PROCESSES = OUT / "lib/libiox2_pubsub_processes.a"
HAS_PROCESSES = PROCESSES.exists() and (OUT / "include/iox2_pubsub_processes.h").exists()
CORE = Extension(
    "iox2_pubsub._core",
    sources=sorted(str(source.relative_to(HERE)) for source in HERE.glob("src/*.c")),
    depends=sorted(str(header.relative_to(HERE)) for header in HERE.glob("src/*.h")),
    include_dirs=[str(OUT / "include")],
    extra_objects=[str(PROCESSES if HAS_PROCESSES else OUT / "lib/libiox2_pubsub.a")],
    define_macros=[("Py_LIMITED_API", "0x030b0000"), ("_GNU_SOURCE", None), *([("IOX2PS_HAS_PROCESSES", None)] if HAS_PROCESSES else [])],
    # Nothing of the place where it is built is in the file, so that each build makes the same bytes.
    extra_compile_args=["-std=c11", "-O2", "-g0", "-fvisibility=hidden"],
    # The archive's calls stay its own: a program may have another archive.
    extra_link_args=["-Wl,--exclude-libs,ALL", "-Wl,--gc-sections", "-Wl,-s"],
    py_limited_api=True,
)

setup(ext_modules=[CORE], options={"bdist_wheel": {"py_limited_api": "cp311"}})
