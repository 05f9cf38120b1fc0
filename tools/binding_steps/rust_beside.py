# SPDX-License-Identifier: Apache-2.0 OR MIT
"""Rust beside C over domains that processes share: what passes messages for the figures, and how many instructions one takes."""
import os

from .places import BINDINGS
from .programs import WARNINGS
from .steps import said

SOURCES = BINDINGS / "processes"
# What a program of C wants that has Rust's library in it.
LIBRARIES = ("-pthread", "-ldl", "-lm")
PACKAGE = """[package]
name = "{name}"
version = "0.0.0"
edition = "2021"
[lib]
path = "{source}"
crate-type = ["staticlib"]
[dependencies]
iox2_pubsub = {{ path = "{crate}", features = ["processes"] }}
"""


def static_library(work, library, source):
    """The archive of a file of Rust, over the crate as it stands in the repository and the library in its folder."""
    folder, target = work / f"{source.stem}_crate", work / "target_beside"
    folder.mkdir(exist_ok=True)
    (folder / "Cargo.toml").write_text(PACKAGE.format(name=source.stem, source=source, crate=BINDINGS / "rust"))
    places = {**os.environ, "IOX2_PUBSUB_LIB_DIR": str(library.work), "CARGO_TARGET_DIR": str(target)}
    said("cargo", "build", "--release", "--offline", "--quiet", cwd=folder, env=places)
    return target / f"release/lib{source.stem}.a"


def carrier(work, library, main):
    """The program of the figures."""
    program = work / "by_rust"
    said("gcc", main, static_library(work, library, SOURCES / "figures/by_rust.rs"), *LIBRARIES, "-o", program)
    return program


def count_beside(work, library):
    """A message takes hardly more instructions than one of C."""
    program, beside = work / "rust_counts_beside", static_library(work, library, SOURCES / "tests/passed_beside.rs")
    source = SOURCES / "tests/counts_beside.c"
    said("gcc", "-std=c11", "-O2", *WARNINGS, *library.includes(), source, beside, *LIBRARIES, "-o", program)
    return "; ".join(said("timeout", "-s", "KILL", "3600", program).splitlines())
