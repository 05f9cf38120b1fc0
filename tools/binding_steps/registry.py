# SPDX-License-Identifier: Apache-2.0 OR MIT
"""Debian's crates of Rust, which cargo takes in place of crates.io without a network."""
import os
from pathlib import Path

REGISTRY = Path(os.environ.get("DEBIAN_CRATES", "/usr/share/cargo/registry"))


def package(crate):
    """Debian's package of a crate."""
    return f"librust-{crate}-dev"


def has_crate(crate):
    """Whether Debian's package of it is there."""
    return any(REGISTRY.glob(f"{crate}-[0-9]*"))


def words():
    """What tells cargo to look there, behind the name of its command: clippy passes it on from there alone."""
    return ["--config", 'source.crates-io.replace-with="debian"', "--config", f'source.debian.directory="{REGISTRY}"']
