# SPDX-License-Identifier: Apache-2.0 OR MIT
"""Where things lie, and which version they have."""
import re
import shutil
from pathlib import Path

TOP = Path(__file__).resolve().parents[2]
BINDINGS = TOP / "bindings"
EXAMPLES = TOP / "examples"
FIRST_C = EXAMPLES / "first_message/first_message.c"
OUT = BINDINGS / "out"
HEADER = BINDINGS / "include/iox2_pubsub.h"
LICENCES = ("LICENSE-APACHE", "LICENSE-MIT")
# The crates of Rust.
CRATES = ("rust", "rust-sys", "rust-stream")


def version(top=TOP):
    """The version that the header says. It stands there, and is read from there for all else but the crates of Rust."""
    text = (top / HEADER.relative_to(TOP)).read_text()
    return ".".join(re.search(rf"#define IOX2PS_VERSION_{part} (\d+)", text)[1] for part in ("MAJOR", "MINOR", "PATCH"))


def is_here(program):
    """Whether the program is on the path."""
    return shutil.which(program) is not None
