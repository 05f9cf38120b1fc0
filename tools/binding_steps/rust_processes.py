# SPDX-License-Identifier: Apache-2.0 OR MIT
"""The crate of Rust over domains that processes share: its tests between processes, and those of ordinary domains, which are shared then."""
import os
import re
import shutil
from pathlib import Path

from . import page_processes, rust_beside
from .crates import compiler_of
from .places import BINDINGS, is_here
from .process_library import SOURCES
from .steps import Failed, said

CRATES = ("rust", "rust-sys")
LAYOUT = BINDINGS / "rust-sys/tests/processes_layout.rs"
LIBRARY = "libiox2_pubsub_processes.a"
# The tests of domains that processes share.
BETWEEN = ("processes", "nodes", "notifications", "refused")
# Tests of ordinary domains that are shared here, and of these what isn't so: a header names a process. Those that count memory, ask for
# more than a domain of processes has room for, or hand a domain to another language, stay out.
TESTS = ("bounds", "calls", "capacity", "channels", "events", "fork", "futures", "hostile", "in_place", "latched", "locks", "panics",
         "reader_writer", "stops", "threads", "wait_set", "waits", "wakes")
NOT_SHARED = ("a_header_says_where_a_message_comes_from", "a_message_is_written_field_by_field", "zeros_are_lent_of_what_has_no_default")
# The comments whose lines are tests of their own.
DOCUMENTED = ("named_domain", "nodes", "notifier", "event_listener", "zero_copy_send")
# Types of messages, and in which words they are refused when they are compiled; the first isn't.
OF_FIELDS = "iox2_pubsub::zero_copy_send! {{ #[derive(Clone, Copy)] struct T {{ field: {} }} }}"
REFUSED = (
    (OF_FIELDS.format("[u64; 2]"), None),
    (OF_FIELDS.format("*const u8"), "can't share values of the type `\\*const u8`"),
    (OF_FIELDS.format("&'static str"), "can't share values of the type `&'static str`"),
    (OF_FIELDS.format("String"), "can't share values of the type `String`"),
    ("type T = &'static u64;", "can't share values of the type `&u64`(.|\n)*`zero_copy_send!` declares a struct"),
    ("type T = Box<u64>;", "`Box<u64>: Copy` is not satisfied"),
    ("#[derive(Clone, Copy)] struct T(u64);", "can't share values of the type `T`"),
    ("iox2_pubsub::zero_copy_send! { struct T { field: u64 } } impl Drop for T { fn drop(&mut self) {} }", "`T: Copy` is not satisfied"),
)
# The names of structs in C by those in Rust.
STRUCTS = {
    "Options": "iox2ps_processes_options_t", "DomainInfo": "iox2ps_domain_info_t", "Node": "iox2ps_node_t", "Port": "iox2ps_port_t",
    "Notifier": "iox2ps_notifier_t", "Listener": "iox2ps_listener_t", "EventIds": "iox2ps_event_ids_t",
}
# Fields of C that a program has no use for end so.
OF_THE_LIBRARY = ("reserved", "place")


def oldest():
    """The oldest Rust that the crate wants."""
    return re.search(r'^rust-version = "(.*)"$', (BINDINGS / "rust/Cargo.toml").read_text(), re.M)[1]


class Crates:
    """The crates in a folder of their own, over the library in another one."""

    def __init__(self, work, library):
        self.work, self.library = work, library
        for name in CRATES:
            shutil.copytree(BINDINGS / name, work / "crates" / name, ignore=shutil.ignore_patterns("target"))

    def cargo(self, *words, crate="rust", library=None, target="target", fails=False, **more):
        """What cargo says of a crate."""
        places = {"IOX2_PUBSUB_LIB_DIR": str(library or self.library.work), "CARGO_TARGET_DIR": str(self.work / target), "RUST_BACKTRACE": "0"}
        words = (more.pop("cargo", "cargo"), words[0], "--offline", "--quiet", "--features", "processes", *words[1:])
        return said("timeout", "-s", "KILL", "3600", *words, cwd=self.work / "crates" / crate, env={**os.environ, **places, **more}, fails=fails)

    def test(self, *words, **more):
        """How many tests passed."""
        written = self.cargo("test", *words, **more)
        passed = re.findall(r"^test result: ok\. (\d+) passed", written, re.M)
        if not passed:
            raise Failed(written[-3000:])
        return f"{sum(map(int, passed))} passed"

    def over_shared(self):
        """The tests of ordinary domains."""
        words = [word for test in TESTS for word in ("--test", test)]
        words += ["--no-fail-fast", "--", *(word for name in NOT_SHARED for word in ("--skip", name))]
        return self.test(*words, library=instead(self.library, self.work), target="target_instead")

    def by_oldest(self, compiler):
        """The oldest Rust takes it without a warning."""
        beside = Path(compiler).with_name("cargo")
        places = {"cargo": str(beside), "RUSTC": compiler} if beside.exists() else {"RUSTC": compiler}
        self.cargo("check", "--tests", target="target_oldest", RUSTFLAGS="-D warnings", **places)
        return "without a warning"

    def clippy(self):
        """What clippy finds."""
        self.cargo("clippy", "--all-targets", "--", "-D", "warnings")
        return "nothing is found"


def refuses(crates):
    """Types that processes can't share, in words that name the way out."""
    example = crates.work / "crates/rust/examples/refused.rs"
    for code, words in REFUSED:
        example.write_text(f"{code}\nfn main() {{ drop(iox2_pubsub::Domain::<T>::builder(7).name(\"a\")) }}\n")
        written = crates.cargo("check", "--example", "refused", fails=words is not None)
        if words is not None and not re.search(words, written):
            raise Failed(f"cargo of\n{code}\nsays {written[-3000:]}")
    example.unlink()
    return f"{len(REFUSED)} types"


def instead(library, work):
    """A copy of the library whose ordinary domains are ones that processes share."""
    folder = work / "instead"
    folder.mkdir()
    said("gcc", "-std=c11", "-O2", "-fPIC", *library.includes(), "-c", SOURCES / "tests/shared_instead.c", "-o", folder / "instead.o")
    renamed = "iox2ps_domain_create=iox2ps_domain_create_of_one"
    said("objcopy", f"--redefine-sym={renamed}", library.work / "iox2_pubsub_processes.o", folder / "whole.o")
    said("ar", "rcs", folder / LIBRARY, folder / "whole.o", folder / "instead.o")
    return folder


def layouts_of_c(library, work):
    """C has the structs in memory as Rust has them."""
    lines = []
    for name, size, alignment, fields in re.findall(r"^lies_so! \{\n    \w+, (\w+), (\d+), (\d+),\n(.*?)^\}", LAYOUT.read_text(), re.M | re.S):
        struct = STRUCTS[name]
        lines.append(f'_Static_assert(sizeof({struct}) == {size} && _Alignof({struct}) == {alignment}, "{name}");')
        for field, offset in re.findall(r"(\w+) (\d+)", fields):
            of_c = f"{field}_" if field in OF_THE_LIBRARY else field
            lines.append(f'_Static_assert(offsetof({struct}, {of_c}) == {offset}, "{field}");')
    if len(lines) < len(STRUCTS):
        raise Failed(f"{LAYOUT} has no layouts")
    file = work / "layouts.c"
    file.write_text("#include <stddef.h>\n#include \"iox2_pubsub_processes.h\"\n" + "".join(f"{line}\n" for line in lines))
    said("gcc", "-std=c11", "-fsyntax-only", *library.includes(), file)
    return f"{len(lines)} lines"


def run_rust(steps, work, library):
    """All of these, over the library."""
    if not is_here("cargo"):
        steps.skip("the crate of Rust between processes", "cargo")
        return
    crates = Crates(work, library)
    steps.run("rust, structs of C", layouts_of_c, library, work)
    steps.run("rust-sys, cargo test", lambda: crates.test("--test", "processes_layout", crate="rust-sys"))
    for name in BETWEEN:
        steps.run(f"rust, tests/{name}.rs", lambda name=name: crates.test("--test", name))
    steps.run("rust, types that are refused", refuses, crates)
    steps.run("bindings/PROCESSES.md, its programs", page_processes.meet, crates, library)
    steps.run("rust, instructions of a message", rust_beside.count_beside, work, library)
    for name in DOCUMENTED:
        steps.run(f"rust, comments of {name}.rs", lambda name=name: crates.test("--doc", name))
    steps.run("rust, tests of ordinary domains, over shared ones", crates.over_shared)
    if is_here("cargo-clippy"):
        steps.run("rust, cargo clippy", crates.clippy)
    compiler = compiler_of(oldest())
    if compiler is None:
        steps.skip("rust, by the oldest Rust", f"Rust {oldest()}")
    else:
        steps.run(f"rust, cargo check by Rust {oldest()}", crates.by_oldest, compiler)
