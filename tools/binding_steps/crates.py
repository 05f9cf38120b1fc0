# SPDX-License-Identifier: Apache-2.0 OR MIT
"""The crates of Rust for others: by the oldest Rust that they say they want, and as packages."""
import os
import re
import shutil
import subprocess
import tarfile
from pathlib import Path

from . import registry
from .packages import STREAMS_NEED, cargo
from .places import CRATES, OUT, is_here
from .steps import Failed, said

# One test file is enough to show that what is compiled is linked and runs.
TESTS = "calls"


# ---- the oldest Rust

def oldest():
    """The version that all crates say."""
    versions = {re.search(r'^rust-version = "(.*)"$', (OUT / crate / "Cargo.toml").read_text(), re.M)[1] for crate in CRATES}
    if len(versions) != 1:
        raise Failed(f"the crates want different versions of Rust: {sorted(versions)}")
    return versions.pop()


def answered(*words):
    """What a program says, or nothing where it isn't there or fails."""
    try:
        return subprocess.run(words, capture_output=True, text=True, check=True).stdout.strip()
    except (OSError, subprocess.CalledProcessError):
        return ""


def compiler_of(version):
    """The compiler of this version of Rust: that of Debian, or one that rustup has. None where neither is there."""
    for compiler in ("/usr/bin/rustc", answered("rustup", "which", "--toolchain", version, "rustc")):
        if compiler and answered(compiler, "--version").startswith(f"rustc {version}."):
            return compiler
    return None


def by_oldest(work, compiler, *words, crate="rust"):
    """What this compiler takes of a crate without a warning."""
    beside = Path(compiler).with_name("cargo")
    program = str(beside) if beside.exists() else "cargo"
    places = {"RUSTC": compiler, "CARGO_TARGET_DIR": str(work / "target_oldest"), "RUSTFLAGS": "-D warnings"}
    written = said(program, *words, "--offline", "--quiet", cwd=OUT / crate, env={**os.environ, **places})
    tested = re.findall(r"^test result: .* (\d+) passed; 0 failed", written, re.M)
    return f"{sum(map(int, tested))} passed" if tested else "without a warning"


def streams_by_oldest(work, compiler):
    """The same of the crate of streams, over Debian's crates."""
    return by_oldest(work, compiler, "check", "--all-targets", *registry.words(), crate="rust-stream")


def run_oldest(steps, work):
    """All targets are checked, and some tests are run."""
    version = oldest()
    compiler = compiler_of(version)
    if compiler is None:
        steps.skip(f"rust, by Rust {version}", f"Rust {version} (Debian's rustc, or rustup toolchain install {version})")
        return
    for features in ((), ("--features", "dds")):
        words = " ".join(("cargo check", *features))
        steps.run(f"rust, {words} by Rust {version}", by_oldest, work, compiler, "check", "--all-targets", *features)
    steps.run(f"rust, cargo test --test {TESTS} by Rust {version}", by_oldest, work, compiler, "test", "--test", TESTS)
    if registry.has_crate(STREAMS_NEED):
        steps.run(f"rust-stream, cargo check by Rust {version}", streams_by_oldest, work, compiler)


# ---- what is refused

# Lines that a compiler refuses, and what it has to say of each.
REFUSED = (
    ("domain.subscriber().unwrap().blocking_receive().unwrap();", "make it by `create_shared`"),
    ("domain.publisher().unwrap().blocking_send_copy(1).unwrap();", "one of a domain that threads share"),
    ("Domain::<[u8]>::builder(7);", "made by `Domain::slice_builder`"),
    ("let _ = iox2_pubsub::WaitSet::new().attach_notification(&domain.subscriber().unwrap());", "ports of a domain that threads share"),
)


def ways_out(work):
    """An error of the compiler names the way out: what to call in place of what was called."""
    folder = work / "refused"
    (folder / "src").mkdir(parents=True, exist_ok=True)
    lines = "".join(f"    {line}\n" for line, _ in REFUSED)
    before = "use iox2_pubsub::Domain;\nfn main() {\n    let domain = Domain::<u64>::builder(7).create().unwrap();\n"
    (folder / "src/main.rs").write_text(f"{before}{lines}}}\n")
    dependency = f'iox2_pubsub = {{ path = "{OUT}/rust" }}'
    (folder / "Cargo.toml").write_text(f'[package]\nname = "refused"\nedition = "2021"\n[dependencies]\n{dependency}\n')
    places = {**os.environ, "CARGO_TARGET_DIR": str(work / "target_refused")}
    written = said("cargo", "check", "--offline", "--quiet", cwd=folder, env=places, fails=True)
    lacking = [words for _, words in REFUSED if words not in written]
    if lacking:
        raise Failed(f"it doesn't say {lacking}:\n{written[-3000:]}")
    return f"{len(REFUSED)} lines"


# ---- packages

def packed(work, crate, *words):
    """Packs a crate, which cargo then builds of its package alone, and returns where that lies."""
    environment = {"IOX2_PUBSUB_LIB_DIR": str(OUT / "lib"), "CARGO_TARGET_DIR": str(work / "target_packages")}
    cargo(work, "package", "--offline", "--allow-dirty", "--quiet", *words, crate=crate, **environment)
    name = re.search(r'^name = "(.*)"$', (OUT / crate / "Cargo.toml").read_text(), re.M)[1]
    return next((work / "target_packages/package").glob(f"{name}-[0-9]*.crate"))


def has_texts(package):
    """A package has what a reader of a registry wants."""
    with tarfile.open(package) as file:
        names = {member.name.split("/", 1)[1] for member in file if "/" in member.name}
    lacking = {"README.md", "LICENSE-APACHE", "LICENSE-MIT"} - names
    if lacking:
        raise Failed(f"{package.name} lacks {', '.join(sorted(lacking))}")


def build_packages(work):
    """`iox2_pubsub-sys` is built of its package, and `iox2_pubsub` of its own over that, which stands in place of a registry."""
    registry = work / "registry"
    shutil.rmtree(registry, ignore_errors=True)
    registry.mkdir()
    below = packed(work, "rust-sys")
    with tarfile.open(below) as file:
        file.extractall(registry)
    (registry / below.stem / ".cargo-checksum.json").write_text('{"files":{}}')
    source = ("--config", 'source.crates-io.replace-with="made"', "--config", f'source.made.directory="{registry}"')
    above = packed(work, "rust", *source)
    for package in (below, above):
        has_texts(package)
    return f"{below.name}, {above.name}"


def run_crates(steps, work):
    """All of these."""
    if not is_here("cargo"):
        return
    steps.run("rust, errors of the compiler", ways_out, work)
    steps.run("rust, cargo package", build_packages, work)
    run_oldest(steps, work)
