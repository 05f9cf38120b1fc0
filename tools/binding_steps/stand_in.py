# SPDX-License-Identifier: Apache-2.0 OR MIT
"""The crates of Rust over a model of the archive in Rust, which Miri can run: by Miri where that is there, and else by tests alone."""
import os
import re
import subprocess

from .headers import same_functions
from .packages import cargo
from .places import BINDINGS, OUT, is_here
from .programs import WARNINGS
from .steps import Failed, said

# The tests that ask for no recording, warning or growth, which the model hasn't, and of these the ones that ask for texts or have memory
# refused.
TESTS = ("bounds", "calls", "capacity", "channels", "events", "fork", "futures", "hostile", "in_place", "latched", "locks", "numbers",
         "panics", "reader_writer", "stops", "threads", "wait_set", "waits", "wakes")
NOT_OVER_IT = ("each_code_has_a_text_that_no_other_has", "errors_have_texts_and_causes", "a_connection_has_channel_0_alone",
               "extreme_settings_are_refused_or_work", "an_update_that_fails_refuses_no_subscriber")
# Those in which Miri has something to see that no other test shows: bytes that are used too long, and threads that meet in them. It
# has no fork, no descriptors of Linux and little time.
BY_MIRI = ("bounds", "capacity", "channels", "futures", "in_place", "panics", "stops")
SEEDS = (1, 2, 3)


def stood_in(work):
    """The environment in which the crates are built over the model."""
    return {"IOX2_PUBSUB_STAND_IN": "1", "CARGO_TARGET_DIR": str(work / "target_stand_in")}


def model(work):
    """The model as an archive of C."""
    cargo(work, "rustc", "--offline", "--quiet", "--release", "--lib", "--crate-type", "staticlib", crate="rust-sys", **stood_in(work))
    return work / "target_stand_in/release/libiox2_pubsub_sys.a"


def has_all_functions(work):
    """It has each function that the header declares, and no other."""
    return same_functions(model(work))


def random_channels(work):
    """c/random_channels.c, which holds the archive to a model of its own, holds this one to it too."""
    program = work / "random_channels_stand_in"
    words = ("gcc", "-std=c11", *WARNINGS, "-O1", "-I", OUT / "include", BINDINGS / "c/random_channels.c")
    said(*words, model(work), "-pthread", "-ldl", "-lm", "-o", program)
    return "\n".join(said(program, seed, 20000) for seed in SEEDS)


def passed(written):
    """How many tests passed, none of which failed."""
    results = re.findall(r"^test result: .* (\d+) passed; (\d+) failed", written, re.M)
    if not results or any(failed != "0" for _, failed in results):
        raise Failed(written[-3000:])
    return f"{sum(int(count) for count, _ in results)} passed"


def chosen(names):
    """The words that choose these files of tests."""
    return [word for name in names for word in ("--test", name)]


def by_tests(work):
    """The tests of the crate."""
    skipped = [word for name in NOT_OVER_IT for word in ("--skip", name)]
    return passed(cargo(work, "test", "--offline", *chosen(TESTS), "--", *skipped, **stood_in(work)))


def has_miri():
    """Whether cargo has it, of the nightly toolchain."""
    asked = subprocess.run(("cargo", "+nightly", "miri", "--version"), capture_output=True, check=False)
    return asked.returncode == 0


def by_miri(work):
    """The tests that Miri can run."""
    flags = {"MIRIFLAGS": "-Zmiri-disable-isolation", "CARGO_TARGET_DIR": str(work / "target_miri")}
    return passed(said("cargo", "+nightly", "miri", "test", "--offline", *chosen(BY_MIRI), cwd=OUT / "rust", env={**os.environ, **flags}))


def run_stand_in(steps, work):
    """All of these."""
    if not is_here("cargo"):
        return
    steps.run("rust-sys, the model's functions are the header's", has_all_functions, work)
    steps.run("rust-sys, the model in place of the archive, c/random_channels.c", random_channels, work)
    steps.run("rust, cargo test over the model", by_tests, work)
    if has_miri():
        steps.run("rust, cargo miri test", by_miri, work)
    else:
        steps.skip("rust by Miri", "cargo +nightly miri")
