# SPDX-License-Identifier: Apache-2.0 OR MIT
"""The folder as others take it: CMake, pkg-config, installed, the page's programs, the crates of Rust, the gateway to DDS."""
import json
import os
import re
import shutil

from . import registry
from .installed import MINOR, run_installed
from .page_texts import PROGRAMS
from .places import BINDINGS, OUT, is_here
from .programs import ARCHIVE, GRIND, PAIRS, check_example
from .steps import Failed, said
from .targets import AARCH64, X86_64, stand_in

# A version that the folder isn't.
LATER = "{}.{}".format(MINOR.split(".")[0], int(MINOR.split(".")[1]) + 1)
READING = "21.5 °C, read by 1\n"
# The crate of others that the crate of streams needs.
STREAMS_NEED = "futures-core"


# ---- CMake and pkg-config

def moved(work):
    """The folder at another place."""
    to = work / "moved folder"
    if not to.exists():
        shutil.copytree(OUT, to)
    return to


def cmake_example(work, prefix, c, cpp, name):
    """The project of bindings/cmake/example, over the folder at this place, by these compilers."""
    build = work / name
    said("cmake", "-S", BINDINGS / "cmake/example", "-B", build, f"-DCMAKE_PREFIX_PATH={prefix}", f"-DCMAKE_C_COMPILER={c}", f"-DCMAKE_CXX_COMPILER={cpp}")
    said("cmake", "--build", build)
    return check_example(build / "thermometer_c", work=work) + ", " + check_example(build / "thermometer_cpp", work=work)


PROJECT = """cmake_minimum_required(VERSION 3.16)
project(one {languages})
find_package(iox2_pubsub {version} REQUIRED)
add_executable(one one.{extension})
target_link_libraries(one PRIVATE iox2_pubsub::iox2_pubsub)
"""


def project_of(work, languages, extension, version=MINOR, fails=False):
    """A project of one language that says no standard."""
    folder = work / f"project_{languages}_{version}"
    folder.mkdir(exist_ok=True)
    (folder / "CMakeLists.txt").write_text(PROJECT.format(languages=languages, version=version, extension=extension))
    (folder / f"one.{extension}").write_text(PROGRAMS["c" if extension == "c" else "cpp"].find()[1])
    words = ["cmake", "-S", folder, "-B", folder / "build", f"-DCMAKE_PREFIX_PATH={moved(work)}"]
    if extension == "cpp" and is_here("clang++"):
        words.append("-DCMAKE_CXX_COMPILER=clang++") # whose own standard is older than 17
    written = said(*words, fails=fails)
    if fails:
        return f"{version} is refused" if "version" in written else written
    said("cmake", "--build", folder / "build")
    return prints_reading(folder / "build/one")


def pkg_config(work, prefix=None, libdir="lib", name="by_pkg_config", package="iox2_pubsub"):
    """The page's program in C, compiled by what pkg-config says, and told where a shared library lies."""
    folder = (prefix or moved(work)) / libdir
    environment = {**os.environ, "PKG_CONFIG_PATH": str(folder / "pkgconfig")}
    flags = said("pkg-config", "--cflags", "--libs", package, both=False, env=environment)
    version = said("pkg-config", "--modversion", package, both=False, env=environment).strip()
    (work / "first.c").write_text(PROGRAMS["c"].find()[1])
    said("sh", "-c", f"gcc '{work}/first.c' {flags.strip()} -o '{work}/{name}'")
    return f"{version}, {prints_reading(work / name, env={**os.environ, 'LD_LIBRARY_PATH': str(folder)})}"


def board_here(work):
    """The project that has programs for boards, compiled for this machine."""
    build = work / "board_here"
    said("cmake", "-S", moved(work) / "cross", "-B", build, f"-DCMAKE_PREFIX_PATH={moved(work)}")
    said("cmake", "--build", build)
    return re.search(r"100% tests passed.*", said("ctest", "--test-dir", build))[0]


def run_packages(steps, work):
    """All of these."""
    if is_here("pkg-config"):
        steps.run("pkg-config", pkg_config, work)
    else:
        steps.skip("pkg-config", "pkg-config")
    if not is_here("cmake"):
        steps.skip("cmake", "cmake")
        return
    for c, cpp in (pair for pair in PAIRS if is_here(pair[0]) and is_here(pair[1])):
        steps.run(f"cmake, {c} and {cpp}", cmake_example, work, moved(work), c, cpp, f"cmake_{c}")
    steps.run("cmake, a project of C", project_of, work, "C", "c")
    steps.run("cmake, a project of C++", project_of, work, "CXX", "cpp")
    steps.run("cmake, a later version", project_of, work, "C", "c", LATER, True)
    steps.run("cmake, the project for boards on this machine", board_here, work)
    run_installed(steps, work)


# ---- the programs of pages

def prints_reading(*words, **more):
    """The program has to print its reading."""
    printed = said(*words, both=False, **more)
    if printed != READING:
        raise Failed(f"it printed {printed!r}")
    return "prints its reading"


def readme_program(work, language, *compiler):
    """One of them, compiled as the page says."""
    source, program = work / f"first.{language}", work / f"first_{language}"
    source.write_text(PROGRAMS[language].find()[1])
    said(*compiler, "-I", OUT / "include", source, ARCHIVE, "-o", program)
    return prints_reading(program)


def readme_rust(work):
    """The one in Rust, which is on the first page."""
    folder = work / "first_rust"
    (folder / "src").mkdir(parents=True, exist_ok=True)
    (folder / "src/main.rs").write_text(PROGRAMS["rust"].find()[1])
    (folder / "Cargo.toml").write_text(f'[package]\nname = "first"\nedition = "2021"\n[dependencies]\niox2_pubsub = {{ path = "{OUT}/rust" }}\n')
    words = ("cargo", "run", "--offline", "--quiet", "--manifest-path", folder / "Cargo.toml")
    return prints_reading(*words, env={**os.environ, "CARGO_TARGET_DIR": str(work / "target")})


def run_readme(steps, work):
    """All of these."""
    steps.run("first_message.c", readme_program, work, "c", "gcc")
    steps.run("first_message.cpp", readme_program, work, "cpp", "g++", "-std=c++17")
    if is_here("cargo"):
        steps.run("README.md, Rust", readme_rust, work)


# ---- the crates of Rust

def cargo(work, *words, crate="rust", **environment):
    """What cargo writes in the crate, with what it makes in $work/target."""
    more = {"CARGO_TARGET_DIR": str(work / "target"), **environment}
    return said("cargo", *words, cwd=OUT / crate, env={**os.environ, **more})


def cargo_test(work, *words, crate="rust"):
    """The crate's tests, and those in its comments."""
    results = re.findall(r"^test result: .* (\d+) passed; (\d+) failed", cargo(work, "test", "--offline", *words, crate=crate), re.M)
    return f"{sum(int(passed) for passed, _ in results)} passed, {sum(int(failed) for _, failed in results)} failed"


def other_version(work):
    """The test that wants an archive of another version: the linker takes the test's own function for the archive's."""
    places = {"CARGO_TARGET_DIR": str(work / "target_version"), "RUSTFLAGS": "-C link-arg=-Wl,--wrap=iox2ps_version"}
    written = cargo(work, "test", "--offline", "--test", "version", "--", "--ignored", **places)
    result = re.search(r"^test result.*", written, re.M)[0]
    if " 1 passed" not in result:
        raise Failed(written[-3000:])
    return result


def without_archive(work, *words, crate="rust"):
    """What needs no archive, where there is none."""
    (work / "empty").mkdir(exist_ok=True)
    places = {"IOX2_PUBSUB_LIB_DIR": str(work / "empty"), "CARGO_TARGET_DIR": str(work / "target_without")}
    cargo(work, *words, "--offline", "--quiet", crate=crate, RUSTFLAGS="-D warnings", RUSTDOCFLAGS="-D warnings", **places)
    return "without a warning"


def as_on_docs_rs(work, crate="rust", words=()):
    """The pages as docs.rs makes them, which has no archive: by what the crate says for it."""
    known = json.loads(said("cargo", "metadata", "--no-deps", "--offline", "--format-version", "1", both=False, cwd=OUT / crate))
    for_docs = known["packages"][0]["metadata"]["docs"]["rs"]
    features = ",".join(for_docs.get("features", ()))
    places = [word for target in for_docs["targets"] for word in ("--target", target)]
    return without_archive(work, "doc", "--no-deps", "--features", features, *places, *words, crate=crate)


def other_processor(work):
    """An archive for another processor is refused, with the target's name and what there is."""
    folder = work / "other processor"
    folder.mkdir()
    (folder / ARCHIVE.name).write_bytes(stand_in(AARCH64.machine))
    places = {"IOX2_PUBSUB_LIB_DIR": str(folder), "CARGO_TARGET_DIR": str(work / "target_other")}
    written = said("cargo", "check", "--offline", cwd=OUT / "rust-sys", env={**os.environ, **places}, fails=True)
    for words in (f"has no archive for {X86_64.triple}", f"{ARCHIVE.name} for Linux on {AARCH64.name}"):
        if words not in written:
            raise Failed(written)
    return f"no archive for {X86_64.triple}"


def other_byte_order(work):
    """The build script refuses the archive to a processor that has its bytes in the other order."""
    script, folder = work / "build script", work / "other order"
    folder.mkdir()
    (folder / ARCHIVE.name).write_bytes(stand_in(AARCH64.machine))
    of_cargo = {"CARGO_PKG_VERSION": "0", "CARGO_MANIFEST_DIR": str(work), "IOX2_PUBSUB_LIB_DIR": str(folder)}
    environment = {**os.environ, **of_cargo, "CARGO_CFG_TARGET_OS": "linux", "CARGO_CFG_TARGET_POINTER_WIDTH": "64", "CARGO_CFG_TARGET_ARCH": AARCH64.name}
    said("rustc", "--edition=2021", OUT / "rust-sys/build.rs", "-o", script, env=environment)
    said(script, env={**environment, "CARGO_CFG_TARGET_ENDIAN": "little", "TARGET": AARCH64.triple})
    other = AARCH64.triple.replace(AARCH64.name, f"{AARCH64.name}_be")
    written = said(script, env={**environment, "CARGO_CFG_TARGET_ENDIAN": "big", "TARGET": other}, fails=True)
    if f"has no archive for {other}" not in written:
        raise Failed(written)
    return f"no archive for {other}"


def builds_once(work):
    """A second build of the folder, as others have it, compiles nothing."""
    folder = shutil.copytree(OUT, work / "folder of crates", dirs_exist_ok=True)
    places = {**os.environ, "CARGO_TARGET_DIR": str(work / "target_once")}
    places.pop("IOX2_PUBSUB_LIB_DIR", None)
    words = ("cargo", "build", "--offline", "--verbose")
    said(*words, cwd=folder / "rust", env=places)
    again = said(*words, cwd=folder / "rust", env=places)
    fresh = re.findall(r"^ *Fresh (\S+)", again, re.M)
    if sorted(fresh) != ["iox2_pubsub", "iox2_pubsub-sys"]:
        raise Failed(again[-3000:])
    return "nothing is compiled"


def rust_under_valgrind(work, name):
    """A file of tests, as cargo has built it. The harness keeps some memory of its own until the end, so that only what is lost counts."""
    built = [file for file in (work / "target/debug/deps").glob(f"{name}-*") if os.access(file, os.X_OK) and not file.suffix]
    newest = max(built, key=lambda file: file.stat().st_mtime)
    lost = ("--show-leak-kinds=definite", "--errors-for-leak-kinds=definite")
    written = said(*GRIND, *lost, newest, "--test-threads=1")
    return re.search(r"^test result.*", written, re.M)[0]


def run_cargo(steps, work):
    """All of these."""
    if not is_here("cargo"):
        steps.skip("the crates of Rust", "cargo")
        return
    steps.run("rust, cargo test", cargo_test, work)
    steps.run("rust, a second cargo build", builds_once, work)
    steps.run("rust, an archive of another version", other_version, work)
    steps.run("rust, an archive for another processor", other_processor, work)
    steps.run("rust, a processor with another order of bytes", other_byte_order, work)
    steps.run("rust-sys, cargo test", lambda: cargo_test(work, crate="rust-sys"))
    steps.run("rust, cargo check without the archive", without_archive, work, "check", "--all-targets")
    if is_here("cargo-clippy"):
        steps.run("rust, cargo clippy without the archive", without_archive, work, "clippy", "--all-targets")
    for crate in ("rust", "rust-sys"):
        steps.run(f"{crate}, cargo doc as on docs.rs", as_on_docs_rs, work, crate)
    if is_here("valgrind"):
        for name in ("calls", "numbers"):
            steps.run(f"rust/tests/{name}.rs, valgrind", rust_under_valgrind, work, name)


def run_stream(steps, work):
    """The crate of streams, which is the only one that has a crate of others below it."""
    if not is_here("cargo") or not registry.has_crate(STREAMS_NEED):
        lacking = registry.package(STREAMS_NEED) if is_here("cargo") else "cargo"
        steps.skip("rust-stream, the crate of streams", lacking)
        return
    steps.run("rust-stream, cargo test", stream_test, work)
    steps.run("rust-stream, cargo doc as on docs.rs", as_on_docs_rs, work, "rust-stream", registry.words())
    for words in (("check", "--all-targets"), ("clippy", "--all-targets")):
        if words[0] != "clippy" or is_here("cargo-clippy"):
            steps.run(f"rust-stream, cargo {words[0]} without the archive", stream_without_archive, work, *words)


def stream_test(work):
    """Its tests, and those in its comments."""
    return cargo_test(work, *registry.words(), crate="rust-stream")


def stream_without_archive(work, *words):
    """What needs no archive, where there is none."""
    return without_archive(work, *words, *registry.words(), crate="rust-stream")


# ---- the gateway to DDS

def run_dds(steps):
    """Its own tests, but those under the sanitizers and valgrind."""
    tests = BINDINGS / "dds/tests/everything.py"
    if tests.exists():
        steps.run_counted("the gateway to DDS", tests, OUT, "plain")
