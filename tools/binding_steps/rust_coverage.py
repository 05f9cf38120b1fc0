# SPDX-License-Identifier: Apache-2.0 OR MIT
"""Counts which regions of the Rust crate its tests run, and which lines of its unsafe code, by LLVM's counters."""
import json
import os
import platform
import re
from pathlib import Path

from .crates import answered, compiler_of, oldest
from .places import OUT
from .steps import Failed, said

# Where Debian has the tools of a version of LLVM, and what its compiler links to programs that count.
RUNTIME = "/usr/lib/llvm-{0}/lib/clang/*/lib/linux/libclang_rt.profile-{1}.a"


def tools(compiler):
    """The tools of the compiler's own version of LLVM, and what is linked; none where they aren't here."""
    major = re.search(r"^LLVM version: (\d+)", answered(compiler, "--version", "--verbose"), re.M)[1]
    found = [f"/usr/bin/llvm-profdata-{major}", f"/usr/bin/llvm-cov-{major}"]
    found += map(str, Path("/").glob(RUNTIME.format(major, platform.machine())[1:]))
    return found if len(found) == 3 and all(map(os.path.exists, found)) else None


def built(compiler, runtime, work):
    """The tests as programs that count."""
    flags = f"-C instrument-coverage -Z no-profiler-runtime -C link-arg={runtime} -C link-arg=-lc"
    # A stable compiler takes flags that begin with Z only so.
    places = {"RUSTC": compiler, "RUSTC_BOOTSTRAP": "1", "RUSTFLAGS": flags, "CARGO_TARGET_DIR": str(work / "target_counted")}
    beside = Path(compiler).with_name("cargo")
    words = (str(beside) if beside.exists() else "cargo", "test", "--no-run", "--offline", "--quiet", "--message-format=json")
    lines = said(*words, both=False, cwd=OUT / "rust", env={**os.environ, **places}).splitlines()
    made = [json.loads(line) for line in lines if line.startswith("{")]
    return [one["executable"] for one in made if one.get("executable") and one["profile"]["test"]]


def counts_of_lines(segments):
    """How often each line was run, of those that have code."""
    found, count, has_count, line = {}, 0, False, 0
    for number, _, next_count, next_has, is_entry, is_gap in segments:
        if has_count:
            for between in range(line + 1, number + 1):
                found[between] = max(found.get(between, 0), count)
        if next_has and is_entry and not is_gap:
            found[number] = max(found.get(number, 0), next_count)
        count, has_count, line = next_count, next_has and not is_gap, number
    return found


def unsafe_lines(text):
    """The lines of unsafe blocks, functions and impls."""
    for match in re.finditer(r"\bunsafe\b[^;{}]*\{", text):
        depth, at = 1, match.end()
        while depth and at < len(text):
            depth += {"{": 1, "}": -1}.get(text[at], 0)
            at += 1
        first = text.count("\n", 0, match.start()) + 1
        yield from range(first, text.count("\n", 0, at) + 2)


def counted(work, compiler, profdata, cov, runtime):
    """What LLVM says of each file of the crate, when all tests were run."""
    programs, profiles = built(compiler, runtime, work), work / "profiles"
    profiles.mkdir()
    for program in programs:
        said(program, cwd=OUT / "rust", env={**os.environ, "LLVM_PROFILE_FILE": str(profiles / "%p-%m.profraw")})
    raw = sorted(profiles.glob("*.profraw"))
    if not raw:
        raise Failed("the tests of Rust left no counts")
    said(profdata, "merge", *raw, "-o", work / "counts")
    objects = [word for program in programs[1:] for word in ("-object", program)]
    text = said(cov, "export", "-format=text", f"-instr-profile={work / 'counts'}", programs[0], *objects, both=False)
    source = OUT / "rust/src"
    return [file for file in json.loads(text)["data"][0]["files"] if Path(file["filename"]).is_relative_to(source)]


def run_coverage(work):
    """A row for each file, and their sum."""
    compiler = compiler_of(oldest())
    found = tools(compiler) if compiler else None
    if not found:
        print(f"skipped the Rust crate: Rust {oldest()}, or the tools of its version of LLVM aren't here (Debian's rustc, llvm and clang)")
        return
    print("\n| Rust | Regions run | Lines of unsafe code run | Those that aren't |")
    print("|---|---|---|---|")
    sums = [0, 0, 0, 0]
    for file in sorted(counted(work, compiler, *found), key=lambda one: one["filename"]):
        lines, path = counts_of_lines(file["segments"]), Path(file["filename"])
        ours = sorted(set(unsafe_lines(path.read_text())) & lines.keys())
        missed = [line for line in ours if not lines[line]]
        regions = file["summary"]["regions"]
        parts = (regions["covered"], regions["count"], len(ours) - len(missed), len(ours))
        sums = [one + other for one, other in zip(sums, parts)]
        print(f"| `{path.name}` | {parts[0]} of {parts[1]} | {parts[2]} of {parts[3]} | {', '.join(map(str, missed))} |")
    print(f"| all | {sums[0]} of {sums[1]} | {sums[2]} of {sums[3]} | |")
