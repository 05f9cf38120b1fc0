#!/usr/bin/env python3
# SPDX-License-Identifier: Apache-2.0 OR MIT
"""Builds the gateway to DDS beside the library, and runs all its tests: everything.py BINDINGS_OUT [plain|checked].

BINDINGS_OUT is the folder that tools/bindings makes; the gateway is built into a copy of it, which is then moved. Each step is
a line; the last one is `N passed, M failed`. Where Cyclone DDS isn't there nothing is run, and a line says so. With `plain`
nothing is run under the sanitizers and valgrind, and with `checked` nothing else. Tests between processes wait for each other, and
not for times, so that they pass on a machine that does other work too."""
import os, re, shutil, subprocess, sys, tempfile, time

here = os.path.dirname(os.path.abspath(__file__))
source = os.path.dirname(here)
sys.path.insert(0, os.path.join(source, "../../tools"))
sys.dont_write_bytecode = True
from binding_steps.page_texts import GATEWAY_COMMANDS, GATEWAY_PROGRAM
out = os.path.abspath(sys.argv[1])
part = sys.argv[2] if len(sys.argv) > 2 else ""
work = tempfile.mkdtemp()
passed = failed = 0
loopback = ("<CycloneDDS><Domain Id='any'><General><Interfaces><NetworkInterface name='lo'/></Interfaces><AllowMulticast>false"
            "</AllowMulticast></General><Discovery><ParticipantIndex>auto</ParticipantIndex><Peers><Peer Address='127.0.0.1'/>"
            "</Peers><LeaseDuration>60s</LeaseDuration><SPDPInterval>2s</SPDPInterval></Discovery></Domain></CycloneDDS>")
sanitizers = "-fsanitize=address,undefined -fno-sanitize-recover=all -g -O1"
suppressions = "--suppressions=" + os.path.join(here, "cyclonedds.supp")
grind = "valgrind --quiet --leak-check=full --error-exitcode=9 --errors-for-leak-kinds=definite,indirect " + suppressions
# Tests that look at one thing each, with few messages.
few = ["small", "several", "large", "overflow", "both_ways", "late_joiner", "receiver_killed", "sender_killed", "typed_values",
       "bad_frames", "other_struct", "same_name_other_structure", "second_gateway", "many_domains", "gateways_come_and_go",
       "threads", "c_calls", "with_security", "leaves_full", "nobody_takes_it", "forked"]
ground = ["typed_values", "several", "bad_frames", "many_domains", "c_calls"]

# No test fails by how fast the machine is: so long nothing takes that goes on.
patience = 3600

def run(words, limit=patience, **more):
    done = subprocess.run(words, stdout=subprocess.PIPE, stderr=subprocess.STDOUT, text=True, timeout=limit,
                          env=dict(os.environ, CYCLONEDDS_URI=loopback), **more)
    if done.returncode != 0: raise AssertionError("%s\n%s" % (" ".join(words), done.stdout[-4000:]))
    return done.stdout

def step(name, what):
    global passed, failed
    begun = time.time()
    try: said = what()
    except Exception as wrong:
        failed += 1
        print("FAILED  dds: %s\n%s" % (name, wrong), flush=True)
        return False
    passed += 1
    print("ok      dds: %s: %s (%.0f s)" % (name, said, time.time() - begun), flush=True)
    return True

def build(name, prefix, *options):
    folder = os.path.join(work, name)
    run(["cmake", "-S", source, "-B", folder, "-DCMAKE_PREFIX_PATH=" + prefix] + list(options))
    run(["cmake", "--build", folder])
    return folder

def programs(name, *options):
    """Where the programs of the tests are, or nothing where they couldn't be built, which is a step that failed."""
    def what():
        build(name, os.path.join(work, "moved"), "-DIOX2PS_DDS_TESTS=ON", "-DIOX2PS_DDS_WERROR=ON", *options)
        return "as cmake says"
    return os.path.join(work, name) if step("build, " + name, what) else None

def flags(words): return ["-DCMAKE_BUILD_TYPE=None"] + ["-DCMAKE_%s_FLAGS=%s" % (language, words) for language in ("C", "CXX")]

def install():
    """Into a copy of the library's folder, which then moves."""
    copy, moved = os.path.join(work, "copy"), os.path.join(work, "moved")
    shutil.copytree(out, copy)
    folder = build("install", copy)
    run(["cmake", "--install", folder, "--prefix", copy])
    os.rename(copy, moved)
    return "libiox2_pubsub_dds.a of %d KB" % (os.path.getsize(os.path.join(moved, "lib/libiox2_pubsub_dds.a")) // 1000)

def headers_alone():
    flags = ["-Wall", "-Wextra", "-Wpedantic", "-Wshadow", "-Werror", "-fsyntax-only", "-I", os.path.join(out, "include")]
    include = os.path.join(source, "include")
    for standard in ("c11", "c17"): run(["gcc", "-x", "c", "-std=" + standard] + flags + [os.path.join(include, "iox2_pubsub_dds.h")])
    for standard in ("c++17", "c++20"):
        for name in ("iox2_pubsub_dds.h", "iox2_pubsub_dds.hpp"):
            run(["g++", "-x", "c++", "-std=" + standard] + flags + [os.path.join(include, name)])
    return "as C11, C17, C++17 and C++20"

def pkg_config():
    """A program of C++ by what pkg-config says of the gateway, which has a path for the library beside it."""
    moved, program = os.path.join(work, "moved"), os.path.join(work, "by_pkg_config")
    path = os.pathsep.join(filter(None, [os.path.join(moved, "lib/pkgconfig"), os.environ.get("PKG_CONFIG_PATH")]))
    words = ["pkg-config", "--cflags", "--libs", "iox2_pubsub_dds"]
    flags = subprocess.run(words, stdout=subprocess.PIPE, text=True, check=True, env=dict(os.environ, PKG_CONFIG_PATH=path)).stdout
    run(["g++", "-std=c++17", os.path.join(source, "example/gateway.cpp"), "-o", program] + flags.split())
    version = subprocess.run(["pkg-config", "--modversion", "iox2_pubsub_dds", "iox2_pubsub"], stdout=subprocess.PIPE, text=True,
                             check=True, env=dict(os.environ, PKG_CONFIG_PATH=path)).stdout.split()
    assert len(set(version)) == 1, version
    return version[0] + ", " + two(program, "from elsewhere")

def two(program, words):
    """Two processes of a program that ends by itself after some seconds, each of which has to print these words of the other. Where they
    haven't met by then, two others try."""
    for _ in range(30):
        both = [subprocess.Popen([program], stdout=subprocess.PIPE, text=True, env=dict(os.environ, CYCLONEDDS_URI=loopback)) for _ in "ab"]
        try: said = [one.communicate(timeout=patience)[0] for one in both]
        finally:
            for one in both: one.kill()
        if all(words in text for text in said): return "each of two processes prints the other's readings"
    raise AssertionError("\n".join(text[:500] for text in said))

def example():
    moved, folder = os.path.join(work, "moved"), os.path.join(work, "example")
    run(["cmake", "-S", os.path.join(source, "example"), "-B", folder, "-DCMAKE_PREFIX_PATH=" + moved])
    run(["cmake", "--build", folder])
    return two(os.path.join(folder, "gateway"), "from elsewhere")

def page():
    """The program of the page, and its own lines: in a folder with links, where bindings/out is a copy."""
    program, lines, tree = GATEWAY_PROGRAM.find().group(1), GATEWAY_COMMANDS.find(), os.path.join(work, "page")
    os.makedirs(tree + "/bindings/dds")
    os.symlink(os.path.join(source, "../include"), tree + "/bindings/include")
    shutil.copytree(out, tree + "/bindings/out")
    for name in os.listdir(source):
        if name != "build": os.symlink(os.path.join(source, name), os.path.join(tree, "bindings/dds", name))
    with open(tree + "/first_dds.cpp", "w") as file: file.write(program)
    run(["bash", "-e", "-c", (lines.group(1) + lines.group(2)).replace("/tmp/dds_build", tree + "/build")], cwd=tree)
    return two(tree + "/first_dds", "from another process")

def rust(plain):
    """The crate's feature, with a program in C++ on the other side too."""
    environment = dict(os.environ, IOX2_PUBSUB_LIB_DIR=os.path.join(work, "moved", "lib"), CARGO_TARGET_DIR=os.path.join(work, "target"),
                       IOX2PS_DDS_CASES=os.path.join(plain, "cases"), CYCLONEDDS_URI=loopback)
    words = ["cargo", "test", "-j1", "--offline", "--quiet", "--features", "dds", "--test", "dds"]
    done = subprocess.run(words, cwd=os.path.join(source, "..", "rust"), stdout=subprocess.PIPE, stderr=subprocess.STDOUT, text=True,
                          timeout=patience, env=environment)
    assert done.returncode == 0, done.stdout[-4000:]
    return re.search(r"test result: (.*?);", done.stdout).group(1)

def tests(folder, names=(), **environment):
    def what():
        done = subprocess.run([sys.executable, os.path.join(here, "run.py"), folder] + list(names), stdout=subprocess.PIPE, text=True,
                              env=dict(os.environ, **environment), timeout=patience)
        print("".join("  " + line + "\n" for line in done.stdout.splitlines()[:-1]), end="", flush=True)
        assert done.returncode == 0, done.stdout.splitlines()[-1]
        return done.stdout.splitlines()[-1]
    return what

def plain_steps(plain):
    step("headers alone", headers_alone)
    step("frames", lambda: run([os.path.join(plain, "frames")]).strip())
    step("example", example)
    if shutil.which("pkg-config"): step("pkg-config", pkg_config)
    else: print("not there, and so not run: pkg-config")
    step("the program of bindings/DDS.md", page)
    step("between processes", tests(plain))
    if shutil.which("cargo"): step("rust", lambda: rust(plain))
    else: print("not there, and so not run: cargo")

def checked_steps(plain):
    sane = programs("sanitized", *flags(sanitizers))
    if sane:
        step("frames, sanitizers", lambda: run([os.path.join(sane, "frames")]).strip())
        step("between processes, sanitizers", tests(sane, few, FEW="1", SLOWER="3"))
    raced = programs("raced", *flags("-fsanitize=thread -g -O1"))
    races = "exitcode=66 suppressions=" + os.path.join(here, "threads.supp")
    few_threads = ["threads", "c_calls", "woken", "second_gateway"]
    if raced: step("threads, thread sanitizer", tests(raced, few_threads, FEW="1", SLOWER="3", TSAN_OPTIONS=races))
    if shutil.which("valgrind"): step("between processes, valgrind", tests(plain, ground, FEW="1", SLOWER="4", WRAP=grind))
    else: print("not there, and so not run: valgrind")

def all_steps():
    if not step("build, install and move", install): return
    plain = programs("plain")
    if not plain: return
    if part != "checked": plain_steps(plain)
    if part != "plain": checked_steps(plain)

if __name__ == "__main__":
    if not shutil.which("idlc") or not shutil.which("cmake") or not (os.path.exists("/usr/include/dds/dds.h") or os.environ.get("CycloneDDS_DIR")):
        print("not there, and so not run: Cyclone DDS (cyclonedds-dev, cyclonedds-tools) or cmake")
    else:
        try: all_steps()
        finally: shutil.rmtree(work, ignore_errors=True)
    print("%d passed, %d failed" % (passed, failed))
    sys.exit(failed > 0)
