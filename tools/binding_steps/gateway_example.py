# SPDX-License-Identifier: Apache-2.0 OR MIT
"""The example of the gateway: a sensor and a display, in any two languages, that meet by DDS over the addresses of this machine alone."""
import itertools
import os
import shutil
import subprocess
from contextlib import contextmanager
from pathlib import Path

from .places import BINDINGS, EXAMPLES, OUT, is_here
from .programs import ARCHIVE, compile_program
from .steps import Failed, said

IDEA = EXAMPLES / "gateway"
PROGRAMS = ("sensor", "display")
HEADER = Path("/usr/include/dds/dds.h")
ENDINGS = {"C": ("gcc", "c", "c11"), "C++": ("g++", "cpp", "c++17")}
# A program ends by itself sooner, whatever else the machine does.
MOST_SECONDS = 3600
# Each says often that it is there, so that none is given up for dead which gets no turn for a while.
LOOPBACK = (
    "<CycloneDDS><Domain Id='any'><General><Interfaces><NetworkInterface name='lo'/></Interfaces><AllowMulticast>false</AllowMulticast></General>"
    "<Discovery><ParticipantIndex>auto</ParticipantIndex><Ports><Base>{}</Base></Ports><Peers><Peer Address='127.0.0.1'/></Peers>"
    "<LeaseDuration>300s</LeaseDuration><SPDPInterval>1s</SPDPInterval></Discovery></Domain></CycloneDDS>"
)
runs = itertools.count()


def lacking():
    """What isn't here of what the gateway needs, or None."""
    absent = [program for program in ("cmake", "idlc") if not is_here(program)]
    if not HEADER.exists() and "CycloneDDS_DIR" not in os.environ:
        absent.append("Cyclone DDS (Debian's cyclonedds-dev)")
    return ", ".join(absent) or None


def build(work):
    """The gateway's archive, beside the other one."""
    made, archives = work / "gateway", work / "gateway_archives"
    said("cmake", "-S", BINDINGS / "dds", "-B", made, f"-DCMAKE_PREFIX_PATH={OUT}")
    said("cmake", "--build", made)
    archives.mkdir()
    for archive in (ARCHIVE, made / "libiox2_pubsub_dds.a"):
        shutil.copyfile(archive, archives / archive.name)
    return archives


def compiled(work, archives, language):
    """Both programs in C or C++."""
    compiler, ending, standard = ENDINGS[language]
    linked = (archives / "libiox2_pubsub_dds.a", "-lddsc", "-lstdc++")
    return [
        compile_program(compiler, IDEA / f"{name}.{ending}", standard, work / f"{name}_{ending}", "-O1", "-I", BINDINGS / "dds/include", objects=linked)
        for name in PROGRAMS
    ]


def in_rust(work, archives):
    """Both in Rust."""
    target = work / "target_gateway"
    places = {**os.environ, "CARGO_TARGET_DIR": str(target), "IOX2_PUBSUB_LIB_DIR": str(archives)}
    said("cargo", "build", "--offline", "--quiet", "--features", "dds", *(f"--bin={name}" for name in PROGRAMS), cwd=OUT / "examples", env=places)
    return [target / "debug" / name for name in PROGRAMS]


@contextmanager
def started(program, topic, printed, places):
    """A program, which is ended where it hasn't ended itself."""
    # No pipe for what it prints: a full one would stop it.
    with printed.open("w") as to, subprocess.Popen([program, topic], stdin=subprocess.DEVNULL, stdout=to, env=places) as process:
        try:
            yield process
        finally:
            process.kill()


def meet(work, *pair):
    """Each prints its part: the display what it reads, and the sensor what that has answered. Each begins in one of two runs."""
    number = next(runs)
    # A port of its own, so that tests of two runs at a time don't meet.
    places = {**os.environ, "CYCLONEDDS_URI": LOOPBACK.format(10000 + 100 * (os.getpid() % 200))}
    printed = [work / f"{name}_{number}.txt" for name in PROGRAMS]
    words = [(program, f"test/gateway/{os.getpid()}/{number}", to, places) for program, to in zip(pair, printed)]
    first, second = words if number % 2 else words[::-1]
    with started(*first) as one, started(*second) as other:
        sensor, display = (one, other) if number % 2 else (other, one)
        is_well = display.wait(MOST_SECONDS) == 0 and sensor.wait(MOST_SECONDS) == 0
    shown = "".join(to.read_text() for to in reversed(printed))
    if not is_well or shown != (IDEA / "output.txt").read_text():
        raise Failed(f"they ended with {sensor.returncode} and {display.returncode}, and printed {shown!r}")
    return "as examples/gateway/output.txt"


def run_gateway(steps, work):
    """Every language's sensor with every language's display."""
    if lack := lacking():
        steps.skip("gateway", lack)
        return
    archives, pairs = [], {}
    steps.run("the gateway is built", lambda: str(archives.append(build(work)) or archives[0].name))
    if not archives:
        return
    for language, (compiler, *_) in ENDINGS.items():
        if is_here(compiler):
            steps.run(f"gateway in {language} is compiled", lambda name=language: pairs.update({name: compiled(work, archives[0], name)}))
        else:
            steps.skip(f"gateway in {language}", compiler)
    if is_here("cargo"):
        steps.run("gateway in Rust is compiled", lambda: pairs.update(Rust=in_rust(work, archives[0])))
    else:
        steps.skip("gateway in Rust", "cargo")
    for (sends, (sensor, _)), (reads, (_, display)) in itertools.product(pairs.items(), repeat=2):
        steps.run(f"gateway, {sends} to {reads}", meet, work, sensor, display)
