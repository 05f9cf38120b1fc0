# SPDX-License-Identifier: Apache-2.0 OR MIT
"""Where things lie, how commands are run, and what has passed so far."""
import os
import shutil
import subprocess
import tempfile
from pathlib import Path

TOP = Path(__file__).resolve().parents[2]
BINDINGS = TOP / "bindings"
STRESS = BINDINGS / "stress"
SCRIPT = Path(os.environ.get("PUBSUB_SCRIPT", TOP / "crates/pubsub_script/out/pubsub_script"))
ARCHIVE = Path(os.environ.get("IOX2_PUBSUB_LIB_DIR", BINDINGS / "out/lib"))
WORK = Path(tempfile.mkdtemp(prefix="threads-"))
WARNINGS = ["-Wall", "-Wextra", "-Wpedantic", "-Wshadow", "-Werror"]


class Count:
    """What passed, what failed, and what isn't there."""

    passed = failed = 0
    missing = []


def step(name, run):
    """Runs one test, which returns what it has to say, or raises."""
    try:
        print(f"ok      {name}: {run()}", flush=True)
        Count.passed += 1
    except Exception as error:
        print(f"FAILED  {name}: {error}", flush=True)
        Count.failed += 1


# So long a command may take that has failed. One that hasn't ends sooner on each machine, so that no step fails by how fast it is.
PATIENCE = 3600


def sh(*command, seconds=PATIENCE, **more):
    """What a command writes. Raises where it fails or takes longer."""
    command = [str(word) for word in command]
    done = subprocess.run(command, stdout=subprocess.PIPE, stderr=subprocess.STDOUT, timeout=seconds, **more)
    said = done.stdout.decode(errors="replace")
    if done.returncode != 0:
        raise RuntimeError(f"{command[0]} ended with {done.returncode}: {said[-2000:]}")
    return said


def env(**more):
    """The environment, in which cargo finds the archive."""
    return {**os.environ, "IOX2_PUBSUB_LIB_DIR": str(ARCHIVE), **more}


def there(program):
    """Whether it is there; where not, that is said in the end."""
    if shutil.which(program):
        return True
    Count.missing.append(program)
    return False


def finish():
    """The last lines, and the exit status."""
    if Count.missing:
        print("not there, and so not run: " + ", ".join(sorted(set(Count.missing))))
    print(f"{Count.passed} passed, {Count.failed} failed")
    return Count.failed != 0
