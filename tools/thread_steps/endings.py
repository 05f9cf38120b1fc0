# SPDX-License-Identifier: Apache-2.0 OR MIT
"""How a program of many threads ends, whatever else the machine does: no clock says that it waits for good."""
import os
import resource
import signal
import subprocess
import time
from contextlib import contextmanager, suppress
from pathlib import Path

# So long all its threads have to sleep. The longest sleep in a test takes a fifth of a second.
STILL_SECONDS = 3
# Processor time; a file of tests takes some seconds of it. Some systems count what a thread waits for a processor too.
MOST_SECONDS = 1200


def words_of(stat):
    """What a file of the system says of a process or a thread, from its state on."""
    return stat.read_text().rsplit(")", 1)[1].split()


def family_of(process):
    """The process, its children, and theirs."""
    family, parents = [str(process)], {}
    for stat in Path("/proc").glob("[0-9]*/stat"):
        try:
            parents.setdefault(words_of(stat)[1], []).append(stat.parent.name)
        except OSError:  # it has ended
            continue
    for one in family:
        family += parents.get(one, ())
    return family


def threads_of(process):
    """The state of each thread of the process and of its children, and the processor time that it took. A thread that could run, but has
    no processor, doesn't sleep."""
    seen = {}
    for one in family_of(process):
        for stat in Path(f"/proc/{one}/task").glob("*/stat"):
            words = words_of(stat)
            seen[stat.parent.name] = (words[0], words[11], words[12])
    return seen


def sleeps(threads):
    """Whether all of them do. A child that has ended does nothing either, until somebody asks how."""
    return all(state in "SZ" for state, *_ in threads.values())


def stood_still(process):
    """Whether all its threads sleep for so long, and none does anything meanwhile."""
    before = threads_of(process.pid)
    until = time.monotonic() + STILL_SECONDS
    while sleeps(before) and time.monotonic() < until:
        time.sleep(0.1)
        if process.poll() is not None or threads_of(process.pid) != before:
            return False
    return sleeps(before)


@contextmanager
def begun(*command, seconds, **more):
    """The program in a group of its own, of which nothing is left at the end."""
    limit = lambda: resource.setrlimit(resource.RLIMIT_CPU, (seconds, seconds))
    quiet = {"stdin": subprocess.DEVNULL, "stdout": subprocess.DEVNULL, "stderr": subprocess.DEVNULL}
    with subprocess.Popen([str(word) for word in command], preexec_fn=limit, start_new_session=True, **quiet, **more) as process:
        try:
            yield process
        finally:
            with suppress(ProcessLookupError):
                os.killpg(process.pid, signal.SIGKILL)


def how_it_ends(*command, seconds=MOST_SECONDS, **more):
    """Whether the program passes, fails, waits for good, or takes more processor time."""
    with begun(*command, seconds=seconds, **more) as process:
        while process.poll() is None:
            time.sleep(0.05)
            try:
                is_still = stood_still(process)
            except OSError:  # a thread has ended
                continue
            if is_still:
                process.kill()
                return "waits for good"
    if process.returncode in (-signal.SIGXCPU, -signal.SIGKILL):
        return f"takes more than {seconds} s of processors"
    return "passes" if process.returncode == 0 else "fails"
