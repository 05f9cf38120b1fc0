# SPDX-License-Identifier: Apache-2.0 OR MIT
"""Counts what passes and what fails, and says it."""
import re
import subprocess
import sys
import threading
import time
from concurrent.futures import ThreadPoolExecutor

LAST_LINE = re.compile(r"^(\d+) passed, (\d+) failed$", re.M)


class Failed(Exception):
    """What a step has to say where it fails."""


def said(*words, fails=False, both=True, **more):
    """What a command writes, or a failure where its status isn't 0; with fails, where it is 0. With both, also to standard error."""
    words = [str(word) for word in words]
    errors = subprocess.STDOUT if both else None
    ran = subprocess.run(words, stdin=subprocess.DEVNULL, stdout=subprocess.PIPE, stderr=errors, text=True, errors="replace", **more)
    if (ran.returncode == 0) == fails:
        raise Failed(f"{' '.join(words)[:300]}\nended with {ran.returncode}:\n{ran.stdout[-4000:]}")
    return ran.stdout


def run_side_by_side(*lanes):
    """Calls functions, each with what it is given, at the same time; returns when all have. Each has a folder of its own."""
    with ThreadPoolExecutor(len(lanes)) as beside:
        for called in [beside.submit(*lane) for lane in lanes]:
            called.result()


class Steps:
    """A list of steps as it is run: each says one line. Threads may run steps at a time."""

    def __init__(self):
        self.passed = self.failed = 0
        self.skipped = []
        self.lock = threading.Lock()

    def add(self, passed, failed, text):
        """Counts what passed and what failed, and says it."""
        with self.lock:
            self.passed, self.failed = self.passed + passed, self.failed + failed
            print(text, end="", flush=True)

    def run(self, name, step, *given):
        """Runs a step, which returns what it has to say, or raises."""
        began = time.monotonic()
        try:
            last = (step(*given) or "").strip().rsplit("\n", 1)[-1]
        except (Failed, OSError, subprocess.SubprocessError) as failure:
            self.add(0, 1, f"FAILED  {name}\n{failure}\n")
            return
        self.add(1, 0, f"ok      {name}: {last} ({time.monotonic() - began:.0f} s)\n")

    def run_counted(self, name, *words, **more):
        """Runs a command whose last line is 'N passed, M failed', and takes over its counts."""
        print(f"--      {name}", flush=True)
        ran = subprocess.run([str(word) for word in words], stdin=subprocess.DEVNULL, stdout=subprocess.PIPE, stderr=subprocess.STDOUT,
                             text=True, errors="replace", **more)
        counts = LAST_LINE.findall(ran.stdout)
        passed, failed = map(int, counts[-1]) if counts else (0, 1)
        said_below = "".join(f"        {line}\n" for line in ran.stdout.splitlines())
        self.add(passed, failed if ran.returncode == 0 else max(failed, 1), said_below)

    def skip(self, what, lacking):
        """Says that something isn't run, since a program isn't there."""
        line = f"skipped {what}: {lacking} isn't here"
        self.skipped.append(line)
        print(line, flush=True)

    def finish(self):
        """Says once more what was skipped, and how many passed and failed. Returns the exit status."""
        if self.skipped:
            print(f"{len(self.skipped)} skipped, as said above", file=sys.stderr)
        print(f"{self.passed} passed, {self.failed} failed")
        return 1 if self.failed else 0
