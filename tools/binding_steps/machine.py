# SPDX-License-Identifier: Apache-2.0 OR MIT
"""Where figures are measured: the processor, the load, the compilers."""
import os
import platform

from .places import is_here
from .steps import said


def processor():
    """The processor, as Linux calls it."""
    with open("/proc/cpuinfo") as lines:
        return next((line.split(":", 1)[1].strip() for line in lines if line.startswith("model name")), platform.machine())


def first_line(*words):
    """What a program says first, or that it isn't here."""
    return said(*words).splitlines()[0] if is_here(words[0]) else f"no {words[0]}"


def compilers():
    """Which ones build the programs, and over which C library they run."""
    return f"{first_line('gcc', '--version')}; {first_line('rustc', '--version')}; glibc {platform.libc_ver()[1]}"


def load():
    """How many programs want a processor, on average of the last minute."""
    return os.getloadavg()[0]
