# SPDX-License-Identifier: Apache-2.0 OR MIT
"""What tests are given. They import helpers.py, which lies beside them."""
import itertools
import os
import subprocess
import sys
from pathlib import Path

import pytest

sys.path.insert(0, str(Path(__file__).parent))
names = itertools.count()


@pytest.fixture
def name():
    """That of a domain which no other test has. No file of it is left, also by processes that were killed."""
    name = f"test_python/{next(names)}.{os.getpid()}"
    yield name
    for file in Path("/dev/shm").glob(f"iox2ps.{name.replace('/', '%2f')}.*"):
        file.unlink(missing_ok=True)


@pytest.fixture
def start():
    """Starts other processes, which are killed at the end."""
    started = []

    def start(role, name):
        words = (sys.executable, Path(__file__).with_name("other_process.py"), role, name)
        started.append(subprocess.Popen(words, stdin=subprocess.PIPE, stdout=subprocess.PIPE, text=True, bufsize=1))
        return started[-1]

    yield start
    for process in started:
        process.kill()
        process.communicate()
