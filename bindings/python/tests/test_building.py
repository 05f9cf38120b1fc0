# SPDX-License-Identifier: Apache-2.0 OR MIT
"""Where setup.py finds archive and headers: in the folder that is named, in the release that it lies in, or in the clone's bindings/out."""
import runpy
import shutil
from pathlib import Path

import pytest

setuptools = pytest.importorskip("setuptools")
SETUP = Path(__file__).parents[1] / "setup.py"
ARCHIVE, PROCESSES, HEADER = "lib/libiox2_pubsub.a", "lib/libiox2_pubsub_processes.a", "include/iox2_pubsub_processes.h"
RELEASE, CLONE = "bindings", "bindings/out"  # beside bindings/python


@pytest.fixture
def found(tmp_path, monkeypatch):
    """Runs setup.py in a folder with these files, and builds nothing: the archive and the headers that it takes, and what it defines."""
    monkeypatch.setattr(setuptools, "setup", lambda **_: None)
    monkeypatch.delenv("IOX2_PUBSUB_DIR", raising=False)

    def run(*files, named=None):
        for file in files:
            (tmp_path / file).parent.mkdir(parents=True, exist_ok=True)
            (tmp_path / file).touch()
        if named is not None:
            monkeypatch.setenv("IOX2_PUBSUB_DIR", named and str(tmp_path / named))
        (tmp_path / "bindings/python").mkdir(parents=True, exist_ok=True)
        core = runpy.run_path(shutil.copy(SETUP, tmp_path / "bindings/python"))["CORE"]
        return [str(Path(one).relative_to(tmp_path)) for one in (*core.extra_objects, *core.include_dirs)], dict(core.define_macros)

    return run


@pytest.mark.parametrize(
    "folders, named, first",
    [
        ([RELEASE], None, RELEASE),
        ([CLONE], None, CLONE),
        ([RELEASE, CLONE], None, RELEASE),
        ([RELEASE, CLONE], "", RELEASE),
        ([RELEASE, CLONE, "elsewhere"], "elsewhere", "elsewhere"),
    ],
)
def test_the_first_folder_with_an_archive_is_taken(found, folders, named, first):
    assert found(*(f"{folder}/{ARCHIVE}" for folder in folders), named=named)[0] == [f"{first}/{ARCHIVE}", f"{first}/include"]


@pytest.mark.parametrize("files, has_processes", [([PROCESSES, HEADER], True), ([PROCESSES], False), ([HEADER], False)])
def test_processes_share_domains_where_the_folder_has_their_library_and_header(found, files, has_processes):
    (archive, _), defined = found(*(f"{CLONE}/{file}" for file in (ARCHIVE, *files)))
    assert archive == f"{CLONE}/{PROCESSES if has_processes else ARCHIVE}" and ("IOX2PS_HAS_PROCESSES" in defined) == has_processes


@pytest.mark.parametrize("file, named, where", [(PROCESSES, None, "here"), (HEADER, "", "here"), (ARCHIVE, "elsewhere", "in .*/elsewhere")])
def test_a_folder_without_an_archive_is_refused(found, file, named, where):
    with pytest.raises(SystemExit, match=f"{ARCHIVE} isn't {where}: IOX2_PUBSUB_DIR names the folder of a release, or a clone's bindings/out"):
        found(f"{CLONE}/{file}", named=named)
