# SPDX-License-Identifier: Apache-2.0 OR MIT
"""Each change of settings and answers in turn, which a test has to see."""
import os
import re
from collections import Counter
from itertools import count

from .exchange_changes import Places, with_edits
from .exchange_copy import Copy
from .exchange_table import ALL, SWITCHED, SWITCHES
from .steps import Failed
from .swapped_fields import make_archive


def run_exchanges(steps, work, archive, language, only=""):
    """Each change of a language in turn whose words have this pattern. Without one the tests have to pass."""
    copy, seen, failed = Copy(work / language, archive), Counter(), steps.failed
    steps.run(f"{language}, nothing exchanged", getattr(copy, language))
    if steps.failed > failed:
        return
    switched = []
    for places in ALL[language]:
        text = (copy.work / places.file).read_text()
        try:
            chosen = [change for change in places.changes(text) if re.search(only, f"{places.file}, {change.what}")]
        except Failed as failure:
            steps.add(0, 1, f"FAILED  {failure}\n")
            continue
        if places.is_switched and language in SWITCHES:
            switched.append((places, chosen))
            continue
        for change in chosen:
            (copy.work / places.file).write_text(change.made_in(text))
            note(steps, seen, places, change, copy.seen_by(language))
        (copy.work / places.file).write_text(text)
    if any(chosen for _, chosen in switched):
        run_switched(steps, seen, copy, language, switched)
    copy.close()
    refused = f", and a compiler refuses {seen['a compiler']}" if seen["a compiler"] else ""
    steps.add(0, 0, f"{language}: {seen['a test']} of {sum(seen.values())} changes make a test fail{refused}\n")


def note(steps, seen, places, change, by):
    """Counts who sees a change, and says it where nobody does."""
    seen[by] += 1
    is_seen = by != "nobody"
    steps.add(int(is_seen), int(not is_seen), "" if is_seen else f"FAILED  {places.file}, {change.what}, and no test fails\n")


def seen_as_declared(copy, places, change):
    """Who sees fields that are declared the other way round and that the binding doesn't use: the test of how structs lie in memory."""
    file = copy.work / places.file
    text = file.read_text()
    file.write_text(change.made_in(text))
    by = copy.seen_by("rust_layouts")
    file.write_text(text)
    return by


def run_switched(steps, seen, copy, language, switched):
    """The changes of which a program chooses one when it runs: built once."""
    switch, numbers = SWITCHES[language], count(1)
    numbered = [(places, [(next(numbers), change) for change in chosen]) for places, chosen in switched]
    swaps = [swap for places, changes in numbered if isinstance(places, Places) and places.is_of_archive
             for swap in places.swaps((copy.work / places.file).read_text(), changes)]
    if swaps:
        make_archive(copy.work, swaps, SWITCHED)
    for file in {switch.file, *(places.file for places, _ in numbered)}:
        text = (copy.work / file).read_text()
        edits = [edit for places, changes in numbered if places.file == file for edit in places.switched(text, switch, changes)]
        if file == switch.file:
            edits.append(switch.defined_in(text))
        (copy.work / file).write_text(with_edits(text, edits))
    os.environ.pop(SWITCHED, None)
    failed = steps.failed
    steps.run(f"{language}, no switch chosen", getattr(copy, language))
    if steps.failed > failed:
        return
    copy.is_built = True
    for places, changes in numbered:
        for number, change in changes:
            os.environ[SWITCHED] = str(number)
            by = copy.seen_by(language)
            if by == "nobody" and isinstance(places, Places) and places.struct:
                by = seen_as_declared(copy, places, change)
            note(steps, seen, places, change, by)
    os.environ.pop(SWITCHED)
