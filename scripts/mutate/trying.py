"""Tries the wrong changes of scripts/mutate/edits/ that tests must refuse, for the scripts of scripts/test/: in a copy of what a script tests a
change is made, the copy is built, and the test that the change names has to fail there."""

import concurrent.futures
import os
import tempfile

from common import Failed
import changes


def together(room, edits, built, failing):
    """Makes all of some wrong changes in a copy. `built` says what is wrong with building it, or None; `failing` says which tests fail there, of
    those that it is given. Each change as a name, and why no test refuses it, or None."""
    found = []
    try:
        why = changes.apply(room, *edits) or built(room)
        found = found if why else failing(room, [test for it in edits for test in it.fails])
    except Failed as failed:
        why = str(failed)
    for edit in edits:
        passes = [test for test in edit.fails if test not in found]
        if not passes:
            print(f"{edit.path}: refused, as it must be", flush=True)
        yield edit.path, (why or f"{passes[0]} passes") if passes else None


def each(area, copied, built, failing, at_once=os.cpu_count()):
    """Tries the wrong changes of a folder side by side, each in a copy of its own, which `copied` makes in a folder."""

    def alone(edit):
        with tempfile.TemporaryDirectory(prefix="wrong-") as room:
            copied(room)
            return [*together(room, [edit], built, failing)]

    with concurrent.futures.ThreadPoolExecutor(at_once) as pool:
        for found in pool.map(alone, changes.edits_in(area)):
            yield from found


def by_pytest(run):
    """What says which tests fail, by a run of pytest for each: they fail, or Python crashes."""

    def failing(room, tests):
        ends = {test: run(room, test).returncode for test in tests}
        for test, status in ends.items():
            # It is not there, cannot be run, or takes too long.
            if 1 < status <= 128:
                raise Failed(f"{test}: status {status}")
        return [test for test, status in ends.items() if status]

    return failing
