#!/usr/bin/env python3
"""Tries the wrong bodies and other edits of scripts/mutate/edits/: each must leave the functions that it names unproved, at the goals that
it names, or the crate not compiling. scripts/mutate/changes.py has their form, scripts/mutate/record.py says which are tried.

A check takes up to 34 edits that change different functions. No function may be refused but those that an edit names. If a function waits for
the proof of a callee that another edit changed, its edit is tried again later. If a check ends without a verdict, such as for want of memory, its
edits are tried again, fewer at once. What a caller does with less from the crate below is tried in the caller's crate: a new function calls
the one below, and has its contract without a clause. If all edits of a crate are tried, the crate is proved first, and each check begins with
what that kept. The libraries below are those of out/proved/, or are proved first.

`unproved.py --all` tries all edits. `unproved.py WORD ..` tries the edits alone that are named, that break a claim such as sets/1, or that are in a
folder of scripts/mutate/edits/, such as a crate.
"""
import collections
import concurrent.futures
import contextlib
import functools
import os
import re
import shutil
import sys
import tempfile
import threading
import time

sys.path.insert(1, f"{sys.path[0]}/..")
from common import ROOT, called, ended, run, source, words
import changes
import claims
import proving
import record

COPIES = min(4, len(os.sched_getaffinity(0)))
# The memory that has to be free for one more check beside others, in bytes, and the seconds in which a check takes its own.
EACH, BEGINS = 3 << 30, 10
# How many edits a check takes at most: the more it takes, the more memory it needs, and the longer the others wait for it at the end.
MOST = 34
# In the folder of a crate in a copy, what the check of a whole crate begins with.
KEPT = "out/kept"


def changes_below(crate, edits):
    """Whether the edits change a crate below theirs."""
    return any(not path.startswith(f"crates/{crate}/") for edit in edits for path, _, _ in edit.changes)


def check(room, crate, edits, whole):
    """Checks a crate with these edits in a copy. Returns the status, and what is said. If it must not compile, no proof is looked at, and `rt`
    also reads the sources of the crates below."""
    functions = sorted({function for edit in edits for function in edit.unproved}) or [""]
    only = [word for it in functions for word in ("--only", it)]
    if whole and edits[0].unproved:
        shutil.rmtree(f"{room}/crates/{crate}/{KEPT}", ignore_errors=True)
        shutil.copytree(proving.kept(crate), f"{room}/crates/{crate}/{KEPT}", copy_function=proving.linked)
        only = ["--incremental", KEPT]
    elif any(re.search(r"(?:^|::)[A-Z]\w*$", it) for it in functions):
        # An impl, of which `--only` says nothing.
        only = []
    command = [f"{proving.kit()}/bin/rattle", "check", *proving.words_of(crate), *proving.proof(*only, jobs=1)]
    ran = run(*(["rt", "check", "--only", ""] if changes_below(crate, edits) else command), folder=f"{room}/crates/{crate}")
    return ran.returncode, ran.stdout


def unproved_in(crate, said):
    """By function or impl of the crate that the check did not prove, what the check says of it. Notes are above the line of their function, and an
    error may stand in a file of the same path in a crate below."""
    found, before, at, named = {}, [], None, set()
    for line in said.split("\n"):
        error = re.match(r"\./proofs/(\S+)/\w+\.antt:\d+:\d+: ", line)
        verdict = re.match(rf"(?:fn|impl) {crate}::(\S+): (proved)?", line)
        if error:
            at = error[1].replace("/", "::")
        elif re.match(r"note: src/", line):
            at = None
            before.append(line)
        elif verdict:
            at = None
            if not verdict[2]:
                named.add(verdict[1])
                found.setdefault(verdict[1], []).extend([*before, line])
            before = []
        if at:
            found.setdefault(at, []).append(line)
    return {function: "\n".join(lines) for function, lines in found.items() if function in named}


def goals_in(text):
    """The goals of a function's own proof that the text says are refused: none if only the proof of a callee lacks."""
    found = set(re.findall(r"^(?:\./proofs/\S+: error: |note: src/.* \()`([^`]+)`", text, re.M))
    for several in re.findall(r"(?:`search` did not prove|antt refuses) (`[^`]+`(?:, `[^`]+`)*)", text):
        found |= set(re.findall(r"`([^`]+)`", several))
    return found


def why_not(edit, crate, status, said):
    """Why the check's answer is not the one that the edit asks for, or None."""
    if status == 0:
        return "the crate is still proved"
    found = unproved_in(crate, said)
    for function, goals in edit.unproved.items():
        if function not in found:
            return f"{function} is still proved, or the check does not name it"
        refused = goals_in(found[function])
        if refused != set(goals):
            return f"{function} is refused at {' '.join(sorted(refused)) or 'no goal of its own'}"
    told = "\n".join(found[it] for it in edit.unproved) or said
    return next((f"the check does not say of it: {text}" for text in edit.refused if text not in told), None)


@functools.cache
def text_of(path):
    """The text of a file of the repository, or None if there is none."""
    return source(path) if os.path.isfile(f"{ROOT}/{path}") else None


def can_follow(edit, other):
    """Whether the changes of the other fit after those of the edit."""
    return not changes.texts_after([edit, other], text_of)[1]


def changes_a_clause(edit):
    lines = [line for path, old, _ in edit.changes if path.endswith(".rt") for line in old]
    return any(re.match(r"\s*(requires|ensures)\b", line) for line in lines)


def are_apart(edit, other):
    """Whether one check can take both, the other after the edit: they leave different functions unproved, change different lines, and neither a
    clause of a file, nor a file of proofs, that the other changes too, nor a lemma. Two edits of which the crate does not compile have each its
    own text."""
    paths, others = ({path for path, _, _ in it.changes} for it in (edit, other))
    if not edit.unproved or not other.unproved:
        return not edit.unproved and not other.unproved and set(edit.refused).isdisjoint(other.refused)
    if not edit.unproved.keys().isdisjoint(other.unproved) or any("/proofs/lemmas/" in path for path in paths | others):
        return False
    if paths.isdisjoint(others):
        return True
    is_of_proofs = any(path.endswith(".antt") for path in paths & others)
    return not is_of_proofs and not changes_a_clause(edit) and not changes_a_clause(other) and can_follow(edit, other)


def tried(room, crate, edits, whole):
    """Tries the edits in one check. Returns by name why each is not refused as it must be, or None; the names of those that may be later, since
    they wait for another; and what is wrong with the check as a whole: None if it ended without a verdict, and then all may be later."""
    whys = {edit.name: changes.apply(room, edit) for edit in edits}
    status, said = check(room, crate, edits, whole)
    run("git", "checkout", "--quiet", "--", ".", folder=room)
    run("git", "clean", "--quiet", "-d", "--force", "--exclude=out", folder=room)
    if status != 0 and edits[0].unproved and not re.search(rf"^fn {crate}::", said, re.M):
        why = f"the check ended with status {status} and no verdict: {said.strip()[-200:]}"
        return {edit.name: why for edit in edits}, {edit.name for edit in edits}, None
    whys = {edit.name: whys[edit.name] or why_not(edit, crate, status, said) for edit in edits}
    calls = set(re.findall(rf"^fn {crate}::(\S+): .*it calls .* not proved", said, re.M))
    later = [edit for edit in edits if whys[edit.name] and len(edits) > 1]
    waiting = {edit.name for edit in later if not edit.unproved or not calls.isdisjoint(edit.unproved)}
    named = {function for edit in edits for function in edit.unproved}
    others = {it: sorted(goals_in(text)) for it, text in unproved_in(crate, said).items() if it not in named}
    return whys, waiting, [f"{it} is refused too, at {' '.join(goals)}" for it, goals in others.items() if goals]


def copied(room, *paths):
    """Makes a copy of the tracked files, or of those at these paths, which git tracks there too."""
    os.makedirs(room, exist_ok=True)
    called("sh", "-c", 'git ls-files -z -- "$@" | xargs -0 cp -p --parents --target-directory="$0"', room, *paths)
    run("git", "init", "--quiet", room)
    run("git", "add", "--all", folder=room)


def checks_of(crate, edits, most):
    """The checks that take these edits of a crate, each up to a number. The edits that are apart from the fewest others come first, so that
    there are few checks. An edit goes where there are fewest, and one of a crate below with others of crates below."""
    checks = []
    others = {edit.name: sum(not are_apart(it, edit) for it in edits) for edit in edits}
    for edit in sorted(edits, key=lambda it: (-others[it.name], it.name)):
        like = [check for check in checks if len(check) < most and changes_below(crate, check) == changes_below(crate, [edit])]
        able = [check for check in like if all(are_apart(it, edit) for it in check)]
        if able:
            min(able, key=len).append(edit)
        else:
            checks.append([edit])
    return checks


class Rooms:
    """Copies of the repository in which edits are tried, all of some crates and some of the others."""

    def __init__(self, top, whole):
        self.top, self.whole, self.free, self.faults = top, whole, [], collections.defaultdict(list)
        self.door, self.running, self.last = threading.Lock(), 0, 0
        # How many edits a check takes at most, by crate.
        self.most = collections.defaultdict(lambda: MOST)

    def prepared(self, crate, edits):
        """Proves the libraries below a crate that are not there, and the crate if all of its edits are tried. Returns the edits, or none if that
        failed."""
        try:
            for below in proving.libraries(crate):
                proving.library(below, lambda *_: None)
            if crate in self.whole:
                proving.check(crate, lambda *_: None)
            return edits
        except proving.Failed as why:
            self.faults[crate] = [f"{crate}: FAILED: the crate, or one below it, is not proved: {why}\n{why.said}"]
            return []

    @contextlib.contextmanager
    def memory(self):
        """Waits until memory is free for one more check, or no other runs."""
        with self.door:
            while self.running and (time.time() < self.last + BEGINS or proving.free_memory() < EACH):
                time.sleep(1)
            self.running, self.last = self.running + 1, time.time()
        try:
            yield
        finally:
            self.running -= 1

    def try_in_one(self, crate, edits):
        """Tries the edits in one check, and keeps what failed in `faults`. Returns the edits that wait."""
        room = self.free.pop() if self.free else tempfile.mkdtemp(prefix="room-", dir=self.top)
        if not os.listdir(room):
            copied(room, "crates", "crates.txt", "HANDLES")
        with self.memory():
            start = time.time()
            whys, waiting, more = tried(room, crate, edits, crate in self.whole)
        self.free.append(room)
        if more is None and len(edits) > 1:
            self.most[crate], more = max(1, len(edits) // 4), []
            print(f"{crate}: {next(iter(whys.values()))}", flush=True)
        elif all(whys.values()):
            waiting, more = set(), more or []
        told = [f"{crate}/{it}: {f'FAILED: {why}' if why else 'refused, as it must be'}" for it, why in whys.items() if it not in waiting]
        told += [f"{crate}: FAILED: {fault}, and no edit of this check names it" for fault in more]
        print("\n".join([*told, f"{crate}: {len(edits) - len(waiting)} in one check of {time.time() - start:.0f} s"]), flush=True)
        self.faults[crate] += [it for it in told if ": FAILED: " in it]
        return [it for it in edits if it.name in waiting]

    def try_all(self, asked):
        """Tries the edits of each crate once what they need is proved, each check as soon as a copy is free. Those that wait are tried when no
        check of their crate is left that could find more of them."""
        left = collections.defaultdict(list)
        with concurrent.futures.ThreadPoolExecutor(1) as prover, concurrent.futures.ThreadPoolExecutor(COPIES) as pool:
            # First those that wait for the fewest crates, if these are proved at this time.
            order = sorted(asked, key=lambda it: len(proving.libraries(it)))
            running = {prover.submit(self.prepared, crate, asked[crate]): crate for crate in order}
            while running:
                for future in concurrent.futures.wait(running, return_when=concurrent.futures.FIRST_COMPLETED).done:
                    crate = running.pop(future)
                    left[crate] += future.result()
                    if crate not in running.values():
                        for edits in checks_of(crate, left.pop(crate), self.most[crate]):
                            running[pool.submit(self.try_in_one, crate, edits)] = crate


def main():
    asked = words("--all")
    wanted = [it for it in asked if it != "--all"]
    every = claims.edits_of_crates()
    edits = [it for it in every if not wanted or any(word in [it.name, *it.claims] or it.path.startswith(f"{word}/") for word in wanted)]
    by_crate = {crate: [it for it in edits if it.crate == crate] for crate in sorted({it.crate for it in edits})}
    sums = record.sums_of(by_crate)
    if not wanted and "--all" not in asked:
        by_crate = record.chosen(by_crate, sums, record.known(), record.commit())
    count = collections.Counter(it.crate for it in every)
    whole = [crate for crate, its in by_crate.items() if len(its) == count[crate]]
    for crate, its in by_crate.items():
        print(f"{crate}: {len(its)} of {count[crate]} edits are tried", flush=True)
    with tempfile.TemporaryDirectory(prefix="unproved-") as top:
        rooms = Rooms(top, whole)
        rooms.try_all(by_crate)
    refused = {crate: its for crate, its in by_crate.items() if not rooms.faults[crate]}
    now = record.sums_of(refused)
    record.add({name: it for name, it in now.items() if it == sums[name] and (name not in refused or name in whole)})
    failed = [it for its in rooms.faults.values() for it in its]
    print("".join(f"{it}\n" for it in failed), end="")
    tried_now = sum(map(len, by_crate.values()))
    return ended(max(tried_now - len(failed), 0), len(failed)) or not tried_now


if __name__ == "__main__":
    sys.exit(main())
