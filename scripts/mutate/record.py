"""The record of the edits that were refused as they must be, scripts/mutate/tried.txt: a sum of each edit, and of the sources of each crate all of
whose edits were tried. scripts/mutate/unproved.py writes it; with another toolchain `--all` tries all again. An edit that is not in the record, or
whose crate changed, is tried. One in 25 of the others is, chosen by the hash of the commit."""

import glob
import hashlib
import os

from common import ROOT, run
import changes
import proving

RECORD = f"{ROOT}/scripts/mutate/tried.txt"
ONE_IN = 25


def code_of(path):
    """The lines of a source that are no comment."""
    with open(path, encoding="utf-8") as file:
        return "".join(line for line in file if not line.lstrip().startswith(("//", "--")))


def sum_of(crate, top=ROOT):
    """A number that changes with each source of a crate, in a copy of the repository."""
    found = hashlib.sha256()
    for path in sorted(glob.glob(f"{top}/crates/{crate}/[sp]*/**", recursive=True)):
        if path.endswith((".rt", ".antt")):
            found.update(f"{os.path.relpath(path, top)}\n{code_of(path)}".encode())
    return found.hexdigest()


def sums_of(by_crate, top=ROOT):
    """The sums of crates and of their edits."""
    sums = {crate: sum_of(crate, top) for crate in by_crate}
    return sums | {
        it.path: proving.digest_of(f"{top}/{changes.FOLDER}/{it.path}.edit").hex()[:16] for its in by_crate.values() for it in its
    }


def known():
    """The sums that the record has."""
    if not os.path.isfile(RECORD):
        return {}
    with open(RECORD, encoding="ascii") as file:
        return dict(line.split() for line in file)


def add(sums):
    """Writes these sums into the record, beside the others."""
    text = "".join(f"{name} {it}\n" for name, it in sorted({**known(), **sums}.items()))
    with open(RECORD, "w", encoding="ascii") as file:
        file.write(text)


def commit():
    """The hash of the commit, or nothing if there is none."""
    done = run("git", "rev-parse", "--verify", "--quiet", "HEAD")
    return done.stdout.strip() if done.returncode == 0 else ""


def chosen(by_crate, sums, record, by):
    """By crate, the edits to try. Without a commit to choose by, all."""

    def few(edits):
        return sorted(edits, key=lambda it: hashlib.sha256(f"{by} {it.path}".encode()).digest())[: -(-len(edits) // ONE_IN)]

    def some_of(edits):
        known = [it for it in edits if sums.get(it.path) == record.get(it.path)]
        return [it for it in edits if it not in known] + few(known)

    return {crate: some_of(edits) if by and sums[crate] == record.get(crate) else edits for crate, edits in by_crate.items()}
