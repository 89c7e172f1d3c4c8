"""The texts of the repository, as they are or as a wrong change makes them, for the scripts of this folder. Each of these has parts, which give
their faults. If there is none, it tries the wrong changes of its folder of scripts/mutate/edits/, as scripts/mutate/changes.py says."""

import fnmatch
import functools
import glob
import multiprocessing
import os
import re

from common import ROOT, report, source
import changes

PAGES = ["README.md", "CONTRIBUTING.md", "CHANGELOG.md", "docs/*.md", "examples/**/README.md", "python/*.md"]
PAGES += ["crates/*/README.md", "rust/*.md"]
# The texts that a wrong change made, by path.
CHANGED = {}
# The text of a file of the repository, which is read once.
unchanged = functools.cache(source)


@functools.cache
def there(pattern):
    """The files of the repository of this pattern."""
    return set(glob.glob(pattern, root_dir=ROOT, recursive=True))


def paths(pattern):
    """The files of the repository of this pattern, and those that a wrong change made."""
    return sorted(there(pattern).union(fnmatch.filter(CHANGED, pattern.replace("**/", "*"))))


def text_of(path):
    """The text of a file, or what a wrong change made of it."""
    return CHANGED[path] if path in CHANGED else unchanged(path)


def blank(text):
    """As many line feeds as a text has, so that lines keep their numbers."""
    return "\n" * text.count("\n")


@functools.cache
def prose(text):
    """A page without its fenced and indented blocks, whose lines stay as empty ones."""
    text = re.sub(r"(?ms)^ *(```|~~~).*?^ *\1[^\n]*$", lambda it: blank(it[0]), text)
    return re.sub(r"(?m)^    .*$", "", text)


def end_of_braces(text, start):
    """The index after the braces that open at `start`."""
    depth = 0
    for brace in re.compile("[{}]").finditer(text, start):
        depth += 1 if brace[0] == "{" else -1
        if depth == 0:
            return brace.end()
    return len(text)


@functools.cache
def what_runs(text):
    """A text without comments, clauses and ghost members: what there is when it runs."""
    text = re.sub(r"//.*", "", text)
    while found := re.search(r"\b(?:requires|ensures)\b[^{;]*(?=\{)|\bghost\b[^;{]*(?=\{)|\bghost\b[^;{]*;", text):
        end = end_of_braces(text, found.end()) if text[found.end() : found.end() + 1] == "{" else found.end()
        text = text[: found.start()] + blank(text[found.start() : end]) + text[end:]
    return text


def for_crates_above(crate):
    """The modules of a crate that are public for the crates above it alone: lib.rt has them after a comment that says so."""
    listed = re.search(r"(?m)^// For the crates above.*\n((?:pub mod \w+;\n)+)", text_of(f"crates/{crate}/src/lib.rt"))
    return set(re.findall(r"\w+(?=;)", listed[1])) if listed else set()


def for_users(path, text):
    """The text of a source, in which what is public for the crates above alone is `pub(crate)`: what lib.rt does not pass on."""
    crate, module = re.match(r"crates/(\w+)/src/(\w+)", path).groups()
    if module not in for_crates_above(crate):
        return text
    passed_on = re.findall(r"(?m)^pub use ([^;]*);", text_of(f"crates/{crate}/src/lib.rt"))
    names = "|".join(re.findall(r"\w+", " ".join(passed_on)))
    of_type, item = rf"impl\b[^{{;]*?\b(?:{names})\b[^{{;]*\{{[\s\S]*?^\}}", rf"pub (?:const )?(?:fn|struct|enum|trait) (?:{names})\b"
    kept = [it.span() for head in (of_type, item) for it in re.finditer(f"(?m)^{head}", text)]
    hidden = lambda it: it[0] if any(start <= it.start() < end for start, end in kept) else f"{it[1]}pub(crate) "
    return re.sub(r"(?m)^( *)pub (?=(?:const )?(?:fn|struct|enum|trait)\b)", hidden, text)


def code(path):
    return what_runs(text_of(path))


def at(path, text, index):
    return f"{path}:{text.count(chr(10), 0, index) + 1}"


def not_refused(edit, parts):
    """Why a wrong change is not refused as its edit says, or None."""
    CHANGED.clear()
    for path, old, new in edit.changes:
        before = text_of(path) if path in CHANGED or os.path.isfile(f"{ROOT}/{path}") else None
        CHANGED[path], why = changes.changed(before, path, old, new)
        if why:
            return why
    faults = [fault for part in parts for fault in part()]
    others = [f"refused too: {fault}" for fault in faults if not any(text in fault for text in edit.refused)]
    missing = [f"no fault says: {text}" for text in edit.refused if not any(text in fault for fault in faults)]
    return ("; ".join([*others, *missing]) or None) if faults else "nothing refuses it"


def results(parts, folder):
    """Runs the parts of a script, then tries its wrong changes. Prints what failed, and returns the status."""
    found = [(part.__name__, "\n    ".join(part()) or None) for part in parts]
    edits = [] if any(why for _, why in found) else changes.edits_in(folder)
    with multiprocessing.get_context("fork").Pool() as pool:
        tried = pool.starmap(not_refused, ((edit, parts) for edit in edits), chunksize=1)
    return report([*found, *zip((edit.name for edit in edits), tried)])
