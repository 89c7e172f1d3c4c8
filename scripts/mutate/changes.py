"""Wrong bodies and other edits: the files of scripts/mutate/edits/, and their form.

An edit is a file CRATE/MODULE/NAME.edit, named for its mistake. CRATE is the crate whose check has to fail, and MODULE the module of that
crate that it breaks; the crate has no other edit of that name. Lines before the first change:
    claim: SECTION/NUMBER ..  the claims of docs/PROOFS.md that it breaks
    breaks: SENTENCE.         what the wrong body does
    unproved: FN: GOAL ..     a function, or an impl, that must not be proved, as `rt check` names it without the crate, and the goals
                              of its proof that must be refused, and no other; without goals, a function whose callee an edit of a
                              contract leaves unproved
    refused: TEXT             a text that the check must print, if the crate is not to compile, or if the goal alone says too little
No other line may stand there. Then changes, each of whole lines:
    <<<< PATH                 a file of the repository
    old lines                 which are in it exactly once; a line `....` stands for any lines up to the one after it; none: a new file
    ====
    new lines                 none: the old ones are taken out
    >>>>

The folders of OF_SCRIPTS are named for scripts, and have wrong changes of the same form that these must see. They have no module and no
`unproved:`. For a script of scripts/lint/ each `refused: TEXT` is in a fault that it finds then, and no fault is without one. The scripts of
OF_TESTS are in scripts/test/. Their edits name no claim, and in place of texts
    fails: TEST               a test that must fail, as the script names it
"""

import dataclasses
import glob
import os
import re
import sys

from common import ROOT, source
from files import bytes_of, written

FOLDER = "scripts/mutate/edits"
OF_TESTS = {"number_files", "postgres", "python", "rust", "search", "sqlite"}
OF_SCRIPTS = {"claims", "clauses", "doors", "english", "examples", "pages", "signatures", "sources"} | OF_TESTS
CHANGE = re.compile(r"^<<<< (\S+)\n((?:.*\n)*?)(?:====\n((?:.*\n)*?))?(?:>>>>$|\Z)", re.M)


@dataclasses.dataclass
class Edit:
    path: str  # CRATE/MODULE/NAME
    claims: list = dataclasses.field(default_factory=list)
    breaks: str = ""
    unproved: dict = dataclasses.field(default_factory=dict)  # by function, the goals that must be refused
    refused: list = dataclasses.field(default_factory=list)  # texts
    fails: list = dataclasses.field(default_factory=list)  # tests
    changes: list = dataclasses.field(default_factory=list)  # (path, old lines, new lines)

    @property
    def name(self):
        return self.path.split("/")[-1]

    @property
    def crate(self):
        return self.path.split("/")[0]

    @property
    def module(self):
        return "/".join(self.path.split("/")[1:-1])


def read_edit(path, text):
    """The edit of the file scripts/mutate/edits/PATH.edit with this text."""
    edit = Edit(path, changes=[(it, old.splitlines(), new.splitlines()) for it, old, new in CHANGE.findall(text)])
    for line in filter(None, CHANGE.sub("", text).split("\n")):
        word, _, rest = line.partition(": ")
        if word == "unproved":
            function, _, goals = rest.partition(": ")
            edit.unproved[function] = goals.split()
        elif word == ("fails" if edit.crate in OF_TESTS else "refused"):
            getattr(edit, word).append(rest)
        elif word == "claim" and not edit.claims:
            edit.claims = rest.split()
        elif word == "breaks" and not edit.breaks:
            edit.breaks = rest
        else:
            sys.exit(f"{path}: no header line of an edit: {line}")
    if not edit.changes or not (edit.fails if edit.crate in OF_TESTS else edit.unproved or edit.refused):
        sys.exit(f"{path}: an edit without a change, or that nothing refuses")
    return edit


def edits_in(folder):
    """The edits of a folder of scripts/mutate/edits/ and those below it, by name."""
    found = glob.glob(f"{folder}/**/*.edit", root_dir=f"{ROOT}/{FOLDER}", recursive=True) or sys.exit(f"{FOLDER}/{folder} has no edit")
    return sorted((read_edit(it[:-5], source(f"{FOLDER}/{it}")) for it in found), key=lambda it: it.name)


def pattern_of(old):
    """The old lines as a regular expression, of whole lines."""
    parts = [r"(?:.*\n)*?" if line == "...." else re.escape(line) + r"\n" for line in old]
    return re.compile("^" + "".join(parts), re.M)


def changed(text, path, old, new):
    """The text with the new lines in place of the old ones, and why not, if these do not fit; the text is None if there is no file."""
    block = "".join(f"{line}\n" for line in new)
    if not old:
        return block, None if text is None else f"there is a file {path}"
    found = pattern_of(old).findall(text or "")
    if len(found) != 1:
        return text, f"its lines are in {path} {len(found)} times, and not once"
    return pattern_of(old).sub(lambda _: block, text, count=1), None


def texts_after(edits, text_of):
    """The texts of files after all changes of some edits, by path, and why not, if one does not fit. `text_of` returns the text of a file before
    them, or None if there is none."""
    texts = {}
    for path, old, new in (it for edit in edits for it in edit.changes):
        texts[path], why = changed(texts[path] if path in texts else text_of(path), path, old, new)
        if why:
            return texts, why
    return texts, None


def apply(room, *edits):
    """Makes all changes of some edits in a copy. Returns why not, if one does not fit."""
    texts, why = texts_after(edits, lambda path: bytes_of(f"{room}/{path}").decode() if os.path.exists(f"{room}/{path}") else None)
    if not why:
        written(room, texts)
    return why
