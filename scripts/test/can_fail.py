#!/usr/bin/env python3
"""Tests that what decides can fail, with made-up results: `report`, by which a script ends; `judged` of scripts/check; `taken`, by which it
takes a library that `rt ci` proved; `stated`, by which the crates above a library are proved again or not; `why_not` of
scripts/mutate/unproved.py, over what a check printed; `not_refused`, by which scripts that read the sources try wrong changes, and `each` of
scripts/mutate/trying.py, by which tests do; `chosen` of scripts/mutate/record.py, if a source or an edit changed; `by_crate` of changed.py, by
which `scripts/quick` chooses the functions that it proves, and the seconds that it tells; and packages.py, over a list of two packages that a
machine has or has not.
"""
import contextlib
import importlib.machinery
import importlib.util
import io
import os
import sys
import tempfile
from unittest import mock

sys.path.insert(1, f"{sys.path[0]}/..")
import common
import changed
import changes
from files import bytes_of, other, written
import packages
import proving
import record
import texts
import trying
import unproved
from changes import Edit

CRATE = "bitpacking_register"
# What a check of edits of that crate printed of four functions, without the long lines.
SAID = """\
./proofs/arrays/to_bytes_all/Answers.antt:9:46: error: `loop-lane-preserved`: as printed, the two types first differ
fn bitpacking_register::arrays::to_bytes_all: not proved
fn bitpacking_register::arrays::ArrayU324Register::to_bytes: no proof: it calls `bitpacking_register::arrays::to_bytes_all`, which is not proved
note: src/arrays.rt:193:5: it is not proved that what the function ensures holds when it returns (`returns`)
fn bitpacking_register::arrays::ArrayU328Register::integrate: no proof: `search` did not prove `returns`; it calls another
fn bitpacking_register::word::or: proved
"""
BYTES, CALLER, SUMS = "arrays::to_bytes_all", "arrays::ArrayU324Register::to_bytes", "arrays::ArrayU328Register::integrate"


def gate():
    """The script `check` as a module."""
    loader = importlib.machinery.SourceFileLoader("check", f"{common.ROOT}/scripts/check")
    made = importlib.util.module_from_spec(importlib.util.spec_from_loader("check", loader))
    loader.exec_module(made)
    return made


def reported(*checks):
    """What `report` makes of checks: its status and what it prints."""
    with contextlib.redirect_stdout(io.StringIO()) as said:
        status = common.report(checks)
    return status, said.getvalue()


def reports():
    """Each report as a name, what it comes to, and what it has to."""
    yield "a check that passes", reported(("one", None)), (0, "1 passed, 0 failed\n")
    yield "a check that fails", reported(("one", None), ("two", "it is")), (1, "FAILED: two: it is\n1 passed, 1 failed\n")
    yield "a check that fails and says nothing", reported(("one", "")), (1, "FAILED: one: \n0 passed, 1 failed\n")
    yield "no check", reported(), (1, "0 passed, 1 failed\n")


def parts():
    """Each end of a part of the gate as a name, what it comes to, and what it has to."""
    left_out, wrong = "LEFT OUT: all, since there is no cc\n", "FAILED: two: it is\n"
    ends = {
        "passes": (["3 passed, 0 failed\n"], 0, (3, 0, [])),
        "is left out": ([left_out, "0 passed, 0 failed\n"], 0, (0, 0, [left_out])),
        "fails": ([wrong, "2 passed, 1 failed\n"], 1, (2, 1, [wrong])),
        "fails with status 0": ([wrong, "2 passed, 1 failed\n"], 0, (2, 1, [wrong])),
        "checks nothing": (["0 passed, 0 failed\n"], 0, (0, 1, ["FAILED: it: it checked nothing\n"])),
        "says no count": (["3 passed\n"], 0, (0, 1, ["FAILED: it: it ended without a last line\n"])),
        "ends otherwise": (["3 passed, 0 failed\n"], 2, (3, 1, ["FAILED: it: it ended with status 2\n"])),
    }
    for what, (said, status, right) in ends.items():
        yield f"a part that {what}", gate().judged("it", said, status), right


def libraries():
    """Whether a library that `rt ci` left is taken, as a name, what it comes to, and what it has to."""
    for name, before, files in ("a library", "1", []), ("one of other sources", "2", []), ("one of another command", "1", ["stamp/it"]):
        with tempfile.TemporaryDirectory(prefix="taken-") as top:
            with mock.patch.multiple(
                proving, ROOT=top, PROVED=f"{top}/proved", sum_of=lambda _: "1", sum_over=lambda _: "2", builds_below=lambda _: "3"
            ):
                written(top, {f"crates/low/out/rlib/{it}": "" for it in ["low.rlib/it", *files]} | {"proved/it": ""})
                proving.taken("low", before)
                yield name, proving.is_proved("low"), name == "a library"


def stated():
    """Whether a library states the same after a change of one of its files, as a name, what it comes to, and what it has to."""
    files = {
        "format": "dep std 1\nover low 1\nchecked 1\nsum 1\n",
        "interface/lang/src/lib.rt": "1",
        "toolchain/checked.a": "1",
        "toolchain/mir.json": "1",
    }
    files |= {f"lang/antt/{it}.antt": "1" for it in ("specs/Laws", "proofs/Lemmas", "proofs/one/Answers", "proofs/one/Invariants")}
    files |= {"lang/antt/made.json": '"one"\n{"Statement":1}\n"two"\n{"Mir":1}\n{"Lts":1}\n', "below/std/interface/lang/src/lib.rt": "1"}
    unstated = ["over low 1", "checked 1", "sum 1", '{"Mir":1', '{"Lts":1']
    for path, text in files.items():
        for old in text.strip().split("\n"):
            with tempfile.TemporaryDirectory(prefix="stated-") as top:
                written(f"{top}/one", files)
                written(f"{top}/two", {**files, path: text.replace(old, f"{old[:-1]}2")})
                same = proving.stated(f"{top}/one") == proving.stated(f"{top}/two")
            is_code = path.startswith("toolchain/") or "/one/" in path or any(old.startswith(it) for it in unstated)
            yield f"{old} of {path} that changes", same, is_code


def estimates():
    """The seconds that a proof is said to take, as a name, what it comes to, and what it has to."""
    notes = {"low": {"seconds": ["60"], "functions": ["30"]}, "high": {"seconds": ["30"], "functions": ["60"]}, "taken": {"made": ["1"]}}
    with mock.patch.object(proving, "noted", lambda crate: notes.get(crate, {})):
        yield "three functions at two seconds each, after fifteen", proving.expected(3, ["low"]), 21
        yield "nine functions, of libraries with 90 seconds for 90 functions", proving.expected(9, ["low", "high", "taken", "new"]), 24
        yield "a function, if no proof is known", proving.expected(1, ["taken", "new"]), None
        yield "libraries", changed.by_last_proofs(map(proving.seconds, ["low", "high"])), ", in about 90 s"
        yield "libraries that are not all known", changed.by_last_proofs(map(proving.seconds, ["low", "taken"])), ""


def why(goals, refused=(), status=1):
    """Why the check is not the one that an edit asks for, which names these functions with their goals, or None."""
    return unproved.why_not(Edit(f"{CRATE}/it", unproved=goals, refused=list(refused)), CRATE, status, SAID)


def edits():
    """Each edit as a name, why the check does not refuse it as it says, and why not."""
    preserved, returns = ["loop-lane-preserved"], ["returns"]
    yield "an edit that is refused", why({BYTES: preserved, CALLER: [], SUMS: returns}, ["the two types first differ"]), None
    yield "an edit of a crate that does not compile", why({}, ["`search` did not prove"]), None
    yield "an edit that is proved", why({BYTES: preserved}, status=0), "the crate is still proved"
    for name, goals in {"another goal": returns, "a goal too many": [*preserved, *returns], "no goal": []}.items():
        yield f"an edit of {name}", why({BYTES: goals}), f"{BYTES} is refused at loop-lane-preserved"
    yield "an edit of a goal of a caller", why({CALLER: returns}), f"{CALLER} is refused at no goal of its own"
    for name in ["word::or", "word::and"]:
        yield f"an edit of {name}", why({SUMS: returns, name: returns}), f"{name} is still proved, or the check does not name it"
    other = "the check does not say of it: the two types first differ"
    yield "an edit of a text that is said of another function", why({SUMS: returns}, ["the two types first differ"]), other
    yield "an edit of a text that is not said", why({}, ["mismatched types"]), "the check does not say of it: mismatched types"
    found = {name: sorted(unproved.goals_in(text)) for name, text in unproved.unproved_in(CRATE, SAID).items()}
    yield "the functions that the check refuses", found, {BYTES: preserved, CALLER: [], SUMS: returns}


def faults():
    """Each wrong change for a script as a name, what is found, and what has to be."""
    new = Edit("it", refused=["docs/NEW.md: it is"], changes=[("docs/NEW.md", [], ["New."])])
    twice = Edit("it", refused=["it is"], changes=[("LICENSE", ["no such line"], [])])
    yield "a change that is refused", texts.not_refused(new, [lambda: ["docs/NEW.md: it is new"]]), None
    yield "a change that nothing refuses", texts.not_refused(new, [lambda: []]), "nothing refuses it"
    other = "refused too: LICENSE: it is old; no fault says: docs/NEW.md: it is"
    yield "a change that is refused for another fault", texts.not_refused(new, [lambda: ["LICENSE: it is old"]]), other
    yield "a change that does not fit", texts.not_refused(twice, [lambda: []]), "its lines are in LICENSE 0 times, and not once"


def tests():
    """Each wrong change for a test as a name, why no test refuses it, and why not."""
    new, twice = ([("docs/NEW.md", [], ["New."])], [("LICENSE", ["no such line"], [])])
    ended = lambda status: trying.by_pytest(lambda *_: mock.Mock(returncode=status))
    for name, change, built, failing, right in [
        ("test that fails", new, None, ended(1), None),
        ("crash", new, None, ended(139), None),
        ("test that passes", new, None, ended(0), "one passes"),
        ("test that is not there", new, None, ended(4), "one: status 4"),
        ("failure of another test", new, None, lambda *_: ["two"], "one passes"),
        ("build that fails", new, "it is", ended(1), "it is"),
        ("change that does not fit", twice, None, ended(1), "its lines are in LICENSE 0 times, and not once"),
    ]:
        with mock.patch.object(changes, "edits_in", lambda _: [Edit("it", fails=["one"], changes=change)]):
            with contextlib.redirect_stdout(io.StringIO()):
                yield f"a {name}", [*trying.each("it", lambda _: None, lambda _: built, failing)], [("it", right)]


def tried(sums, known, by="a hash"):
    """By crate, how many of a hundred edits are tried."""
    edits = {crate: [Edit(f"{crate}/it/{number}") for number in range(100)] for crate in sums}
    return {crate: len(some) for crate, some in record.chosen(edits, sums, known, by).items()}


def sums_after(changed):
    """The sums of two crates, one above the other, after a change of a file, or as they are."""
    code = record.code_of
    with mock.patch.object(record, "code_of", lambda path: "another" if changed and path.endswith(changed) else code(path)):
        return {crate: record.sum_of(crate) for crate in (CRATE, "bitpacking")}


def records():
    """Each choice of edits as a name, how many of each crate are tried, and how many have to be."""
    sums, some, every = {"one": "1", "two": "2"}, {"one": 4, "two": 4}, {"one": 100, "two": 100}
    yield "edits of crates that did not change", tried(sums, sums), some
    yield "edits of a crate that changed", tried(sums, sums | {"two": "3"}), {"one": 4, "two": 100}
    yield "edits without a record", tried(sums, {}), every
    yield "edits without a commit", tried(sums, sums, ""), every
    edits = [Edit(f"one/it/{number}") for number in range(100)]
    one, two = ({it.path for it in record.chosen({"one": edits}, {"one": "1"}, {"one": "1"}, by)["one"]} for by in ("a hash", "another"))
    yield "edits by another commit", one != two, True
    for path, wanted in {f"crates/{CRATE}/src/word.rt": (100, 4), "no file": (4, 4)}.items():
        found = tried(sums_after(path), sums_after(None))
        yield f"edits after a change of {path}", (found[CRATE], found["bitpacking"]), wanted
    paths = [
        it.path
        for it in record.chosen({"one": edits}, {"one": "1", edits[7].path: "new"}, {"one": "1", edits[7].path: "old"}, "a hash")["one"]
    ]
    yield "an edit that changed", (paths[0], len(paths)), (edits[7].path, 5)
    with tempfile.TemporaryDirectory(prefix="record-") as top:
        texts_of = ["// a comment\nfn it() {}\n", "fn it() {}\n", "fn it() { 1 }\n"]
        sources = [os.path.join(top, f"{k}.rt") for k in range(3)]
        for path, text in zip(sources, texts_of):
            with open(path, "w", encoding="utf-8") as file:
                file.write(text)
        one, same, other = map(record.code_of, sources)
    yield "a source with another comment, and another source", (one == same, one == other), (True, False)
    with tempfile.TemporaryDirectory(prefix="record-") as top, mock.patch.object(record, "RECORD", f"{top}/tried.txt"):
        record.add({"one": "1", "two": "2"})
        record.add({"two": "3"})
        yield "a record of one crate more", record.known(), {"one": "1", "two": "3"}


# A source of a crate, and by a part of one of its lines the functions that are proved when that line changed: those of
# a trait by their module.
SOURCE = """\
pub(crate) const FEW: usize = 8;
static MANY: [usize; 2] = [
    FEW,
    9,
];
struct Plan { at: usize }

// FEW are none.
fn none() { let few = 0; }

fn by_clause(n: usize)
    requires few { n < FEW }
{
}

impl Plan {
    fn start(&self) -> usize { self.at }
}

impl Wide for Plan {
    const LANES: usize = 4;
    fn lanes() -> usize { Self::LANES }
}

fn through() -> usize { MANY[0] }
"""
PROVED = {"FEW: usize": {"by_clause", "through"}, "9,": {"through"}, "at: usize": {"Plan::start", ""}, "LANES: usize": {""}}
PROVED |= {"let few": {"none"}, "// FEW": set()}


def functions():
    """Each changed line as a name, the functions that are proved then, and those that have to be."""
    path = "crates/it/src/plan.rt"
    with mock.patch.object(texts, "CHANGED", {path: SOURCE}):
        for text, right in PROVED.items():
            number = SOURCE[: SOURCE.index(text)].count("\n") + 1
            with mock.patch.object(changed, "lines", lambda at=number: {path: [range(at, at + 1)]}):
                names = {f"plan::{it}".removesuffix("::") for it in right}
                yield f"the functions after a change of {text}", changed.by_crate().get("it", set()), names


# Prints what is installed, as dpkg-query does, and installs one package of those that apt-get is asked for, if it gets an update. It keeps the words.
DPKG = "#!/bin/sh\ncat installed; echo other deinstall\n"
APT = """#!/bin/sh
shift 5
echo "$*" >> asked
[ "$1" = install ] || exit "$UPDATES"
for it; do [ "$it" = none ] && exit 100; done
[ "$UPDATES" = 0 ] || exit 100
shift 3
for it; do echo "$it installed" >> installed; done
"""
INSTALLED = "install --yes --no-install-recommends"


def installing(user, updates, listed="quick\none  it\n\ncheck\nother  it\n"):
    """What is asked of apt-get, and what lacks then."""
    with tempfile.TemporaryDirectory(prefix="packages-") as top:
        written(top, {"dpkg-query": DPKG, "apt-get": APT, "installed": "one installed\n", "asked": ""})
        for name in "dpkg-query", "apt-get":
            os.chmod(f"{top}/{name}", 0o755)
        called = lambda *words, **more: common.run(*words, folder=top, **more)
        env = {"PATH": f"{top}:/usr/bin:/bin", "UPDATES": str(updates)}
        with mock.patch.multiple(packages, source=lambda _: listed, run=called), mock.patch.dict(os.environ, env):
            with mock.patch.object(os, "geteuid", lambda: user), contextlib.redirect_stdout(io.StringIO()):
                packages.install("check")
            return bytes_of(f"{top}/asked").decode().splitlines(), packages.told("check"), packages.told("quick")


def machines():
    """Each machine as a name, what is asked of apt-get, and what has to be."""
    lacks = f"As root: apt-get update && apt-get {INSTALLED} "
    yield "a machine that lacks a package", installing(0, 0), (["update", f"{INSTALLED} other"], "", "")
    yield "a user that is not root", installing(1, 0), ([], f"{lacks}other\n", "")
    yield "a machine without a network", installing(0, 100), (["update", f"{INSTALLED} other"], f"{lacks}other\n", "")
    asked = [f"{INSTALLED} {it}" for it in ("none other", "none", "other")]
    found = installing(0, 0, "# The list.\n\nquick\none  it\nnone  no such package\n\ncheck\nother  it\n")
    yield "a package that is not known", found, (["update", *asked], f"{lacks}none\n", f"{lacks}none\n")
    yield "the packages of the list", [it in packages.needed("quick") for it in ("python3-numpy", "chromium")], [True, False]


def checks():
    for part in [reports, parts, libraries, stated, estimates, edits, faults, tests, records, functions, machines]:
        for name, found, right in part():
            yield name, other(found, right)


if __name__ == "__main__":
    sys.exit(common.report(checks()))
