#!/usr/bin/env python3
"""Tests the script `bitpack` in a copy, with a toolchain that builds a small program in place of the real one, and which libraries it and
scripts/build/prove.py prove again after a change. Then it builds the program
by that script, and runs it so that it ends early: what `main` makes of the outcome of `run`, which no contract says. Each of these runs has
to end with status 1 and its one line on standard error, and with nothing of that line on standard output: the input is a directory, the
output is full, the output is a pipe that nobody reads, or a long `dec` has too little address space. A run to the end has status 0 and says
nothing.
"""
import os
import re
import resource
import shutil
import subprocess
import sys
import tempfile

sys.path.insert(1, f"{sys.path[0]}/..")
from common import ROOT, report, run, source, version
from files import bytes_of, other, written
import proving

SCRIPTS = ["scripts/build/prove.py", "scripts/build/proving.py", "scripts/common.py"]

RT = """#!/bin/sh
[ "$1" = version ] && echo "kit of the test"
[ "$1" = doc ] && echo "$KIT/START-HERE.md"
exit 0
"""
# Makes what -o names: a library has the file `states` of its crate, its sources as code, and a sum of these. A crate that FAILS ends with a goal
# open. The verdict on the crate OF is the line VERDICT.
RATTLE = """#!/bin/sh
crate=${PWD##*/}
echo "$crate $1" >> "$CALLS"
while [ "$1" != -o ]; do shift; done
mkdir -p "$2/toolchain"
cat src/* > "$2/toolchain/mir.json" 2>/dev/null
[ ! -e states ] || cp states "$2/"
echo "checked $(cat src/* 2>/dev/null | cksum)" > "$2/format"
echo "output of a proof"
if [ "$crate" = "$OF" ]; then echo "$VERDICT"; else echo "logic=proved functions=7 sum=1"; fi
[ "$crate" = "$FAILS" ] || exit 0
echo "a goal is open"
for n in 1 2 3 4 5 6 7 8 9 10 11 12 13 14 15 16 17 18 19 20; do echo "fn low::f$n: proved"; done
exit 1
"""
LINK = """#!/bin/sh
while [ "$1" != -o ]; do shift; done
printf '#!/bin/sh\\necho "program:$*"\\ncat\\n' > "$2"
chmod +x "$2"
"""
BELOW = proving.libraries("bitpack_main")
# Words of verdicts that no crate of this repository may have. All words are refused that are not known.
REFUSED = "may-abort=1 foreign=f hides=1 main=Wait a-later-word=1".split()
# Words that only say what was proved.
TAKEN = "axioms=1 target=t cpu=c native=nat logic-built=trusted libraries-built=trusted statements=trusted incremental=trusted"

LINE = b"size 4x 13\n"
ANSWER = b"208\n"
# Blocks of width 0 to the end of the longest line: 8,385,792 values, which take 33 MB as words and 17 MB as an answer.
LONG = b"dec 8x 010008" + (256 * 32757).to_bytes(4, "little").hex().encode() + b"00" * 32757 + b"\n"
LIMIT = 24 << 20


class Copy:
    """A copy of the repository's head, and a folder with the test's toolchain."""

    def __init__(self, top):
        self.top, self.calls, self.kit, self.old = f"{top}/copy", f"{top}/calls", f"{top}/kit", "crates/bitpack_main/src/main.rt"
        for name in ["bitpack", "CHANGELOG.md", "crates.txt", "docs/PROOFS.md", self.old, *SCRIPTS, *(f"crates/{it}/it" for it in BELOW)]:
            os.makedirs(os.path.dirname(f"{self.top}/{name}"), exist_ok=True)
            if os.path.exists(f"{ROOT}/{name}"):
                shutil.copy(f"{ROOT}/{name}", f"{self.top}/{name}")
        written(f"{self.kit}/bin", {"rt": RT, "rattle": RATTLE, "rattle-link": LINK})
        for name in os.listdir(f"{self.kit}/bin"):
            os.chmod(f"{self.kit}/bin/{name}", 0o755)

    def run(self, *words, rt=True, **more):
        """The status, standard output and standard error of a call from another folder."""
        env = {"PATH": f"{self.kit}/bin:/usr/bin:/bin" if rt else "/usr/bin:/bin", "KIT": self.kit, "CALLS": self.calls, **more}
        ran = run(f"{self.top}/bitpack", *words, folder="/", env=env, stderr=subprocess.PIPE, input="size\n")
        return ran.returncode, ran.stdout, ran.stderr

    def prove(self):
        """The crates that are proved below the library `bitpack`."""
        self.called()
        prove = f"{self.top}/scripts/build/prove.py", "bitpack"
        status = run("python3", *prove, env={"PATH": f"{self.kit}/bin:/usr/bin:/bin", "KIT": self.kit, "CALLS": self.calls}).returncode
        return status, self.called()

    def anew(self, **more):
        """What a call says that builds all."""
        shutil.rmtree(f"{self.top}/out", ignore_errors=True)
        shutil.rmtree(f"{self.top}/crates/bitpack_main/out", ignore_errors=True)
        return self.run(**more)

    def called(self):
        """The calls of rattle since this was last asked, each as a crate and a command."""
        found = bytes_of(self.calls).decode().splitlines() if os.path.exists(self.calls) else []
        written(os.path.dirname(self.calls), {"calls": ""})
        return found


def builds(copy):
    """When it builds, and what it prints then, each as a name, what was found and what is right."""
    status, out, error = copy.run("--help")
    yield "--help names the page of the lines", (status, f"{copy.top}/docs/LINES.md" in out, error), (0, True, "")
    yield "--version is that of CHANGELOG.md and of rt", copy.run("--version"), (0, f"bitpack {version()}\nkit of the test\n", "")
    kit = copy.run("--version", rt=False)[1].split("\n")[1]
    yield "--version without rt has the kit of PROOFS.md", kit[:11], "rattle-kit-"
    status, out, error = copy.run(rt=False)
    yield "without rt it says so", (status, out, error.count("\n"), "rt" in error), (2, "", 1, True)
    yield "these build nothing", copy.called(), []
    status, out, error = copy.run(FAILS=BELOW[0])
    yield "a library that fails ends the build", (status, out, copy.called()), (3, "", [f"{BELOW[0]} build"])
    yield "the end of the log is shown, with what is not proved", "a goal is open" in error, True
    status, out, error = copy.run(FAILS="bitpack_main")
    in_order = [f"{crate} build" for crate in [*BELOW, "bitpack_main"]]
    yield "libraries are proved before the program, lowest first, and none that fails runs", (status, out, copy.called()), (3, "", in_order)
    lines = [f"proved {crate}, functions: 7" for crate in [*BELOW, "bitpack_main"]]
    yield "it says how long it builds", re.match(r".*building.* minutes on four cores", error) is not None, True
    yield "and has a line for each crate", error.split("\n")[1 : len(lines) + 1], lines
    built = 0, "program:--other words\nsize\n", ""
    yield "the next call proves what was not, and passes words on", copy.run("--other", "words")[:2], built[:2]
    yield "a library is proved once", copy.called(), ["bitpack_main build"]
    yield "a call after it needs no rt", copy.run("--other", "words", rt=False), built
    os.utime(f"{copy.top}/{copy.old}", (2**33, 2**33))
    yield "a source that is newer, with the same text", copy.run("--other", "words")[:2], built[:2]
    yield "proves nothing", copy.called(), []
    written(copy.top, {copy.old: source(copy.old) + "// More.\n"})
    yield "one with another text", [copy.run("--other", "words")[:2] for _ in range(2)], [built[:2]] * 2
    yield "is proved once", copy.called(), ["bitpack_main build"]


def changes(copy):
    """What is proved after a change of the lowest library, each as a name, what was found and what is right."""
    low, text = BELOW[0], {f"crates/{BELOW[0]}/src/lib.rt": "fn one() {}\n"}
    every, states = [f"{crate} build" for crate in BELOW[:-1]], f"crates/{low}/states"
    code = lambda: bytes_of(f"{copy.top}/out/proved/{low}.rlib/toolchain/mir.json").decode()
    written(copy.top, {**text, states: "one() ensures\n"})
    yield "all is proved over a library that states more", copy.prove(), (0, every)
    written(copy.top, dict.fromkeys(text, "fn one() { 1 }\n"))
    yield "a library with another body is proved, and nothing above it", copy.prove(), (0, [f"{low} build"])
    yield "and it is proved once", copy.prove(), (0, [])
    yield "the library that the others were proved over stays", code(), "fn one() {}\n"
    written(copy.top, text)
    yield "nor is it proved again if the body is the first one", copy.prove(), (0, [])
    written(copy.top, {**dict.fromkeys(text, "fn two() {}\n"), states: "two() ensures\n"})
    yield "all is proved over a library that states something else", copy.prove(), (0, every)
    written(copy.top, dict.fromkeys(text, "fn two() { 2 }\n"))
    yield "a second body", copy.prove(), (0, [f"{low} build"])
    yield "the program is built", copy.run("--other", "words")[0], 0
    yield "from that body, and all of it is proved again", copy.called(), [*every, f"{BELOW[-1]} build", "bitpack_main build"]
    yield "its libraries have that code", code(), "fn two() { 2 }\n"
    yield "and serve the library too", copy.prove(), (0, [])


def verdicts(copy):
    """Which verdicts end the build, though the status of the check is 0."""
    for number, word in enumerate(REFUSED):
        crate = [BELOW[0], "bitpack_main"][number % 2]
        status, out, error = copy.anew(OF=crate, VERDICT=f"logic=proved functions=7 {word} sum=1")
        told = f"{crate}: the verdict has what no crate of this repository may have: {word}\n" in error
        yield f"{word} in the verdict on {crate} ends the build", (status, out, told), (3, "", True)
    for line in ["", "logic=open functions=7 sum=1"]:
        yield f"the verdict '{line}' ends the build", copy.anew(OF=BELOW[0], VERDICT=line)[:2], (3, "")
    said = copy.anew(OF="bitpack_main", VERDICT=f"logic=proved functions=7 {TAKEN}")[:2]
    yield "words that say what was proved do not", said, (0, "program:\nsize\n")


def ran(stdin, stdout=subprocess.PIPE, limit=None):
    """The status, standard output and standard error of the program."""
    given = {"input": stdin} if isinstance(stdin, bytes) else {"stdin": stdin}
    bound = (lambda: resource.setrlimit(resource.RLIMIT_AS, (limit, limit))) if limit else None
    program = f"{ROOT}/crates/bitpack_main/out/bitpack_main"
    done = subprocess.run([program], stdout=stdout, stderr=subprocess.PIPE, preexec_fn=bound, **given)
    return done.returncode, done.stdout, done.stderr


def runs():
    """Each run as a name, how it ended, and how it has to end."""
    yield "a run to the end", ran(LINE), (0, ANSWER, b"")
    with tempfile.TemporaryDirectory(prefix="endings-") as folder:
        directory = os.open(folder, os.O_RDONLY)
        yield "a directory as input", ran(directory), (1, b"", b"bitpack: read failed\n")
        os.close(directory)
    with open("/dev/full", "wb") as full:
        yield "a full device as output", ran(LINE, stdout=full), (1, None, b"bitpack: write failed\n")
    unread, pipe = os.pipe()
    os.close(unread)
    yield "a closed pipe as output", ran(LINE, stdout=pipe), (1, None, b"bitpack: write failed\n")
    os.close(pipe)
    yield "a line before too little memory", ran(LINE + LONG, limit=LIMIT), (1, ANSWER, b"bitpack: out of memory\n")


def checks():
    with tempfile.TemporaryDirectory(prefix="endings-") as top:
        copy = Copy(top)
        for part in [builds, changes, verdicts]:
            yield from ((name, other(found, right)) for name, found, right in part(copy))
    built = subprocess.run([f"{ROOT}/bitpack"], input=LINE, stdout=subprocess.PIPE)
    yield "the script bitpack", other(built.stdout, ANSWER)
    yield from ((name, other(found, right)) for name, found, right in runs())


if __name__ == "__main__":
    sys.exit(report(checks()))
