"""Proves crates and compiles them with `rattle`, the compiler that `rt` calls.

`rt lib` keeps each proof for later checks, and the crates above load all of them again. Here the crates above load what a library states and no
proof, and nothing else is kept in out/proved/. From nothing that takes 30 % less time. scripts/check puts there what `rt ci` proved: until then
it has the lock of the library, for which each other call waits.

If only bodies of a library change, it is proved again, and the crates above it are not. The library that they were proved over stays then, since
rattle refuses a library beside another build of one below it. A program or an archive has the code itself: for these all libraries are proved from
the present sources.
"""

import collections
import concurrent.futures
import contextlib
import fcntl
import functools
import glob
import hashlib
import os
import re
import shutil
import subprocess
import time

from common import ROOT, run, source

PROVED = f"{ROOT}/out/proved"
# The memory that a job may take, in bytes, and the most jobs that still make a check faster.
EACH, MOST = 5 << 29, 8
# The seconds of a check before it proves.
START = 15
# The words of a verdict that says all: what was proved, for what machine, and by the checks of earlier runs that it trusts. `rt ci` refuses
# others, such as may-abort, hides and main, and any that it does not know, which may say what is left out.
SAID = {"functions", "axioms", "target", "cpu", "sum", "native"}
SAID |= {"logic-built", "libraries-built", "statements", "incremental"}
# What a library has but does not state: the code of its functions, the proofs about them, how it was built, and sums of all these. Of the parts of
# a function in made.json crates above see its contract, Code, Kinds, Met, Reads, Statement and Symbol.
UNSTATED = re.compile(r"toolchain/|lang/antt/proofs/.*/(Answers|Invariants|Proof)\.antt$")
UNSTATED_LINES = {
    "format": re.compile(rb"(carries|needs|over|incremental|checked|sum)\b"),
    "lang/antt/made.json": re.compile(rb'\{"(Mir|Lts|Given|Needs|Named|Close|MadeProof)":'),
}
# A line that says what is proved.
SAYS_PROVED = re.compile(r": proved$|^statements ")


class Failed(Exception):
    """A command of the toolchain failed. `said` has the last lines that it printed, but those of what is proved."""

    def __init__(self, why, said):
        super().__init__(why)
        self.said = said


def crates():
    """By crate of the repository, those that it names, of the toolchain too."""
    return {name: needs.split() for name, needs in re.findall(r"^(\w+)[^:\n#]*:(.*)$", source("crates.txt"), re.M)}


def libraries(crate):
    """The libraries of the repository below a crate, each after those that it needs itself."""
    found = [it for need in crates()[crate] if need in crates() for it in [*libraries(need), need]]
    return list(dict.fromkeys(found))


@functools.cache
def kit():
    """The folder of the toolchain."""
    return os.path.dirname(run("rt", "doc").stdout.strip())


@functools.cache
def toolchain():
    """The version of the toolchain."""
    return run("rt", "version").stdout


def digest_of(path):
    """A number that changes with a file."""
    with open(path, "rb") as file:
        return hashlib.sha256(file.read()).digest()


def sources_of(crate, top=ROOT, crates_of=None):
    """A number that changes with each source of a crate and of those below it, or of other crates, in a copy of the repository."""
    found = hashlib.sha256()
    for name in crates_of or [*libraries(crate), crate]:
        line = re.search(rf"^{name}\b.*$", source("crates.txt"), re.M)[0]
        found.update(f"{line}\n".encode())
        for path in sorted(glob.glob(f"{top}/crates/{name}/[sp]*/**", recursive=True)):
            if path.endswith((".rt", ".antt")):
                found.update(f"{os.path.relpath(path, top)}\n".encode() + digest_of(path))
    return found.hexdigest()


def sum_of(crate, top=ROOT):
    """A number that changes with the toolchain too."""
    return hashlib.sha256((toolchain() + sources_of(crate, top)).encode()).hexdigest()


def builds_below(crate):
    """A number that changes with the libraries of out/proved/ that a check of a crate reads: the `format` of each has a sum of all of it."""
    found = hashlib.sha256()
    for below in libraries(crate):
        path = f"{PROVED}/{below}.rlib/format"
        found.update(f"{below}\n".encode() + (digest_of(path) if os.path.exists(path) else b""))
    return found.hexdigest()


def sum_over(crate):
    """A number that changes with the toolchain, each source of a crate, and the libraries of out/proved/ that a check of it reads."""
    return hashlib.sha256((toolchain() + sources_of(crate, crates_of=[crate]) + builds_below(crate)).encode()).hexdigest()


def stated(rlib):
    """A number that changes with what a library states: its contracts, types, definitions and lemmas."""
    found = hashlib.sha256()
    for path in sorted(glob.glob(f"{rlib}/**", recursive=True)):
        name = os.path.relpath(path, rlib)
        if os.path.isfile(path) and not UNSTATED.match(name):
            with open(path, "rb") as file:
                lines = [line for line in file if name not in UNSTATED_LINES or not UNSTATED_LINES[name].match(line)]
            found.update(f"{name}\n".encode() + hashlib.sha256(b"".join(lines)).digest())
    return found.hexdigest()


def free_memory():
    """The memory that is free, in bytes."""
    with open("/proc/meminfo", encoding="ascii") as file:
        return 1024 * int(re.search(r"MemAvailable:\s+(\d+)", file.read())[1])


def free_jobs():
    """How many processors a check uses: as many as there are and memory is free for."""
    return max(1, min(MOST, len(os.sched_getaffinity(0)), free_memory() // EACH))


def words_of(crate):
    """What rattle is told of a crate: its root, the libraries that it names, the logic, and that it has no C."""
    root = "main" if os.path.isfile(f"{ROOT}/crates/{crate}/src/main.rt") else "lib"
    needs = {need: f"{PROVED}/{need}.rlib" if need in crates() else f"{kit()}/rlibs/{need}.rlib" for need in [*crates()[crate], "std"]}
    words = ["--crate-name", crate, f"src/{root}.rt", "-L", f"dependency={kit()}/rlibs", "-L", f"dependency={PROVED}"]
    words += ["--crate-type", "staticlib"] * bool(re.search(rf"^{crate} staticlib:", source("crates.txt"), re.M))
    words += [word for need, rlib in needs.items() for word in ["--extern", f"{need}={rlib}"]]
    return [*words, "--antt-project", f"{kit()}/rattle/logic/antt-project.json", "--links", f"{crate}="]


def called(crate, tell, *command):
    """Runs a command in the folder of a crate, and tells each line that it prints. Returns the verdicts among these."""
    how = {"stdin": subprocess.DEVNULL, "stdout": subprocess.PIPE, "stderr": subprocess.STDOUT, "text": True, "errors": "replace"}
    said, verdicts = collections.deque(maxlen=16), []
    tell(crate, f"{crate}: {os.path.basename(command[0])} {command[1]}\n")
    with subprocess.Popen(command, cwd=f"{ROOT}/crates/{crate}", **how) as ran:
        for line in ran.stdout:
            if not SAYS_PROVED.search(line):
                said.append(line)
            if line.startswith("logic="):
                verdicts.append(line)
            tell(crate, line)
    if ran.returncode != 0:
        raise Failed(f"{crate}: {os.path.basename(command[0])} {command[1]} ended with status {ran.returncode}", "".join(said))
    return verdicts


def rattle(crate, tell, verb, *words):
    """Has rattle check or build a crate, and reads the words of its verdicts. Returns these."""
    verdicts = called(crate, tell, f"{kit()}/bin/rattle", verb, *words_of(crate), *words)
    if not verdicts:
        raise Failed(f"{crate}: rattle {verb} printed no verdict", "")
    for verdict in verdicts:
        more = [it for it in verdict.split() if it != "logic=proved" and it.partition("=")[0] not in SAID]
        if more:
            raise Failed(f"{crate}: the verdict has what no crate of this repository may have: {' '.join(more)}", verdict)
    return verdicts


def proof(*words, jobs=None):
    """What rattle is also told if it proves a crate, and does not take what was proved."""
    return ["--logic-built", f"{kit()}/logic_built", "--jobs", str(jobs or free_jobs()), *words]


def library(crate, tell, is_code=False):
    """Proves a library, unless out/proved/ has one that states what its sources do. If its code is wanted too, it is made from the present sources,
    as all those below it are. These are proved before."""
    with alone(crate):
        if is_proved(crate) and (not is_code or noted(crate)["made"] == [sum_of(crate)]):
            return
        rlib, new, sums, start = f"{PROVED}/{crate}.rlib", f"{PROVED}/{crate}.new", (sum_of(crate), sum_over(crate)), time.time()
        shutil.rmtree(new, ignore_errors=True)
        # A check would show how many functions are proved, but the build after it would read the crate once more.
        verdicts = rattle(crate, tell, "build", *proof("--statements", "-o", new))
        effort = {"seconds": [round(time.time() - start)], "functions": re.findall(r"functions=(\d+)", verdicts[-1])}
        before = noted(crate)
        if not is_code and before.get("below") == [builds_below(crate)] and stated(new) == stated(rlib):
            note(crate, {**before, **effort, "over": [*before["over"], sums[1]]})
            shutil.rmtree(new)
        else:
            put(crate, new, *sums, effort)


def put(crate, made, sum_, over, effort):
    """Puts a library into out/proved/, made from sources of this sum over what is there."""
    with contextlib.suppress(FileNotFoundError):
        os.remove(f"{PROVED}/{crate}.sum")
    shutil.rmtree(f"{PROVED}/{crate}.rlib", ignore_errors=True)
    shutil.move(made, f"{PROVED}/{crate}.rlib")
    note(crate, {"made": [sum_], "below": [builds_below(crate)], "over": [over], **effort})


def taken(crate, before):
    """Puts the library that `rt ci` has just proved into out/proved/, if its sources are those of this sum, taken before it ran. It leaves out
    one that another command of `rt` built, which has a stamp."""
    made = f"{ROOT}/crates/{crate}/out/rlib"
    if os.path.isdir(f"{made}/{crate}.rlib") and not os.path.exists(f"{made}/stamp") and sum_of(crate) == before:
        shutil.rmtree(f"{PROVED}/{crate}.new", ignore_errors=True)
        shutil.copytree(f"{made}/{crate}.rlib", f"{PROVED}/{crate}.new")
        put(crate, f"{PROVED}/{crate}.new", before, sum_over(crate), {})


def program(crate, tell):
    """Proves a program, and writes it to the out/ of its crate."""
    made = f"{ROOT}/crates/{crate}/out/{crate}"
    os.makedirs(os.path.dirname(made), exist_ok=True)
    for below in libraries(crate):
        library(below, tell, is_code=True)
    with made_once(crate, made) as is_made:
        if is_made:
            os.utime(made)
            return
        by_llvm = ["--toolchain", f"{kit()}/toolchain", "--backend", "llvm"]
        rattle(crate, tell, "build", *proof(*by_llvm, "-o", f"{made}.o"))
        needs = [f"{made}.o", f"{kit()}/c/libos_c.a", f"{kit()}/c/liblibc_c.a"]
        called(crate, tell, f"{kit()}/bin/rattle-link", "--target", "x86_64-unknown-linux-gnu", *by_llvm[:2], "-o", made, *needs)


def kept(crate):
    """Where `check` keeps what it proved of a crate."""
    return f"{PROVED}/{crate}"


def check(crate, tell, is_code=False):
    """Proves a crate, and keeps each proof for later checks of it. `is_code` is as for `library`."""
    for below in libraries(crate):
        library(below, tell, is_code)
    with alone(f"{crate}.kept"):
        rattle(crate, tell, "check", *proof("--progress", "--incremental", kept(crate)))


def linked(one, other):
    """Copies a file. What was proved gets a second name instead: a check writes such a file anew, and never into it."""
    if one.endswith(".oantt"):
        try:
            os.link(one, other)
            return
        except OSError:
            # Two disks, for instance.
            pass
    shutil.copy2(one, other, follow_symlinks=False)


def archives(crate, builds, tell):
    """Proves a static library, and compiles it for each build side by side. `builds` has by name what rattle is told of a level or target.
    Returns by name the path of the archive."""

    def compiled(name):
        # A check writes into what it takes its proofs from, so each has its own.
        room, made = f"{PROVED}/{crate}.{name}", f"{PROVED}/{crate}.{name}.a"
        shutil.rmtree(room, ignore_errors=True)
        shutil.copytree(kept(crate), room, copy_function=linked)
        how = [*proof("--incremental", room), "--toolchain", f"{kit()}/toolchain", "--backend", "llvm", *builds[name]]
        rattle(crate, lambda *_: None, "build", *how, "-o", made)
        shutil.rmtree(room)
        return made

    with alone(f"{crate}.archives"):
        check(crate, tell, is_code=True)
        with concurrent.futures.ThreadPoolExecutor(free_jobs()) as pool:
            return dict(zip(builds, pool.map(compiled, builds)))


def noted(crate):
    """What is noted of a crate that out/proved/ has, or nothing: `made`, the sum of the sources that it was made from; `below`, that of the builds
    that it was proved over; `over`, the sums over these of the sources that were proved and state the same; and the `seconds` and `functions` of
    the last proof."""
    path = f"{PROVED}/{crate}.sum"
    if not os.path.exists(path):
        return {}
    with open(path, encoding="ascii") as file:
        return {name: rest for name, *rest in map(str.split, file)}


def note(crate, notes):
    with open(f"{PROVED}/{crate}.sum", "w", encoding="ascii") as file:
        file.writelines(f"{name} {' '.join(map(str, rest))}\n" for name, rest in notes.items())


def is_proved(crate):
    """Whether out/proved/ has a library that states what these sources do, proved over those below it that out/proved/ has."""
    return os.path.isdir(f"{PROVED}/{crate}.rlib") and sum_over(crate) in noted(crate).get("over", [])


def seconds(crate):
    """How many seconds the last proof of a library took, or None."""
    return next(map(int, noted(crate).get("seconds", [])), None)


def expected(functions, crates):
    """About how many seconds it takes to prove as many functions as that, by the last proofs of libraries, or None."""
    proved = {crate: int(noted(crate)["functions"][0]) for crate in crates if noted(crate).get("functions")}
    return START + round(functions * sum(map(seconds, proved)) / sum(proved.values())) if proved else None


@contextlib.contextmanager
def alone(name):
    """Waits until no other call makes what has this name in out/proved/."""
    os.makedirs(PROVED, exist_ok=True)
    with open(f"{PROVED}/{name}.lock", "w", encoding="ascii") as file:
        fcntl.flock(file, fcntl.LOCK_EX)
        yield


@contextlib.contextmanager
def made_once(crate, made):
    """Tells whether a file was made from these sources. If it was not, it is noted once the block made it."""
    with alone(crate):
        now, before = [sum_of(crate)], noted(crate)
        if before:
            os.remove(f"{PROVED}/{crate}.sum")
        yield before.get("made") == now and os.path.exists(made)
        note(crate, {"made": now})
