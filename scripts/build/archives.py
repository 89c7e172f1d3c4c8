#!/usr/bin/env python3
"""Builds the archives of proved code that C programs link, into rust/out/:

    rust/out/libbitpacking.a                     for x86-64: each function chooses its level when it is called
    rust/out/LEVEL/libbitpacking.a               of one level of x86-64
    rust/out/TARGET/libbitpacking.a              for aarch64, which has one level

It proves the crate `bitpacking_c` once, and those below it that out/proved/ has not of these sources; each level and target takes that
proof, and only compiles. Then it looks at each archive: what it exports and needs, its data and unwinding, and its instructions. Wrong
archives are refused.

If no source changed since the last run nothing is built. After `archives.py --fast` cargo builds the archives of x86-64 from the same
sources without a proof (scripts/build/by_cargo.py), until `archives.py` is called without it: an installation says so, no release has them,
and no table of a page is written over them. With --in-check it is left out if it lacks a tool. The tests over archives call it.
"""
import contextlib
import functools
import hashlib
import os
import re
import shutil
import sys
import time

sys.path.insert(1, f"{sys.path[0]}/..")
from common import ROOT, Failed, left_out_without, missing, report, run, words
import by_cargo
import choosing
import proving

OUT = f"{ROOT}/rust/out"
TOOLS = ["rt", "cc", "ld", "ar", "nm", "objcopy", "objdump"]
LEVELS = choosing.LEVELS
ARM = "aarch64-unknown-linux-gnu"
# The archives for C, by their folders in rust/out/, and what rattle is told for each.
BUILDS = {level: ["--cpu", level] for level in LEVELS.values()} | {ARM: ["--target", ARM]}
ALL = "libbitpacking.a"
# This file is there if the archives are not proved.
NOT_PROVED = f"{OUT}/NOT_PROVED"
# The levels with registers of 256 bits, which objdump calls ymm.
WIDE = {"x86-64-v3"}


def sources():
    """A number that changes with each source of what is proved, with the toolchain, and with the choice of a level."""
    return hashlib.sha256((proving.sum_of("bitpacking_c") + choosing.chooser()).encode()).hexdigest()


def are_given():
    """Whether the archives are those of a bundle, which has none of the sources that they are built from."""
    return not os.path.exists(f"{ROOT}/crates.txt")


def are_fast():
    """Whether the archives are not proved."""
    return os.path.exists(NOT_PROVED)


def archive(build):
    """The archive for C of a level or a target."""
    return f"{OUT}/{build}/{ALL}"


def proved_and_built():
    """Builds the archives."""
    print("proving and building the archives: nine minutes on four cores, or three if out/proved/ has the crates below", flush=True)
    start = time.time()

    def tell(_, line):
        if re.match(r"\w+: rattle |logic=", line):
            print(f"{time.time() - start:.0f} s: {line}", end="", flush=True)

    try:
        for build, made in proving.archives("bitpacking_c", BUILDS, tell).items():
            os.makedirs(f"{OUT}/{build}", exist_ok=True)
            os.replace(made, archive(build))
    except proving.Failed as why:
        print(why.said)
        raise Failed(str(why)) from why
    choosing.joined({prefix: archive(level) for prefix, level in LEVELS.items()}, f"{OUT}/{ALL}")


def faults(path, data=0, needs=frozenset(["memcpy", "memmove", "memset"])):
    """What is wrong with an archive for C, which has that many bytes of data, and needs these functions."""
    exported = set(re.findall(r"^\w+ \w (\w+)$", run("nm", "-g", "--defined-only", path).stdout, re.M))
    if exported != set(choosing.prototypes()):
        yield f"it exports {sorted(exported ^ set(choosing.prototypes()))[:4]}, or the header declares them"
    needed = {line.split()[-1] for line in run("nm", "-u", path).stdout.split("\n") if line.strip().startswith("U ")}
    if not needed <= needs:
        yield f"it needs {sorted(needed)}"
    found = 0
    for name, size in re.findall(r"^\s*\d+ (\S+)\s+([0-9a-f]+)", run("objdump", "-h", path).stdout, re.M):
        if re.match(r"\.(data(?!\.rel\.ro)|bss|tdata|tbss|t?common)", name):
            found += int(size, 16)
        elif int(size, 16) > 0 and re.match(r"\.(eh_frame|gcc_except_table)", name):
            yield f"it has a section {name}"
    if found != data:
        yield f"it has {found} bytes of data, and not {data}"


@functools.cache
def instructions(path):
    """A number that changes with the instructions of an archive and the functions that they call, and how many have registers of 256 bits."""
    text = run("objdump", "-d", "--no-show-raw-insn", path).stdout.partition("Disassembly of section")[2]
    return hashlib.sha256(text.encode()).hexdigest(), text.count("%ymm")


def faults_of_level(build, path, others=()):
    """What is wrong with the instructions of an archive for C. The others are builds that have to differ from it."""
    same, wide = instructions(path)
    if build in WIDE and wide == 0:
        yield "it has no register of 256 bits"
    if build not in WIDE and wide > 0:
        yield f"{wide} of its instructions have registers of 256 bits"
    yield from (f"its instructions are those of {other}" for other in others if other != build and instructions(archive(other))[0] == same)


def by_instructions():
    """Each check of the instructions of the archives, and each of a wrong archive, as a name and what is wrong, or None."""
    for build in BUILDS:
        yield f"the instructions for {build}", "; ".join(faults_of_level(build, archive(build), BUILDS)) or None
    wide = sum(instructions(archive(level))[1] for level in LEVELS.values())
    found = instructions(f"{OUT}/{ALL}")[1]
    yield "the archive for all levels", None if found == wide else f"{found} of its instructions have registers of 256 bits, and not {wide}"
    least, widest, whole = archive("x86-64"), archive("x86-64-v3"), f"{OUT}/{ALL}"
    for what, found, wanted in [
        ("an archive of x86-64 for x86-64-v3", faults_of_level("x86-64-v3", least), "it has no register of 256 bits"),
        ("an archive of x86-64-v3 for x86-64-v2", faults_of_level("x86-64-v2", widest), "have registers of 256 bits"),
        ("an archive of x86-64 for x86-64-v2", faults_of_level("x86-64-v2", least, BUILDS), "its instructions are those of x86-64"),
        ("data beside the level", faults(whole, data=0), "it has 4 bytes of data, and not 0"),
        ("less data than said", faults(whole, data=8), "it has 4 bytes of data, and not 8"),
    ]:
        yield f"a wrong archive: {what}", None if any(wanted in it for it in found) else "nothing refuses it"


def looked_at():
    """What is wrong with each archive, by its name, or None."""
    for build in BUILDS:
        yield f"the archive for {build}", "; ".join(faults(archive(build))) or None
    yield "the archive for all levels", "; ".join(faults(f"{OUT}/{ALL}", data=4)) or None


def choose(is_fast):
    """Sets whether archives are to be proved. Those of the other kind are taken away."""
    if is_fast != are_fast():
        shutil.rmtree(OUT, ignore_errors=True)
        os.makedirs(OUT)
        if is_fast:
            choosing.written(NOT_PROVED, "")


def build(thorough=False):
    """Builds the archives if they are not there, of these sources. What was built has its instructions looked at; if asked to be thorough, all
    have. Returns each check of the archives as a name and what is wrong, or None."""
    stamp, number = f"{OUT}/sources", sources()
    there = all(map(os.path.isfile, [stamp, f"{OUT}/{ALL}", *map(archive, BUILDS)]))
    is_fresh = there and open(stamp, encoding="ascii").read() == number
    # Several may look at archives that are there at once, and none of them touches the note.
    if not is_fresh:
        with contextlib.suppress(FileNotFoundError):
            os.remove(stamp)
        proved_and_built()
    checks = [*looked_at(), *(by_instructions() if thorough or not is_fresh else [])]
    is_right = all(wrong is None for _, wrong in checks)
    if is_right and not is_fresh:
        choosing.written(stamp, number)
    elif is_fresh and not is_right:
        os.remove(stamp)
    return checks


def need():
    """Builds what is not there. `Failed` says what is wrong with an archive."""
    if are_fast():
        print("the archives are not proved: scripts/build/archives.py builds those that are", flush=True)
        by_cargo.for_all("quick", OUT)
        return
    wrong = [f"{name}: {why}" for name, why in build() if why is not None]
    if wrong:
        raise Failed("; ".join(wrong))


def status_without(part, *tools, others=()):
    """The exit status of a script over the archives that cannot run, once it has said why: it lacks a tool or others, or an archive is not
    right. None if it can run."""
    if left_out_without(part, *TOOLS, *tools, others=others):
        return 0
    try:
        return need()
    except Failed as why:
        return report([("the archives", str(why))])


def reported(part, checks, *tools, others=()):
    """Reports what a function checks over the archives, if nothing is missing. Returns the status of the script."""
    status = status_without(part, *tools, others=others)
    return report(checks()) if status is None else status


def main():
    if are_given():
        print("archives.py: this bundle has the archives, and not the sources that they are built from", file=sys.stderr)
        return 2
    given = words("--fast", "--in-check")
    lacking = missing(*(by_cargo.TOOLS if "--fast" in given else TOOLS))
    if lacking and "--in-check" not in given:
        print(f"archives.py: there is no {' and no '.join(lacking)}, and nothing was built", file=sys.stderr)
        return 2
    choose("--fast" in given)
    if left_out_without("the archives for C", *TOOLS):
        return 0
    try:
        return report(build(thorough=True) if "--fast" not in given else [("the archives without a proof", need())])
    except Failed as why:
        return report([("the archives", str(why))])


if __name__ == "__main__":
    sys.exit(main())
