#!/usr/bin/env python3
"""Runs each command of the page of examples/numbers/, which install the program with warnings as errors, and compares what they print with the
page. Then it compares each verb with sets and sorted lists of Python, and the bytes that it writes with the models of docs/FORMAT.md. Then calls
that fail, and files that are replaced or not. Last comes a program with wrong changes, which tests have to see. A script `numbers.py`
would hide the module of this name from the library of Python.
"""
import functools
import operator
import os
import random
import re
import resource
import shlex
import shutil
import stat
import struct
import subprocess
import sys
import tempfile

sys.path.insert(1, f"{sys.path[0]}/..")
from common import ROOT, reported, run, source
import changes
from files import bytes_of, changed, failed, other, written
import rows
import trying
import vectors

FOLDER = "examples/numbers"
# Seconds for one call, which takes far below one.
PATIENCE = 240
MODEL = vectors.names_of(vectors.model())
# The kinds with their names, the order of two neighbours, and what is said of others.
KINDS = {
    "set": ("set", operator.lt, "the numbers of a set increase (--sort sorts them)"),
    "sorted": ("sorted column", operator.le, "the numbers of a sorted column do not decrease (--sort sorts them)"),
    "plain": ("plain column", lambda before, after: True, None),
}
# The verbs with their helps, of which the first line is the usage.
HELP = source(f"{FOLDER}/src/help.txt")
HELPS = {part.split()[1]: part for part in HELP.strip("\n").split("\n\n") if part.startswith("numbers ")}
CHANCE = random.Random(1)
# Numbers by what they are. The last have more than are written at once, and more bytes than are read at once.
SAMPLES = {
    "no number": [],
    "the greatest number of each length": sorted({*(10**n - 1 for n in range(10)), *(10**n for n in range(10)), 2**32 - 1}),
    "one number twice": [5, 5],
    "a fall": [9, 5, 2**32 - 1, 0],
    "close and far": [*range(7, 1007, 2), *range(10**9, 10**9 + 300 * 10**6, 10**6)],
    "repeated": sorted(CHANCE.choice(range(500)) for _ in range(900)),
    "many": [CHANCE.randrange(2**12) for _ in range(40_000)],
    "many and close": sorted(CHANCE.sample(range(200_000), 40_000)),
}
# Wrong calls, and what is said before the usage.
WRONG_CALLS = {
    "unpack --as set": "unknown option --as",
    "pack --as column": "KIND is set, sorted or plain",
    "pack --sort --as plain": "a plain column is not sorted: --as sorted is",
    "pack --from lists": "FORMAT is roaring",
    **{f"pack {it} --from roaring": "only --output may be beside --from" for it in ("--sort", "--binary", "--as set")},
    "unpack --to lists": "FORMAT is roaring",
    "unpack --binary --to roaring": "only --output may be beside --to",
    "head --lines -1 set": "'-1' is not a number from 0 to 4294967295",
    "rank set": "an operand is missing",
    "contains set 1.0": "'1.0' is not a number from 0 to 4294967295",
    "sum set set": "unexpected operand 'set'",
    "and set set --output": "--output requires FILE",
    "seek set 1 2": "unexpected operand '2'",
    "check": "an operand is missing",
    "between set 2 1": "LOW is 2, above HIGH 1",
    "between set 0 4294967296": "'4294967296' is not a number from 0 to 4294967295",
    "": "there is no verb",
}
MISSING, NO_REGULAR = "No such file or directory (os error 2)", "it is not a regular file, and is not replaced"
# The set of 1 and 3 without its last byte, and with a byte more, and bytes of neither kind: the faults by docs/FORMAT.md.
CUT, MORE = "cut: fault 1: bytes are missing", "more: fault 11: bytes are left over after the last id"
NEITHER = "7: fault 2: 7 is the first byte of no set and no column: numbers pack writes them"
# Calls that fail, and what they say.
FAILING = {
    **{
        it: f"nowhere: {MISSING}" for it in ("pack nowhere", "unpack nowhere", "describe nowhere", "between nowhere 0 1", "and nowhere set")
    },
    **{it: CUT for it in ("unpack cut", "head cut", "describe cut", "get cut 0", "between cut 0 1", "and cut set", "xor set cut")},
    **{it: CUT for it in ("rank cut 1", "contains cut 1", "sum cut")},
    "pack --from roaring cut": "cut: reading a bitmap of Roaring: bytes are missing",
    "pack --from roaring set": "set: reading a bitmap of Roaring: 130 is the first byte of no set",
    "unpack .": ".: Is a directory (os error 21)",
    **{f"{it} set column": "column: it is a column, not a set" for it in ("and", "or", "not", "xor")},
    "unpack --to roaring column": "column: it is a column, not a set",
    "seek plain 2": "plain: the column is plain",
    "get set 0 2": "set: there is no position 2: it has 2 numbers",
    "pack --as plain --binary long": "long: there are more than 268435456 numbers",
    "pack --binary fall": "fall: the last number has 2 bytes of 4",
}
# Wrong numbers, with their line and what is said of them.
WRONG_NUMBERS = [(b"\xC3\xA9", 1, "\\xc3\\xa9"), (b"7\n+8\n", 2, "+8"), (b"1\r\n42949672950\r\n", 2, "42949672950")]
WRONG_NUMBERS += [(b"7\n" + b"0" * 2**17, 2, "0" * 20 + ".."), (b"7\n" * 10**5 + b"7x\n7", 10**5 + 1, "7x")]


def text_of(values):
    return "".join(f"{value}\n" for value in values).encode()


def binary_of(values):
    return struct.pack(f"<{len(values)}I", *values)


def packed(kind, values):
    return MODEL["encode_set"](values) if kind == "set" else MODEL["encode_column"](int(kind == "sorted"), values)


def disorder(kind, values):
    """The first position with a number that is out of order, and what is said of it; or None."""
    _, order, rule = KINDS[kind]
    found = (it for it in range(1, len(values)) if not order(values[it - 1], values[it]))
    return next(((it, f"{values[it]} comes after {values[it - 1]}: {rule}") for it in found), None)


def facts(kind, encoding, values):
    """The lines of a file that says what it is."""
    more = [f"bits a number: {8 * len(encoding) / len(values):.2f}", f"least: {min(values)}", f"greatest: {max(values)}"] if values else []
    lines = ["file: standard input", f"kind: {KINDS[kind][0]}", f"numbers: {len(values)}", f"bytes: {len(encoding)}", *more]
    return "".join(f"{line}\n" for line in lines).encode()


def description(kind, encoding, values):
    limits = f", {8 * len(encoding) / len(values):.2f} bits a number, from {min(values)} to {max(values)}" if values else ""
    return f"{KINDS[kind][0]}, {len(values)} numbers in {len(encoding)} bytes{limits}"


class Program:
    """The program, and a folder for files."""

    def __init__(self, folder, name="numbers"):
        self.folder, self.path = f"{folder}/files", f"{folder}/bin/{name}"
        os.mkdir(self.folder)
        built = {"RUSTFLAGS": "-D warnings", "CARGO_NET_OFFLINE": "true", "CARGO_INSTALL_ROOT": folder}
        self.env = {"CARGO_TARGET_DIR": f"{ROOT}/out/numbers"} | os.environ | built
        self.env |= {"PATH": f"{folder}/bin:{os.environ['PATH']}", "LC_ALL": "C"}

    def differs(self, wanted, *words, **more):
        """What is wrong if a call has another answer than this status, these bytes and this message; or None."""
        given = {} if "stdin" in more else {"input": more.pop("given", b"")}
        how = {**given, "stdout": subprocess.PIPE, "stderr": subprocess.PIPE, "cwd": self.folder}
        done = subprocess.run([self.path, *map(str, words)], check=False, timeout=PATIENCE, **(how | more))
        return other((done.returncode, done.stdout, (done.stderr or b"").decode(errors="replace")), (*wanted, "", "")[:3])

    def fails(self, message, *words, **more):
        """What is wrong if a call does not fail with this message."""
        return self.differs((2, b"", f"numbers: {message}\n"), *words, **more)

    def write(self, **contents):
        written(self.folder, contents)


def of_page(program):
    """Each command of the page, and what it prints. The first installs the program."""
    lines = [line[4:] for line in source(f"{FOLDER}/README.md").split("\n") if line.startswith("    ")]
    calls = [number for number, line in enumerate(lines) if line.startswith("$ ")]
    yield "the first line of the page", None if calls[:1] == [0] else "it is no command"
    for number, end in zip(calls, [*calls[1:], len(lines)]):
        command, wanted = lines[number][2:], "".join(f"{line}\n" for line in lines[number + 1 : end])
        is_cargo = command.startswith("cargo ")
        done = run("sh", "-c", command, folder=ROOT if is_cargo else program.folder, env=program.env, stderr=subprocess.PIPE)
        right = done.stdout == wanted and done.stderr == "" or is_cargo and done.returncode == 0
        yield f"{FOLDER}/README.md: {command}", None if right else f"it prints {done.stdout} {done.stderr[-4000:]}"
    shown = {found for number in calls for found in re.findall(r"\bnumbers (\w+)", lines[number])}
    yield "the verbs that the page shows", None if shown == {*HELPS} else f"they differ by {shown ^ {*HELPS}}"


def ordering(program):
    """Without a kind it packs a set. A number that is out of order is an error. With --sort each sample is packed."""
    for what, values in SAMPLES.items():
        for kind, wanted in ("set", []), ("set", ["--as", "set"]), ("sorted", ["--as", "sorted"]):
            right = packed(kind, sorted(set(values) if kind == "set" else values))
            for option, given in ([], text_of(values)), (["--binary"], binary_of(values)):
                call, found = ["pack", *option, *wanted], disorder(kind, values)
                name = f"{' '.join(call)} of {what}"
                place = found and (f"position {found[0]}" if option else f"line {found[0] + 1}")
                message = found and f"numbers: standard input: {place}: {found[1]}\n"
                yield name, program.differs((2, b"", message) if found else (0, right), *call, given=given)
                yield f"sorting: {name}", program.differs((0, right), *call, "--sort", given=given)
    with subprocess.Popen(["yes", "7"], stdout=subprocess.PIPE) as endless:
        message = "standard input: line 2: 7 comes after 7: " + KINDS["set"][2]
        yield "numbers without an end that are out of order", program.differs(
            (2, b"", f"numbers: {message}\n"), "pack", stdin=endless.stdout
        )
        endless.kill()


def packing(program):
    """Each sample is packed as each kind that it can be, from text and from bytes, unpacked to both, and described. What finds nothing has
    status 1."""
    for what, values in SAMPLES.items():
        for kind in [it for it in KINDS if not disorder(it, values)]:
            content, name = packed(kind, values), f"{what} as {kind}"
            for option, given in ([], text_of(values)), (["--binary"], binary_of(values)):
                yield f"packing {name} {option}", program.differs((0, content), "pack", *option, "--as", kind, given=given)
                yield f"unpacking {name} {option}", program.differs((0, given), "unpack", *option, given=content)
            line = f"standard input: {description(kind, content, values)}\n".encode()
            yield f"check of {name}", program.differs((0, line), "check", "-", given=content)
    program.write(few=packed("set", [7, 9]))
    yield from ((call, program.differs((1, b""), *call.split())) for call in ("seek few 10", "between few 0 6"))


def bitmaps(program):
    """The bitmaps of vectors/ are packed, from standard input and from a file to a file, and bytes that are none are refused. Sets are written as
    CRoaring does."""
    for number, row in enumerate(rows.table("bitmaps.tsv")):
        given, wanted = rows.octets(row["bytes"]), packed("set", [*rows.spelled_ids(row["ids"])])
        yield f"bitmap {number}", program.differs((0, wanted), *"pack --from roaring".split(), given=given)
        if row["croaring"] == "yes":
            yield f"bitmap {number} of a set", program.differs((0, given), *"unpack --to roaring".split(), given=wanted)
    program.write(bitmap=given)
    why = program.differs((0, b""), *"pack --from roaring --output out bitmap".split())
    yield "a bitmap, to a file", why or other(bytes_of(f"{program.folder}/out"), wanted)
    for row in rows.table("refused_bitmaps.tsv")[::9]:
        done = subprocess.run(
            [program.path, "pack", "--from", "roaring"], input=rows.octets(row["bytes"]), capture_output=True, check=False
        )
        right = (done.returncode, done.stdout, done.stderr[:54]) == (2, b"", b"numbers: standard input: reading a bitmap of Roaring: ")
        yield f"refused bitmap {row['bytes'][:80]}", None if right else done


def questions(program):
    """Each sample as each kind is asked: its facts, its first numbers, its sum, how many numbers are below one, and which it has."""
    chance = random.Random(2)
    for what, values in SAMPLES.items():
        near = [number + add for number in chance.sample(values, min(len(values), 6)) for add in (-1, 0, 1)]
        probes = [0, 2**32 - 1, *(it for it in near if 0 <= it < 2**32)]
        there = [it for it in probes if it in values]
        for kind in [it for it in KINDS if not disorder(it, values)]:
            content, name = packed(kind, values), f"{what} as {kind}"
            yield f"describe: {name}", program.differs((0, facts(kind, content, values)), "describe", given=content)
            for words, count in ([], 10), (["--lines", 0], 0), (["--lines", 17_000], 17_000):
                yield f"head {words}: {name}", program.differs((0, text_of(values[:count])), "head", *words, given=content)
            yield f"sum: {name}", program.differs((0, text_of([sum(values)])), "sum", given=content)
            below = text_of([sum(value < probe for value in values) for probe in probes])
            yield f"rank: {name}", program.differs((0, below), "rank", "-", *probes, given=content)
            status = 0 if there == probes else 1
            yield f"contains: {name}", program.differs((status, text_of(there)), "contains", "-", *probes, given=content)
            if there:
                yield f"contains all: {name}", program.differs((0, text_of(there)), "contains", "-", *there, given=content)


def great(program):
    """A column of 2^24 numbers, the greatest that there are, which unpacked have 64 MiB: with less memory it is asked all the same."""
    program.write(greatest=b"\xFF" * 2**26)
    yield "packing 2^24 numbers", program.differs((0, b""), *"pack --as plain --binary greatest --output great".split())
    limit = {"preexec_fn": lambda: resource.setrlimit(resource.RLIMIT_AS, (2**25, 2**25))}
    yield "head of 2^24 numbers", program.differs((0, text_of([2**32 - 1] * 2)), *"head --lines 2 great".split(), **limit)
    yield "sum of 2^24 numbers", program.differs((0, b"72057594021150720\n"), "sum", "great", **limit)
    yield "rank in 2^24 numbers", program.differs((0, b"0\n"), "rank", "great", 2**32 - 1, **limit)


def texts(program):
    """Numbers in other texts than `unpack` writes, other words of calls, and what programs say of themselves."""
    # The set of four ids that docs/FORMAT.md has.
    ids = bytes.fromhex("84 07 09 01008404")
    yield "text with zeros", program.differs((0, ids), "pack", given=b"007\r\n" + b"0" * 60_000 + b"9\t10  300\n")
    yield "a number in two pieces", program.differs((0, ids), "pack", given=b"7 9" + b" " * (2**16 - 4) + b"10 300")
    # A column of docs/FORMAT.md.
    program.write(**{"-odd": b"5 5 9"})
    column = bytes.fromhex("63 05 03 20")
    yield "a file that begins as an option", program.differs((0, column), *"pack --as set --as sorted -- -odd".split())
    yield from ((f"{it} set --help", program.differs((0, f"{text}\n".encode()), it, "set", "--help")) for it, text in HELPS.items())


def combining(program):
    """What all sets have, any of them, the first alone, or an odd number of them."""
    chance, operations = random.Random(3), {"and": operator.and_, "or": operator.or_, "not": operator.sub, "xor": operator.xor}
    for number in range(12):
        count, most = 2 + number % 5, [30, 3000, 300_000, 2**32][number % 4]
        sets = [{chance.randrange(most) for _ in range(chance.choice([0, 3, 300, 2000]))} for _ in range(count)]
        names = [f"set{position}" for position in range(count)]
        program.write(**{name: packed("set", sorted(ids)) for name, ids in zip(names, sets)})
        for verb, operation in operations.items():
            ids = sorted(functools.reduce(operation, sets))
            status, given = 0 if ids else 1, packed("set", sorted(sets[1]))
            for form, wanted in ("", packed("set", ids)), ("--text", text_of(ids)), ("--count", f"{len(ids)}\n".encode()):
                name = f"{verb} {form} of {count} sets below {most}"
                yield name, program.differs((status, wanted), verb, *form.split(), names[0], "-", *names[2:], given=given)
                why = program.differs((status, b""), verb, *form.split(), *names, "--output", "out")
                yield f"{name}, to a file", why or other(bytes_of(f"{program.folder}/out"), wanted)


def failing(program):
    """Calls that fail, wrong numbers, and standard output that is full, or has no reader any more."""
    for call, what in WRONG_CALLS.items():
        usage = f"the usage is {HELPS[call.split()[0]].splitlines()[0]}" if call else "see numbers --help"
        yield f"the call {call}", program.fails(f"{what}: {usage}", *call.split())
    for given, line, word in WRONG_NUMBERS:
        text = f"standard input: line {line}: '{word}' is not a number from 0 to 4294967295"
        yield f"the numbers {given[-20:]}", program.fails(text, "pack", "--as", "plain", given=given)
    content = bytes.fromhex("82010101")
    program.write(set=content, cut=content[:-1], more=content + b"0", **{"7": b"\7"}, long=b"", fall=b"9 5 5\n")
    program.write(column=packed("sorted", [1, 3]), plain=packed("plain", [3, 1]))
    os.truncate(f"{program.folder}/long", 4 * (2**28 + 1))
    yield from ((call, program.fails(text, *call.split())) for call, text in FAILING.items())
    line = f"set: {description('set', content, [1, 3])}\n"
    wanted = 2, f"{CUT}\n{MORE}\n{NEITHER}\n{line}".encode(), f"numbers: nowhere: {MISSING}\n"
    yield "checking what is not there", program.differs(wanted, "check", "cut", "more", "7", "nowhere", "set")
    yield "checking what is not right", program.differs((1, f"{CUT}\n{line}".encode()), "check", "cut", "set")
    full, (ours, theirs) = os.open("/dev/full", os.O_WRONLY), os.pipe()
    os.close(ours)
    for call in "pack", "describe set", "head set", "sum set", "unpack set", "and set set", "--help":
        text = "numbers: standard output: No space left on device (os error 28)\n"
        yield f"{call} to a full disk", program.differs((2, None, text), *call.split(), stdout=full)
        yield f"{call} to a reader that has ended", program.differs((2, None), *call.split(), stdout=theirs)
    os.close(full)
    os.close(theirs)


def state(folder):
    """What the names of a folder are: modes, and what files have."""
    modes = {entry.name: entry.stat(follow_symlinks=False).st_mode for entry in os.scandir(folder)}
    return {name: (mode, bytes_of(f"{folder}/{name}") if stat.S_ISREG(mode) else None) for name, mode in modes.items()}


def output_cases():
    """Calls, the name of the file that they write, its bytes or why they fail, and how they run."""
    content, many = packed("set", [7, 9, 10, 300]), text_of(SAMPLES["many"])
    full = {"preexec_fn": lambda: resource.setrlimit(resource.RLIMIT_FSIZE, (1000, 1000)), "restore_signals": False}
    yield "pack --output new", "new", content, {}
    yield "pack --output old", "old", content, {}
    yield "pack --output -", "-", content, {}
    yield "pack --as plain --binary own --output own", "own", bytes.fromhex("42 01 02 02"), {}
    yield "unpack ../many --output old", "old", many, {}
    for name in "link", "dangling", "fifo", "folder", ".", "folder/..":
        yield f"pack --output {name}", name, NO_REGULAR, {}
    yield "pack --output nowhere/new", "nowhere/new", MISSING, {}
    yield "pack --output ''", "", MISSING, {}
    yield "pack --output old/new", "old/new", "Not a directory (os error 20)", {}
    yield "pack --as plain --binary old --output old", "old", "the last number has 2 bytes of 4", {}
    yield "pack --as plain ../text --output old", "old", "File too large (os error 27)", full


def outputs(program):
    """What --output replaces, and what it leaves as it was."""
    program.write(many=packed("plain", SAMPLES["many"]), text=text_of(SAMPLES["many"]))
    mask = os.umask(0o027)
    for number, (call, name, wanted, how) in enumerate(output_cases()):
        folder = f"{program.folder}/case{number}"
        written(folder, {"old": b"what was there", "own": binary_of([3, 1])})
        os.chmod(f"{folder}/old", 0o604)
        os.symlink("old", f"{folder}/link")
        os.symlink("nowhere", f"{folder}/dangling")
        os.mkfifo(f"{folder}/fifo")
        os.mkdir(f"{folder}/folder")
        before = state(folder)
        how, fails = {"cwd": folder, "given": b"7 9 10 300", **how}, isinstance(wanted, str)
        answer = (2, b"", f"numbers: {name}: {wanted}\n") if fails else (0, wanted if name == "-" else b"")
        why = program.differs(answer, *shlex.split(call), **how)
        right = before if fails or name == "-" else before | {name: (before.get(name, (stat.S_IFREG | 0o640,))[0], wanted)}
        yield call, why or other(state(folder), right)
    os.umask(mask)


def wrong_changes(folder):
    """A program with all wrong changes. With a name of its own cargo does not take it for the other one."""
    program, sources, manifest = Program(folder, "wrong"), f"{folder}/{FOLDER}", f"{folder}/{FOLDER}/Cargo.toml"
    shutil.copytree(f"{ROOT}/{FOLDER}", sources)

    def built(_):
        why = changed(manifest, '"../.."', f'"{ROOT}"') or changed(manifest, 'name = "numbers"', 'name = "wrong"')
        return why or failed(run("cargo", "install", "--path", sources, env=program.env))

    failing = lambda *_: [name for part in (ordering, questions, great) for name, why in part(program) if why]
    return trying.together(folder, changes.edits_in("number_files"), built, failing)


def checks():
    with tempfile.TemporaryDirectory(prefix="numbers-") as folder:
        program = Program(folder)
        yield from of_page(program)
        if os.path.exists(program.path):
            for part in ordering, packing, bitmaps, questions, great, texts, combining, failing, outputs:
                yield from part(program)
    with tempfile.TemporaryDirectory(prefix="numbers-wrong-") as folder:
        yield from wrong_changes(folder)


if __name__ == "__main__":
    sys.exit(reported("the command for files of numbers", checks, "cargo", "cc"))
