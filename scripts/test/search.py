#!/usr/bin/env python3
"""Builds the search engine of examples/search/ in Rust and in C, with warnings as errors, and tries both on the same files: their indexes
have to be the same bytes, and their answers the same text. The answers on examples/search/corpus/ are compared with `grep`, and the best
documents with those of ranked.py. Then come programs with wrong changes, which a test has to see, and last a thousand damaged indexes, in C with
the address sanitizer.
"""
import copy
import os
import random
import re
import resource
import shutil
import struct
import subprocess
import sys
import tempfile

sys.path.insert(1, f"{sys.path[0]}/..")
from common import ROOT, Failed, leave_out, run
import archives
import c
import changes
from files import bytes_of, changed, failed, other, written
import ranked
import rust
import trying

FOLDER = "examples/search"
CORPUS = f"{ROOT}/{FOLDER}/corpus"
SOURCES = [f"{ROOT}/{FOLDER}/{name}.c" for name in ("search", "index")]
# The status of a program that the sanitizer ends.
STOPPED = 99
ENVIRONMENT = dict(os.environ, ASAN_OPTIONS=f"detect_leaks=0:exitcode={STOPPED}", UBSAN_OPTIONS=f"exitcode={STOPPED}", LC_ALL="C")
# Seconds for one search, which takes far below one.
PATIENCE = 120
DAMAGES = 1000

# Queries, and what they mean by the sets of documents in which grep finds a word.
QUERIES = {
    "WARM water": lambda has: has("water") & has("warm"),
    "water -warm": lambda has: has("water") - has("warm"),
    "warm (oven | hive) -bread": lambda has: (has("warm") & (has("oven") | has("hive"))) - has("bread"),
    "warm oven | winter -bees": lambda has: (has("warm") & has("oven")) | (has("winter") - has("bees")),
    "water - (warm | cold) -(sea moon)": lambda has: has("water") - (has("warm") | has("cold")) - (has("sea") & has("moon")),
    "mo* -moon* night": lambda has: (has("mo[a-z0-9]*") & has("night")) - has("moon[a-z0-9]*"),
    "t* water | 2*": lambda has: (has("t[a-z0-9]*") & has("water")) | has("2[a-z0-9]*"),
    "water zebra": lambda has: set(),
    "zebra | water -zeb*": lambda has: has("water"),
    # Signs end a word of a query as they do in documents, and a sign that is no part of a word says nothing.
    "caf\u00E9": lambda has: has("caf"),
    "oven-clock | wi-fi": lambda has: (has("oven") & has("clock")) | (has("wi") & has("fi")),
    "water -warm'cold": lambda has: has("water") - (has("warm") & has("cold")),
    "2.5 | bees*": lambda has: (has("2") & has("5")) | has("bees[a-z0-9]*"),
    "warm-mo*": lambda has: has("warm") & has("mo[a-z0-9]*"),
    "mo*on | water*-": lambda has: (has("mo") & has("on")) | has("water"),
    # 70 brackets after one another, whose operands wait for the next word, and 60 after a minus, of which every second takes its word away.
    "water (" * 70 + "warm" + ")" * 70: lambda has: has("water") & has("warm"),
    "water -(" * 60 + "warm" + ")" * 60: lambda has: has("water") & has("warm"),
}
# Files, and the names that their documents get, in the order of their bytes. None is there for a file that is left out.
FILES = {
    "b-x": (b"word at the end", "b-x:1  word at the end"),
    "b/mark": (b"\r\n  First line\r\nword\r\n", "b/mark:2  First line"),
    "binary": (b"word" + b" " * 9000 + b"\0", None),
    "empty": (b"", None),
    "escape": (b"word \x1b[31m\x7f", "escape:1  word ?[31m?"),
    "long": (b"word " + b"x" * 64 + b" " + b"y" * 65, "long:1  word " + "x" * 64 + " " + "y" * 30),
    "signs": (b"--- !\n", None),
    "utf8": (b"x" * 98 + b" \xC3\xA9 word", "utf8:1  " + "x" * 98 + " "),
}
# Queries that are refused, after which part of them, and why.
NO_WORD = "a word is missing, or one without a minus"
NO_PHRASES = "a query has no phrases: without the quotes it finds documents with all words"
NO_FIELDS = "a query has no fields: a space in place of the colon finds documents with both words"
REFUSED = {
    "a (b": ("a (b", "a bracket is not closed"),
    "a)": ("a", "no bracket is open"),
    "": ("", NO_WORD),
    "a | -b": ("a | -b", NO_WORD),
    "' + |": ("' + ", NO_WORD),
    "a* caf\u00E9 (": ("a* caf\u00E9 (", NO_WORD),
    '"free software"': ("", NO_PHRASES),
    'water -(warm "': ("water -(warm ", NO_PHRASES),
    "water title:warm": ("water title", NO_FIELDS),
    "caf\u00E9: (": ("caf\u00E9", NO_FIELDS),
    # 65 sets wait, one more than a query may have.
    "a -(" * 64 + "a" + ")" * 64: ("a -(" * 64 + "a" + ")" * 64, "too many brackets after a minus are nested"),
}
LONGEST_QUERY = 1000
# A library that is loaded before the others, and says when a program stores a file or names it.
STORING = """#include <fcntl.h>
#include <stdio.h>
#include <sys/stat.h>
#include <unistd.h>
int fsync(int file) {
    char link[40], path[4096] = {0};
    struct stat status;
    sprintf(link, "/proc/self/fd/%d", file);
    if (fstat(file, &status) || readlink(link, path, sizeof path - 1) < 0) return -1;
    dprintf(2, S_ISDIR(status.st_mode) ? "stored %s\\n" : "stored %s of %ld bytes\\n", path, (long)status.st_size);
    return fdatasync(file);
}
int rename(const char *from, const char *to) {
    dprintf(2, "named %s\\n", to);
    return renameat(AT_FDCWD, from, AT_FDCWD, to);
}
"""
# What the program in C is linked with so that it says how many documents each word has that it ranks by.
RANKING = """#include <stdio.h>
#include "bitpacking.h"
static void say(const bitpacking_term *terms, size_t len) {
    for (size_t i = 0; i < len; i++) fprintf(stderr, "ranked %zu\\n", bitpacking_set_len(&terms[i].set));
}
ptrdiff_t __real_bitpacking_best(const bitpacking_term *, size_t, const uint8_t *, size_t, size_t, bitpacking_walk *, size_t, bitpacking_scored *, size_t);
ptrdiff_t __wrap_bitpacking_best(const bitpacking_term *terms, size_t len, const uint8_t *classes, size_t documents, size_t at_least,
                                 bitpacking_walk *walks, size_t walks_len, bitpacking_scored *found, size_t room) {
    say(terms, len);
    return __real_bitpacking_best(terms, len, classes, documents, at_least, walks, walks_len, found, room);
}
ptrdiff_t __real_bitpacking_best_among(const uint32_t *, size_t, const bitpacking_term *, size_t, const uint8_t *, size_t, bitpacking_scored *, size_t);
ptrdiff_t __wrap_bitpacking_best_among(const uint32_t *ids, size_t ids_len, const bitpacking_term *terms, size_t len, const uint8_t *classes,
                                       size_t documents, bitpacking_scored *found, size_t room) {
    say(terms, len);
    return __real_bitpacking_best_among(ids, ids_len, terms, len, classes, documents, found, room);
}
"""
WRAPPED = "-Wl,--wrap=bitpacking_best,--wrap=bitpacking_best_among"
# Queries whose first word that counts is not the rarest, by the corpus.
UNORDERED = ["water | warm | hive", "water warm", "(water | bees) winter", "water warm oven"]
MISSING, NO_REGULAR = "No such file or directory", "it is no regular file, and is not replaced"


def built_in_c(path, sources, *flags):
    """Compiles sources. Returns the path of the program, and what the compiler did."""
    return path, run(*c.C99, "-O1", *flags, *sources, f"{archives.OUT}/{archives.ALL}", "-lm", "-o", path)


def built_in_rust(name, package):
    """Builds a package of this name."""
    return f"{archives.OUT}/target/release/{name}", rust.cargo("build", "--release", package=package)


class Programs:
    """The programs, by their names, and what they print."""

    def __init__(self, folder):
        self.folder, self.paths, self.faults = folder, {}, []
        sanitizers = c.has_sanitizers()
        if not sanitizers:
            leave_out("damaged indexes under the address sanitizer", "which cc does not have here")
        for name, flags in [("c", [])] + [("sanitized", c.SANITIZED)] * sanitizers:
            os.mkdir(f"{folder}/{name}")
            self.add(name, *built_in_c(f"{folder}/{name}/search", SOURCES, *flags))
        self.add("rust", *built_in_rust("search", f"{FOLDER}/rust"))

    def add(self, name, path, built):
        """Adds a program, which is at this path, and says what is wrong with what its compiler did."""
        self.paths[name] = path
        self.faults.append((f"the program {name}", failed(built)))

    def run(self, name, *arguments):
        """The status of a program, what it prints, and its messages."""
        command, given = [self.paths[name], *arguments], {"stderr": subprocess.PIPE, "env": ENVIRONMENT, "timeout": PATIENCE}
        done = run(*command, folder=self.folder, **given)
        return done.returncode, done.stdout, done.stderr

    def same(self, *arguments):
        """What all of the programs answer, and what is wrong if they differ. In the messages the system's own differ."""
        answers = {name: self.run(name, *arguments) for name in self.paths}
        status, text, messages = answers["c"]
        differ = [name for name, answer in answers.items() if answer[:2] != (status, text)]
        return status, text, messages, f"{differ} answers otherwise than c: {answers}" if differ else None

    def index(self, *arguments):
        """Writes an index with each of the programs. Returns its name, and what is wrong if the bytes differ or a program says more."""
        for name in self.paths:
            status, _, messages = self.run(name, "index", *arguments, f"index.{name}")
            if status != 0 or messages:
                return None, f"{name} ends with {status}, and says {messages}"
        indexes = {bytes_of(f"{self.folder}/index.{name}") for name in self.paths}
        return "index.c", None if len(indexes) == 1 else "the programs write other bytes"


def paragraphs_of_corpus():
    """The paragraphs of the corpus, by their paths and lines."""
    found = {}
    for parent, _, names in os.walk(CORPUS):
        for name in names:
            path = os.path.relpath(f"{parent}/{name}", CORPUS)
            lines = bytes_of(f"{CORPUS}/{path}").split(b"\n")
            begins = [k for k, line in enumerate(lines) if line.strip() and (k == 0 or not lines[k - 1].strip())]
            for begin, end in zip(begins, begins[1:] + [len(lines)]):
                found[f"{path}:{begin + 1}"] = b"\n".join(lines[begin:end])
    return found


def names(text):
    return set(re.findall(r"^ *[\d.]+  [^/]+/(\S+:\d+)  ", text, re.M))


def against_grep(programs):
    """The answers on the corpus, in which a document is a file and then a paragraph."""
    folder = programs.folder
    os.symlink(CORPUS, f"{folder}/corpus")
    written(f"{folder}/split", paragraphs_of_corpus())
    for option, searched in ((), "corpus/"), (("--paragraphs",), "split"):
        index, wrong = programs.index(*option, "corpus/")
        yield f"an index of {searched}", wrong

        def has(word, searched=searched):
            found = run("grep", "-rliwE", word, searched, folder=folder, env=ENVIRONMENT).stdout.split()
            paths = {path.partition("/")[2] for path in found}
            return paths if searched == "split" else {f"{path}:1" for path in paths}

        for query, meaning in QUERIES.items():
            status, text, messages, wrong = programs.same("find", "--best", "999", index, query)
            wanted = meaning(has)
            if names(text) != wanted or status != (0 if wanted else 1) or messages:
                wrong = wrong or f"wanted {sorted(wanted)}, and got {status} {text} {messages}"
            _, count, _, differ = programs.same("find", "--count", index, query)
            yield f"{query} in {searched}", wrong or differ or other(count.split()[:1], [str(len(wanted))])


def by_name(programs):
    """The names of documents, which are worked by hand."""
    written(f"{programs.folder}/files", {path: text for path, (text, _) in FILES.items()})
    index, wrong = programs.index("files")
    yield "an index of files", wrong
    _, text, _, wrong = programs.same("find", index, "word")
    found = sorted(re.findall(r"^ *[\d.]+  files/(.*)$", text, re.M))
    yield "the names of documents", wrong or other(found, sorted(name for _, name in FILES.values() if name))
    yield "a word of 64 letters and one of 65", programs.same("find", "--count", index, "x* -y*")[3]


def refused(programs, calls):
    """Whether calls are refused by each of the programs: with a message, and with nothing printed or left over."""
    before = sorted(os.listdir(programs.folder))
    for what, (arguments, message) in calls.items():
        for name in programs.paths:
            status, text, messages = programs.run(name, *arguments)
            right = (status, text) == (2, "") and message in messages and sorted(os.listdir(programs.folder)) == before
            yield (name, what), None if right else f"answered {status} {text} {messages}"


def wrong_queries(index):
    """Calls with queries that are refused, by the queries."""
    messages = {query: f"the query, after '{read}': {why}" for query, (read, why) in REFUSED.items()}
    messages["(" * (LONGEST_QUERY + 1)] = "the query is too long"
    messages["(" * LONGEST_QUERY] = f"the query, after '{'(' * LONGEST_QUERY}': {NO_WORD}"
    return {query: (["find", index, query], f"search: {index}: {message}\n") for query, message in messages.items()}


def refusals(programs):
    """Calls that are refused."""
    index, _ = programs.index("files")
    calls = wrong_queries(index)
    usages = [[], ["seek", index, "a"], ["index", "files"], *(["find", "--best", it, index, "a"] for it in ("x", "-1", "1000"))]
    calls |= {f"the arguments {it}": (it, "search --help says what is wanted") for it in usages}
    paths = {it: NO_REGULAR for it in ("split", "link", "pipe", "/dev/null")} | {"nowhere/new": MISSING}
    calls |= {f"an index at {path}": (["index", "files", path], f"{path}: {message}") for path, message in paths.items()}
    calls["no folder"] = ["index", "nowhere", "new"], f"nowhere: {MISSING}"
    calls["no index"] = ["find", "nowhere", "a"], f"nowhere: {MISSING}"
    calls["text for an index"] = ["find", "files/b-x", "a"], "files/b-x: this is no index: it does not begin with 'search4'"
    os.symlink(index, f"{programs.folder}/link")
    os.mkfifo(f"{programs.folder}/pipe")
    yield from ((f"{what[:60]} in {name}", why) for (name, what), why in refused(programs, calls))
    for name in programs.paths:
        status, text, messages = programs.run(name, "--help")
        yield f"--help in {name}", None if status == 0 and text.startswith("A small search engine") else f"{status} {messages}"


def wrong_changes(programs):
    """Programs with wrong changes: tests see the queries that each does not refuse as it has to, and no others."""
    index, _ = programs.index("files")
    others = copy.copy(programs)
    others.paths, others.faults = {}, []

    def built(room):
        # With a name of its own cargo does not take the package for the other one.
        name = 'name = "search"', 'name = "wrong"'
        for it, *texts in ("toml", '"../../.."', f'"{ROOT}"'), ("toml", *name), ("lock", *name):
            others.faults.append((it, changed(f"{room}/{FOLDER}/rust/Cargo.{it}", *texts)))
        others.add("c", *built_in_c(f"{room}/search", [it.replace(ROOT, room) for it in SOURCES]))
        others.add("rust", *built_in_rust("wrong", os.path.relpath(f"{room}/{FOLDER}/rust", ROOT)))
        return next((why for _, why in others.faults if why), None)

    def failing(_, tests):
        found = {": ".join(what) for what, why in refused(others, wrong_queries(index)) if why}
        if not found <= set(tests):
            raise Failed(f"the programs accept {found - set(tests)} too")
        return found

    with tempfile.TemporaryDirectory(prefix="search-wrong-") as folder:
        shutil.copytree(f"{ROOT}/{FOLDER}", f"{folder}/{FOLDER}")
        yield from trying.together(folder, changes.edits_in("search"), built, failing)


def damaged(number, whole):
    """A file that is cut, or has other bytes at its ends, in its bounds or anywhere; and whether it has to be refused."""
    chance, start = random.Random(number), struct.unpack("<I", whole[-4:])[0]
    if number % 4 == 0:
        return whole[: chance.randrange(len(whole))], True
    every = range(len(whole))
    places = {1: [*every[:8], *every[-4:]], 2: every[start:-4], 3: every}[number % 4]
    changed = bytearray(whole)
    for _ in range(chance.randrange(1, 5)):
        changed[chance.choice(places)] = chance.choice([0, 1, 127, 128, 255, chance.randrange(256)])
    return bytes(changed), number % 4 == 1 and changed != whole


def fault_of_damaged(programs, must_fail, query):
    """What is wrong with the answers from a damaged file, or None. The programs answer alike, and where they refuse it they name it."""
    status, text, messages, wrong = programs.same("find", "--best", "3", "damaged", query)
    if wrong or status not in (0, 1, 2):
        return wrong or f"answered {status} {text} {messages}"
    if must_fail and status != 2:
        return f"it is not refused: {text}"
    return f"said {messages}" if status == 2 and not messages.startswith("search: damaged: ") else None


def kills(programs):
    """Runs that the system ends when they have written a byte. Each leaves a file, which the next run removes, as it does not the file of a
    process that runs, or one with another name."""
    written(programs.folder, {it: "" for it in (f"killed.{os.getpid()}.tmp", "killed.x.tmp", "killed.1.tmp.x", "others.99999999.tmp")})
    given = {"folder": programs.folder, "env": ENVIRONMENT, "stderr": subprocess.PIPE}
    limit = lambda: resource.setrlimit(resource.RLIMIT_FSIZE, (1, 1))
    for name, path in [(name, path) for name, path in programs.paths.items() if name != "sanitized"]:
        before = set(os.listdir(programs.folder))
        killed = run(path, "index", "files", "killed", preexec_fn=limit, **given)
        left = set(os.listdir(programs.folder)) - before
        yield f"{name} is killed", other((killed.returncode < 0, len(left)), (True, 1))
        done = run(path, "index", "files", "killed", **given)
        yield f"what {name} left", failed(done) or other(set(os.listdir(programs.folder)), before | {"killed"})
        os.remove(f"{programs.folder}/killed")


def stored(programs):
    """The bytes of an index are stored before it gets its name, and its name before the program ends."""
    library, folder = f"{programs.folder}/storing.so", programs.folder
    yield "the library that sees files stored", failed(run("cc", "-shared", "-fPIC", "-xc", "-", "-o", library, input=STORING))
    for name, path in [(name, path) for name, path in programs.paths.items() if name != "sanitized"]:
        given = {"folder": folder, "env": ENVIRONMENT | {"LD_PRELOAD": library}, "stderr": subprocess.PIPE}
        said = run(path, "index", "files", f"{folder}/stored", **given).stderr
        size = os.path.getsize(f"{folder}/stored")
        wanted = f"stored {folder}/stored.0.tmp of {size} bytes\nnamed {folder}/stored\nstored {folder}\n"
        yield f"what {name} stores", other(re.sub(r"\.\d+\.tmp", ".0.tmp", said), wanted)


def rarest_first(programs):
    """The library in C ranks fastest if it is given the rarest word first."""
    path = f"{programs.folder}/ranking"
    made = [*c.C99, WRAPPED, *SOURCES, "-xc", "-", "-xnone", f"{archives.OUT}/{archives.ALL}", "-lm", "-o", path]
    yield "the program that says what it ranks by", failed(run(*made, input=RANKING))
    index, _ = programs.index("corpus")
    for query in UNORDERED:
        said = run(path, "find", "--explain", index, query, folder=programs.folder, env=ENVIRONMENT).stdout
        read, ranked_by = ([int(it) for it in re.findall(form, said, re.M)] for form in (r"^\w+: (\d+) documents", r"^ranked (\d+)"))
        yield f"the order of {query}", other(ranked_by, sorted(read)) if read != sorted(read) else "its words are in order"


def damages(programs):
    """Searches in damaged indexes, by queries that read all lists of the index, or those of some words."""
    refused = 0
    words = {"even": 2, "fizz": 3, "buzz": 5}
    text = "\n\n".join(f"number n{k}" + "".join(f" {word}" for word, by in words.items() if k % by == 0) for k in range(1, 1001))
    written(f"{programs.folder}/numbers", {"numbers.txt": text})
    every = " | ".join(f"{sign}*" for sign in "0123456789abcdefghijklmnopqrstuvwxyz")
    queries = ["number | even | fizz | buzz | water | warm | clock", every, "number even fizz", "number -n1*"]
    for first, arguments in (0, ("corpus",)), (DAMAGES // 2, ("--paragraphs", "numbers")):
        index, _ = programs.index(*arguments)
        whole = bytes_of(f"{programs.folder}/{index}")
        for number in range(first, first + DAMAGES // 2):
            text, must_fail = damaged(number, whole)
            written(programs.folder, {"damaged": text})
            try:
                wrong = fault_of_damaged(programs, must_fail, queries[number // 4 % len(queries)])
            except subprocess.TimeoutExpired:
                wrong = "it does not end"
            if wrong:
                yield f"the damaged index {number}", wrong
            refused += must_fail
    yield f"{DAMAGES} damaged indexes", None if refused > DAMAGES // 4 else "too few of them had to be refused"


def checks():
    with tempfile.TemporaryDirectory(prefix="search-") as folder:
        programs = Programs(folder)
        yield from programs.faults
        if all(why is None for _, why in programs.faults):
            for part in against_grep, by_name, ranked.checks, refusals, wrong_changes, kills, stored, rarest_first, damages:
                yield from part(programs)


if __name__ == "__main__":
    sys.exit(archives.reported("the search engine", checks, "cc", "cargo"))
