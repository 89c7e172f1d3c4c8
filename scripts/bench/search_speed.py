#!/usr/bin/env python3
"""Measures queries over the words of a machine's text files: id sets beside plain arrays, CRoaring and Xapian, and the ten best documents
by sets and columns beside a scan and Xapian. Prints the tables of docs/SPEED.md, and the numbers of README.md:

    scripts/bench/search_speed.py [--rounds N] [--core N] [--megabytes N] [--roaring FOLDER] [FOLDER ..]
    scripts/bench/search_speed.py --try

A document is a paragraph of the first 300 MB of text below the folders, /usr/share and /usr/include if none is given; `apt-get install
linux-doc` brings 150 MB. All ways answer the same random queries in one process on one core, in turns; the answers have to be the same. It
needs g++, and of Debian libroaring-dev and libxapian-dev. Debian's CRoaring is built for any x86-64: --roaring takes in its place one built
for this processor, from its sources in FOLDER (`apt-get source libroaring-dev`).

--try measures nothing, and compares the answers on examples/search/corpus/. Ways that are not installed are left out.
"""
import argparse
import array
import collections
import math
import os
import random
import re
import sys
import tempfile

sys.path.insert(1, f"{sys.path[0]}/..")
from common import ROOT, Failed, called, leave_out, left_out_without, report, run
import measured

CORPUS = f"{ROOT}/examples/search/corpus"
# The sets of queries with their names in the table: operation, how many queries, and of which words. The words of a query are of one document, of
# each kind as many as the numbers say; or as many as a number says, which follow each other in the alphabet, as those with one prefix do. A word is
# frequent if it is in one of 16 documents or more, when Roaring takes bitmaps.
SETS = {
    "AND of 2 words": ("&", 2000, [("any", 2, 2)]),
    "AND of 3 words": ("&", 2000, [("any", 3, 3)]),
    "AND of 4 words": ("&", 2000, [("any", 4, 4)]),
    "AND of two frequent words": ("&", 300, [("frequent", 2, 2)]),
    "OR of 2 to 4 words": ("|", 300, [("any", 2, 4)]),
    "OR of 1,000 words": ("|", 50, 1000),
    "AND NOT": ("-", 1000, [("any", 2, 2)]),
}
RANKED = {"a word": ("|", 100, [("any", 1, 1)])}
RANKED |= {f"{name} of {n}": (sign, 100, [("any", n, n)]) for name, sign in (("AND", "&"), ("OR", "|")) for n in (2, 4)}
FREQUENT = 16
# What a way needs that may not be installed: a file, and the package that has it.
NEEDS = {"ROARING": measured.ROARING, "XAPIAN": ("/usr/bin/xapian-config", "libxapian-dev")}
# The words of a text: letters and digits of ASCII, and other bytes end a word. One of more than 64 bytes is none.
SIGNS = bytes(byte if bytes([byte]).isalnum() else 32 for byte in range(256)).lower()


def texts(folders):
    """The text files below folders, in the order of their paths."""
    for top in folders:
        for parent, within, names in os.walk(os.path.realpath(top)):
            within.sort()
            for path in [f"{parent}/{name}" for name in sorted(names)]:
                if os.path.isfile(path) and not os.path.islink(path) and os.access(path, os.R_OK):
                    with open(path, "rb") as file:
                        text = file.read()
                    if b"\0" not in text:
                        yield text


def write_words(folders, folder, most, one_of):
    """Writes the documents of each word, how often each has it, and the classes of their lengths. Returns how many documents there are, how many each
    word has, and the words of one document of some."""
    ids, counts, classes, chosen, size = {}, {}, bytearray(), [], 0
    for text in texts(folders):
        if size >= most:
            break
        size += len(text)
        for paragraph in re.split(rb"\n[ \t\f\r]*\n", text):
            words = collections.Counter(it for it in paragraph.translate(SIGNS).split() if len(it) <= 64)
            for word, count in words.items():
                ids.setdefault(word, array.array("I")).append(len(classes))
                counts.setdefault(word, array.array("I")).append(count)
            if words:
                if len(classes) * 2654435761 % 2**32 // 16 % one_of == 0:
                    chosen.append(sorted(words))
                classes.append(min(255, int(8 * math.log2(words.total()))))
    order = {word: number for number, word in enumerate(sorted(ids))}
    lens = array.array("I", (len(ids[word]) for word in order))
    for name, parts in {"lens": [lens], "classes": [classes], "ids": map(ids.get, order), "counts": map(counts.get, order)}.items():
        with open(f"{folder}/{name}", "wb") as file:
            file.writelines(parts)
    print(f"{size:,} bytes of text, {len(classes):,} paragraphs, {len(order):,} words, {sum(lens):,} postings", flush=True)
    return len(classes), lens, [[order[it] for it in words] for words in chosen]


def write_queries(path, documents, lens, chosen, sets):
    """Random queries, as the sets say. The seed is fixed. Returns the names of the sets by their numbers."""
    dice, lines = random.Random(1), []
    fits = {"any": lambda n: True, "frequent": lambda n: n * FREQUENT >= documents}
    for number, (operation, count, kinds) in enumerate(sets.values()):
        if isinstance(kinds, int):
            choices = [[(run, len(run), len(run))] for run in (range(at, min(at + kinds, len(lens))) for at in range(0, len(lens), kinds))]
        else:
            choices = [[([it for it in words if fits[kind](lens[it])], least, most) for kind, least, most in kinds] for words in chosen]
            choices = [choice for choice in choices if all(len(words) >= most for words, _, most in choice)]
        for _ in range(count if choices else 0):
            words = [word for words, least, most in dice.choice(choices) for word in dice.sample(words, dice.randint(least, most))]
            lines.append(f"{number}\t{operation}\t{' '.join(map(str, words))}\n")
    with open(path, "w", encoding="ascii") as file:
        file.writelines(lines)


def built(folder, library, roaring, level):
    """Builds the program."""
    defines = [
        name for name, (path, package) in NEEDS.items() if os.path.exists(path) or leave_out(f"the way {name}", f"without {package}")
    ]
    words = [*(f"-D{it}" for it in defines), *(measured.roaring(folder, roaring) if "ROARING" in defines else [])]
    words += run("xapian-config", "--cxxflags", "--libs").stdout.split() if "XAPIAN" in defines else []
    measured.program(f"{folder}/search", "search_speed", library, level, *words)


def measure(folder, tops, given, one_of, level, *pinned):
    """Measures queries over the words below some folders. Returns how many postings there are, and rows of words."""
    built(folder, measured.library(), given.roaring, level)
    documents, lens, chosen = write_words(tops, folder, 10**6 * given.megabytes, one_of)
    for name, sets in ("queries", SETS), ("ranked", RANKED):
        write_queries(f"{folder}/{name}", documents, lens, chosen, sets)
    said = called(*pinned, f"{folder}/search", folder, str(given.rounds))
    return sum(lens), [line.split("\t") for line in said.splitlines()]


def show(said, postings):
    """Prints the tables of sets and of ranking, and that of README.md: the speed of each way as a share of CRoaring's."""
    found = collections.defaultdict(dict)
    for file, number, way, value in said:
        found[file, number][way] = float(value)

    def rows(file, sets, form):
        for number, name in enumerate(sets):
            its = found[file, str(number)]
            yield name, {way: form(it, its) for way, it in its.items()}

    bits = {way: f"{8 * it / postings:.2f}" for way, it in found["bytes", ""].items()}
    closed, queries = "to a set, CRoaring = 1", list(rows("queries", SETS, lambda it, _: f"{1 / it:,.0f}"))
    for number, (_, cells) in enumerate(queries):
        its = found["queries", str(number)]
        if "CRoaring, to a set" in its:
            cells[closed] = f"{its['CRoaring, to a set'] / its['sets, to a set']:.2f}"
    measured.show("queries a second", [*bits, closed], [("bits a posting", bits), *queries])
    measured.show("the best ten, ms a query", found["ranked", "0"], rows("ranked", RANKED, lambda it, _: f"{1e3 * it:.2f}"))
    shares = rows("queries", SETS, lambda it, its: f"{its.get('CRoaring', 0) / it:.2f}")
    measured.show("speed, CRoaring = 1", ["sets", "CRoaring", "arrays", "Xapian"], shares)


def main():
    parser = argparse.ArgumentParser()
    parser.add_argument("--core", default="0")
    parser.add_argument("--rounds", type=int, default=5)
    parser.add_argument("--megabytes", type=int, default=300)
    parser.add_argument("--roaring")
    parser.add_argument("--try", action="store_true", dest="only_try")
    parser.add_argument("folders", nargs="*", default=["/usr/share", "/usr/include"])
    given = parser.parse_args()
    if left_out_without("the ways to keep doc ids", "g++"):
        return 0
    with tempfile.TemporaryDirectory(prefix="search-speed-") as folder:
        if given.only_try:
            given.rounds = 1
            try:
                postings, said = measure(folder, [CORPUS], given, 1, "-O1")
            except Failed as why:
                return report([("the ways to keep doc ids", str(why))])
            show(said, postings)
            return report((" ".join(its), None) for its in said)
        postings, said = measure(folder, given.folders, given, 200, "-O3", "taskset", "-c", given.core)
        print(measured.head(measured.library()))
        show(said, postings)
    return 0


if __name__ == "__main__":
    sys.exit(main())
