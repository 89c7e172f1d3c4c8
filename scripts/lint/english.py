#!/usr/bin/env python3
"""Looks for phrases that make a text hard to read: in the pages without their code, in comments of sources, headers and definitions, and in
the texts between quotes of sources, without tests. `PHRASES` has them."""
import bisect
import functools
import re
import sys

sys.path.insert(1, f"{sys.path[0]}/..")
from texts import PAGES, paths, prose, results, text_of

SOURCES = ["crates/*/src/**/*.rt", "rust/src/**/*.rs", "include/*.h*", "crates/*/specs/**/*.antt"]
# *Where* is for places: not after a comma, at the start of a sentence, or with words after or before it that no place has.
WHERE = [
    r"[,;] where\b(?! \S+ \S+ (?:lie|start|begin|end)s?\b)",
    r"(?<=[.:;!?)] )Where\b",
    r"\bwhere (?:there|none|no|nothing|every|memory|(?:that|this|these) (?:is|are|was|has|have))\b",
    r"\bwhere (?:it|they) (?!(?:is|are|was|were)(?:[,.;)]| in\b| for\b|$)|(?:lie|start|begin|end|come|differ|say|goe)s?\b|should\b)",
    r"\bwhere (?:an?|another|the|its|their)\b(?! (?:\S+ ){0,4}(?:lie|start|begin|end|come|differ|say|put)s?\b)",
    r"\b(?:exactly|only|except|but|none) where\b|\bor (?!from\b)\S+ where\b",
]
SIMPLE = ("so many", "whoever", "of which", "that of", "those of", "at hand", "growing steps")
PHRASES = {it: rf"\b{it}\b" for it in SIMPLE} | {
    "where for if": "|".join(WHERE),
    "place": r"(?<!\b[Ii]n )(?<!take the )(?<!takes the )\bplaces?\b",
    "kept": r"\b(?:kept|keeps)\b",
    "document number": r"\bdocument numbers?\b|\bnumbers? of an? document\b",
    "above its least value": r"\b(?:above|less) (?:its|their|the) least (?:value|one)\b",
    "takes memory": r"\b(?:takes?|taking) (?:no |any |more )?memory\b",
    "gives again": r"\bgives? again\b",
}
# At the start of a comment: the reader has to find out as what.
THE_SAME = {"The same": r"(?<=¶ )[Tt]he same\b"}
# Not in tests, which print texts.
TEXT = {"text for bytes": r"(?<!error )(?<!\b[Aa]s )(?<!\bof )(?<!\bfrom )\btexts?\b(?! files?\b| of (?:an? |the )?errors?\b)"}


@functools.cache
def said(path, text):
    """By line what a file says, and nothing that is code. What is apart from the words before it begins with a mark."""
    if path.endswith(".md"):
        return [re.sub(r"^\s*(?:[-*#]+|\d+\.) |^$", "¶ ", line.replace("|", "¶")) for line in prose(text).split("\n")]
    if path.endswith((".h", ".hpp")):
        text = re.sub(r"(?s)(?:\A|\*/).*?(?:/\*|\Z)", lambda it: re.sub(r"[^\n]", "", it[0]) + "//", text)
        return [re.sub(r"^[^\n]*?//\s*|^$", "¶ ", line) if "//" in line or not line else line.lstrip(" *") for line in text.split("\n")]
    mark = r"(?:^|\s)--(?:\s+-+)?\s(.*)" if path.endswith(".antt") else r"(?:^|\s)//[/!]?(?:\s(.*)|$)"
    quoted = "" if path.endswith(".antt") or "tests" in path else r'|"((?:[^"\\]|\\.)* (?:[^"\\]|\\.)*)"'
    found = [[" ¶ ".join(filter(None, it.groups())) for it in re.finditer(mark + quoted, line)] for line in text.split("\n")]
    return [("" if before and its and not its[0].startswith("-") else "¶ ") + " ¶ ".join(its) for before, its in zip([[], *found], found)]


@functools.cache
def found_in(path, text):
    """The phrases in a file, each with its line."""
    lines = said(path, text)
    whole = re.sub(r"(`+)[^¶]+?\1", lambda it: "_" * len(it[0]), " ".join(lines))
    starts = [0]
    for line in lines:
        starts.append(starts[-1] + len(line) + 1)
    patterns = PHRASES | ({} if "tests" in path else TEXT) | ({} if path.endswith(".md") else THE_SAME)
    found = {(bisect.bisect(starts, it.start()), name) for name, pattern in patterns.items() for it in re.finditer(pattern, whole)}
    return [f"{path}:{number}: {name}" for number, name in sorted(found)]


# claim: read/9 pages and comments have no listed phrase
def phrases():
    for path in [it for pattern in [*PAGES, *SOURCES] for it in paths(pattern)]:
        yield from found_in(path, text_of(path))


if __name__ == "__main__":
    sys.exit(results([phrases], "english"))
