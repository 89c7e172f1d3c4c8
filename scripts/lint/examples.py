#!/usr/bin/env python3
"""Compares the examples of the pages and of doc comments with the proved and tested code that they come from.

Above each fenced block of Rust, of C, of C++, or of antt, the language of proofs, a comment names its file, one of `SOURCES`, and above one of SQL or of a
shell (console) the page whose commands are run:
    <!-- crates/bitpack_uses/src/NAME.rt -->
The lines of the block are lines of that file, in one piece; only the indentation of the whole block may differ. The README of a crate quotes
contracts too, of its own sources: each whole, but without its comments if they are left out.
"""
import functools
import os
import re
import sys
import textwrap

sys.path.insert(1, f"{sys.path[0]}/..")
from texts import PAGES, at, paths, results, text_of

RUST = r"crates/bitpack_uses/src/.*\.rt|rust/examples/.*\.rs"
SOURCES = {"rust": RUST, "rs": RUST, "antt": r"crates/bitpack_uses/proofs/.*\.antt", "c": r"examples/.*\.c", "cpp": r"examples/.*\.cpp"}
SOURCES |= {"sql": r"docs/(?:POSTGRES|SQLITE)\.md", "console": r"examples/numbers/README\.md"}
# A block, with the last line of text before it. The language of one in a comment of code is Rust.
BLOCK = re.compile(r"(?ms)^([^\n]*)\n\s*^( *)(```+|~~~+) *(\w*)[^\n]*\n(.*?)^ *\3[^\n]*$")
NAMED = re.compile(r"\s*<!--\s*(\S+)\s*-->\s*")


@functools.cache
def plain(text):
    """Lines without their common indentation and without spaces at their ends."""
    return "\n".join(line.rstrip() for line in textwrap.dedent(text).rstrip().split("\n"))


@functools.cache
def pieces(text, height):
    """All runs of lines of a text of this height, each with the line after it."""
    lines = [*text.rstrip().split("\n"), ""]
    return {plain("\n".join(lines[start : start + height])): lines[start + height] for start in range(len(lines) - height)}


def fault(page, language, before, block):
    """Why a block of a page is not tested code, or None."""
    named, own = NAMED.fullmatch(before), re.match(r"crates/\w+/(?=README)", page)
    if not named:
        return "no comment before it names a file"
    path, wanted = os.path.normpath(named[1]), plain(block)
    is_quoted = own and SOURCES[language] == RUST and path.startswith(f"{own[0]}src/")
    if not is_quoted and not re.fullmatch(SOURCES[language], path):
        return f"{path} is not a file of {SOURCES[language]}"
    if not paths(path) or not wanted:
        return f"there is no file {path}, or no line in the block"
    bare = re.sub(r"(?m)^ *//.*\n", "", text_of(path)) if is_quoted else ""
    after = [found[wanted] for found in (pieces(it, wanted.count("\n") + 1) for it in (text_of(path), bare)) if wanted in found]
    if not after:
        return f"its lines are not in one piece in {path}"
    # The line after a contract begins the body, or its own last line ends the item.
    if is_quoted and not (wanted.endswith((";", "\n}")) or any(line.lstrip().startswith("{") for line in after)):
        return f"it leaves out the end of a contract in {path}"
    return None


# claim: read/6 examples are of files that are proved or run
def examples():
    for page in [found for pattern in [*PAGES, "crates/*/src/**/*.rt"] for found in paths(pattern)]:
        text = text_of(page)
        if page.endswith(".rt"):
            text = "\n".join(found[1] if (found := re.match(r"^\s*//[/!] ?(.*)$", line)) else "" for line in text.split("\n"))
        for block in BLOCK.finditer(f"\n{text}"):
            language = block[4].lower() or ("rust" if page.endswith(".rt") else "")
            why = fault(page, language, block[1], block[5]) if language in SOURCES else None
            if why:
                yield f"{at(page, text, block.start(3) - 1)}: {why}"


if __name__ == "__main__":
    sys.exit(results([examples], "examples"))
