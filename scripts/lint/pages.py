#!/usr/bin/env python3
"""Compares what the pages name with what is there.

- A link leads to a file or folder of the repository, and its anchor to a heading of that page. A file of the repository that a code span names is
  there: its whole path, or a path or name that a file's path ends with.
- README.md and all pages together have at most as many words as `MOST` says, code included.
- A bar of docs/speed.svg is as long as its number, which the table of README.md has.
"""
import functools
import os
import re
import sys

sys.path.insert(1, f"{sys.path[0]}/..")
from common import run
from texts import PAGES, at, paths, prose, results, text_of

# What is a file of the repository in a code span: a path from the top, or the name of a source.
TOP = r"(?:crates|docs|examples|include|postgres|python|rust|scripts|sqlite|vectors)/[\w./-]+"
NAMED = re.compile(TOP + r"|(?:[\w-]+/)*[\w-]+\.(?:rt|antt|edit|py|rs|md)")
LINK = re.compile(r"\[([^\]]*)\]\(([^)#\s]*)(?:#([^)\s]*))?\)")
SPAN = re.compile(r"`([^`\n]+)`")
MOST = {"README.md": 900, "all pages": 31_150}


@functools.cache
def tracked():
    """The files of the repository, and their folders."""
    files = run("git", "ls-files").stdout.split("\n")
    return {"/".join(it.split("/")[:depth]) for it in files for depth in range(1, it.count("/") + 2)}


def is_there(path):
    return path.rstrip("/") in tracked() or bool(paths(path))


def beside(page, path):
    """A path from the folder of a page, from the top."""
    return os.path.normpath(f"{os.path.dirname(page)}/{path}").lstrip("/")


@functools.cache
def anchors(text):
    titles = re.findall(r"(?m)^#+ (.*)$", prose(text))
    titles = (re.sub(r"[^\w\- ]", "", LINK.sub(r"\1", it).lower()) for it in titles)
    return {it.strip().replace(" ", "-") for it in titles} | set(re.findall(r'\bid="(.*?)"', text))


def pages():
    return [(path, prose(text_of(path))) for pattern in PAGES for path in paths(pattern)]


# claim: read/14 links, anchors and file names of pages lead somewhere; pages have no more words than they may
def links():
    for page, text in pages():
        for link in LINK.finditer(text):
            path = beside(page, link[2]) if link[2] else page
            if not re.match(r"\w+:", link[2]) and not is_there(path):
                yield f"{at(page, text, link.start())}: there is no {path}"
            elif link[3] and path.endswith(".md") and is_there(path) and link[3] not in anchors(text_of(path)):
                yield f"{at(page, text, link.start())}: {path} has no heading #{link[3]}"


def files():
    ends = {it[start:] for it in tracked() for start in [0, *(found.end() for found in re.finditer("/", it))]}
    for page, text in pages():
        for span in SPAN.finditer(text):
            is_named = NAMED.fullmatch(span[1]) and not re.search(r"NAME|CRATE|\bout/", span[1])
            if is_named and span[1].rstrip("/") not in ends and not is_there(beside(page, span[1])) and not is_there(span[1]):
                yield f"{at(page, text, span.start())}: there is no {span[1]}"


def lengths():
    count = {path: len(text_of(path).split()) for path, _ in pages()}
    count["all pages"] = sum(count.values())
    yield from (f"{path}: {count[path]} words, more than {most}" for path, most in MOST.items() if count[path] > most)


def bars():
    for width, number in re.findall(r'width="([\d.]+)"[^>]*/><text[^>]*>([\d.]+)<', text_of("docs/speed.svg")):
        if abs(float(width) - 320 * float(number)) > 0.1 or not re.search(
            rf"(?m)^.*\|.*[ ]{re.escape(number)}(?![\d.])", text_of("README.md")
        ):
            yield f"docs/speed.svg: a bar of {width} says {number}, where README.md has no table with it, or 320 is 1"


if __name__ == "__main__":
    sys.exit(results([links, files, lengths, bars], "pages"))
