"""The tables of vectors/, whose expected values come from outside of this repository's programs."""

import pathlib
import re

VECTORS = pathlib.Path(__file__).resolve().parents[2] / "vectors"


def rows(name):
    """The rows of a table, each as a dictionary of its fields as they are written."""
    head, *lines = (VECTORS / f"{name}.tsv").read_text(encoding="ascii").splitlines()
    return [dict(zip(head.split("\t"), line.split("\t"))) for line in lines]


def data(text):
    """Bytes: `{00*16}` is a byte 16 times."""
    return b"" if text == "-" else bytes.fromhex(re.sub(r"\{(\w+)\*(\d+)\}", lambda it: it[1] * int(it[2]), text))


def numbers(text):
    """Integers: `5-9` is 5 to 9, and `0-8/2` is 0 to 8 in steps of 2."""
    found = []
    for part in text.split(",") if text != "-" else ():
        first, last, step = re.fullmatch(r"(\d+)(?:-(\d+))?(?:/(\d+))?", part).groups()
        found.extend(range(int(first), int(last or first) + 1, int(step or 1)))
    return found


def fault(written):
    """The name of a fault, and its numbers: `BadWidth(1, 33)` is BadWidth with 1 and 33."""
    name, _, more = written.partition("(")
    return name, [int(it) for it in re.findall(r"\d+", more)]
