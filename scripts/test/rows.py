"""The rows of the tables in vectors/, and the lines of the line language that follow from them and from docs/LINES.md."""

import csv
import functools
import re

from common import ROOT, source

PACKERS = {"1": ["1x"], "4": ["4x", "4s"], "8": ["8x", "8s"]}  # by lanes


@functools.cache
def table(name):
    """The lines of a table, as dictionaries by the names in its head."""
    with open(f"{ROOT}/vectors/{name}", encoding="ascii", newline="") as file:
        return list(csv.DictReader(file, delimiter="\t"))


def numbers(text):
    return [] if text == "-" else [int(value) for value in text.split(",")]


def octets(text):
    return b"" if text == "-" else bytes.fromhex(spelled(text))


def spelled_ids(text):
    """The ids of id_sets.tsv: `5-9` is five of them, and `0-8/2` those with steps of 2."""
    for first, last, step in re.findall(r"(\d+)(?:-(\d+))?(?:/(\d+))?", text):
        yield from range(int(first), int(last or first) + 1, int(step or 1))


def spelled_values(text):
    """The values of wide_columns.tsv, each before a comma. A missing one is None."""
    return [int(value) if value else None for value in spelled(text).split(",")[:-1]] if text != "-" else []


def spelled(field):
    """A field of lines.tsv: `{ab*3}` is `ababab`, and `\\r` and `\\t` are a carriage return and a tab."""
    long = re.sub(r"\{([^*{}]+)\*(\d+)\}", lambda part: part[1] * int(part[2]), field)
    return long.replace("\\r", "\r").replace("\\t", "\t")


def lines_by_hand():
    for row in table("lines.tsv"):
        yield spelled(row["line"]), spelled(row["answer"])


def block_lines():
    """Lines of the line language, with their answers."""
    for row in [*table("blocks.tsv"), *table("loose.tsv"), *table("single.tsv")]:
        kind = row["kind"] if row["initial"] == "-" else f"{row['kind']}:{row['initial']}"
        for packer in PACKERS[row["packer"][0]]:
            yield f"width {packer} {kind} {row['values']}", row.get("least", row["width"])
            yield f"pack {packer} {kind} {row['width']} {row['values']}", row["bytes"]
            yield f"unpack {packer} {kind} {row['width']} {row['bytes']}", row["values"]
    for row in table("refused_blocks.tsv"):
        kind = row["kind"] if row["initial"] == "-" else f"{row['kind']}:{row['initial']}"
        for packer in PACKERS[row["packer"][0]]:
            yield f"{row['call']} {packer} {kind} {row['width']} {row['given']}", f"refused {row['number']}"


def list_lines():
    for version in ["", "2"]:
        for row in table(f"lists{version}.tsv"):
            for packer in PACKERS[row["lanes"]]:
                if version == "":
                    yield f"enc {packer} {row['kind']} {row['values']}", row["bytes"]
                yield f"dec {packer} {row['bytes']}", f"{row['kind']} {row['values']}"
        for row in table(f"refused{version}.tsv"):
            for packer in PACKERS[row["lanes"]]:
                number = 20 + int(row["number"])
                # dec reads bytes that begin with 2 as version 2, and all others as version 1
                if row["bytes"].startswith("02") == (version == "2"):
                    yield f"dec {packer} {row['bytes']}", f"refused {number}"
                yield f"seek {packer} 0 {row['bytes']}" if version else f"upgrade {packer} {row['bytes']}", f"refused {number}"


def query_lines():
    for row in table("upgrade.tsv"):
        for packer in PACKERS[row["lanes"]]:
            right = row["upgraded"] if row["fault"] == "-" else f"refused {20 + int(row['number'])}"
            yield f"upgrade {packer} {row['bytes']}", right
    for row in table("seek.tsv"):
        for packer in PACKERS[row["lanes"]]:
            for target, right in zip(numbers(row["targets"]), row["found"].split(",")):
                yield f"seek {packer} {target} {row['bytes']}", right.replace(":", " ")
    for row in table("lists2.tsv"):
        if row["kind"] == "plain":
            for packer in PACKERS[row["lanes"]]:
                yield f"seek {packer} 0 {row['bytes']}", "refused 23"


def written_out(text, note):
    """A line or an answer of docs/LINES.md, with what `..` stands for: as many letters as the note says, the numbers between, or one
    number in the whole block."""
    if text == "aaa..a":
        return "a" * int(note.split()[0].replace(",", ""))
    if found := re.fullmatch(r"(?:(\d+),)+\.\.,\1", text):
        return ",".join([found[1]] * 32)
    return re.sub(r"(\d+),\.\.,(\d+)", lambda it: ",".join(map(str, range(int(it[1]), int(it[2]) + 1))), text)


def page_lines():
    """The lines that README.md and docs/LINES.md give to ./bitpack, with the answers that they show, and the lines to try of docs/LINES.md. The
    columns of these are at least four spaces apart; an empty line has a note alone."""
    for page in "README.md", "docs/LINES.md":
        shown = re.findall(r"^    \$ (?:echo|printf) '(.*)' \| \./bitpack\n((?:    [^$ ].*\n)+)", source(page), re.M)
        if not shown:
            raise LookupError(f"{page} shows no command of ./bitpack")
        for asked, answers in shown:
            yield from zip(asked.removesuffix(r"\n").split(r"\n"), answers.replace("    ", "").splitlines(), strict=True)
    shown = source("docs/LINES.md").split("## Lines to try\n")[1].split("\n## ")[0]
    answered, refused = (re.findall(r"^    (.*)$", part, re.M) for part in shown.split("Refused lines"))
    for line in answered:
        asked, answer = re.split(r" {4,}", line)[:2]
        yield written_out(asked, ""), written_out(answer, "")
    for line in refused:
        asked, *notes = re.split(r" {4,}", line[6:])
        yield written_out(asked, "".join(notes)), f"refused {line[:6].strip()}"
