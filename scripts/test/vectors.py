#!/usr/bin/env python3
"""Runs the vectors of vectors/ over the decoders of docs/FORMAT.md, wrong implementations, and the program. docs/VECTORS.md says where they
come from. `vectors.py PROGRAM ..` runs them over another program of the same line language, in place of ./bitpack, `vectors.py --programs`
over the programs alone, and `vectors.py --readers` over all others. The last line counts the readers of the vectors.
"""

import functools
import hashlib
import itertools
import multiprocessing
import os
import re
import subprocess
import sys

sys.path.insert(1, f"{sys.path[0]}/..")
from common import ROOT, report, run, source
from parts import drawn
from rows import block_lines, list_lines, lines_by_hand, numbers, octets, page_lines, query_lines, spelled_ids, spelled_values, table

KINDS = ["plain", "sorted", "strict"]


def model():
    """An implementation in Python: the decoders of docs/FORMAT.md, and the files that add writers and lines to them."""
    files = ["decoders", "wide_decoders", "model", "set_model", "column_model", "wide_model", "wide_column_model", "line_model"]
    return "\n".join(source(f"vectors/{name}.py") for name in files).replace("from decoders import *\n", "")


def names_of(text):
    names = {}
    exec(text, names)
    return names


def answer_of(call, *given):
    """What a call returns, or the fault that it raises, as refused.tsv spells it."""
    try:
        return call(*given)
    except ValueError as refusal:
        name, *details = refusal.args
        return f"{name}({', '.join(map(str, details))})" if details else str(name)


def of(row):
    """The lanes and the kind of a row."""
    return int(row.get("lanes") or row["packer"][0]), KINDS.index(row["kind"])


def block_checks(names):
    """What the implementation finds beside what is right, with the name of the vector."""
    for row in table("refused_blocks.tsv"):
        call, read, (lanes, kind), width = names[row["call"]], numbers if row["call"] == "pack" else octets, of(row), int(row["width"])
        found = answer_of(call, lanes, kind, names["start_of"](kind, row["initial"]), width, read(row["given"]))
        yield f"refused {row['call']} {row['packer']} {width}", found, row["number"]
    for row in [*table("loose.tsv"), *table("single.tsv"), *table("blocks.tsv")]:
        (lanes, kind), width, values, body = of(row), int(row["width"]), numbers(row["values"]), octets(row["bytes"])
        start, name = names["start_of"](kind, row["initial"]), f"block {row['packer']} {row['kind']} {row['initial']} {row['width']}"
        yield f"{name}, least width", names["width_of"](names["codes_of"](kind, start, values)), int(row.get("least", width))
        yield f"{name}, body", answer_of(names["pack"], lanes, kind, start, width, values), body
        yield f"{name}, values", answer_of(names["unpack"], lanes, kind, start, width, body), values


def list_checks(names):
    for version in "", "2":
        for row in table(f"refused{version}.tsv"):
            found = answer_of(names[f"decode{version}"], int(row["lanes"]), octets(row["bytes"]))
            yield f"refused{version} {row['bytes'][:80]}", found, row["fault"]
        for row in table(f"lists{version}.tsv"):
            (lanes, kind), values, text = of(row), numbers(row["values"]), octets(row["bytes"])
            yield f"list{version} {row['bytes'][:80]}", answer_of(names[f"decode{version}"], lanes, text), (kind, values)
            yield f"text{version} {row['bytes'][:80]}", answer_of(names[f"encode{version}"], lanes, kind, values), text


def upgrade_checks(names):
    for row in [*table("upgrade.tsv"), *table("refused.tsv")]:
        right = octets(row["upgraded"]) if row.get("upgraded") and row["fault"] == "-" else row["fault"]
        yield f"upgrade {row['bytes'][:80]}", answer_of(names["upgrade"], int(row["lanes"]), octets(row["bytes"])), right
    for row in table("refused_values.tsv"):
        found = answer_of(names["encode2"], *of(row), numbers(row["values"]))
        yield f"refused values {row['kind']} {row['lanes']} {row['values'][:80]}", found, f"NotSorted({row['position']})"


def seek_checks(names):
    """Searches in lists of version 2."""
    for row in table("seek.tsv"):
        values = answer_of(names["opened"], int(row["lanes"]), octets(row["bytes"]))
        yield f"seek {row['bytes'][:80]}", isinstance(values, list), True
        for target, right in zip(numbers(row["targets"]), row["found"].split(",")):
            found = answer_of(names["seek"], int(row["lanes"]), values, target)
            yield f"seek {target} {row['bytes'][:80]}", ":".join(map(str, found)) if found else "none", right
    plain = [row | {"fault": "BadKind(0)"} for row in table("lists2.tsv") if row["kind"] == "plain"]
    for row in [*plain, *table("refused2.tsv")]:
        yield f"seek {row['bytes'][:80]}", answer_of(names["opened"], int(row["lanes"]), octets(row["bytes"])), row["fault"]


def query_checks(names):
    yield from itertools.chain(upgrade_checks(names), seek_checks(names))
    for row in table("intersect.tsv"):
        one, other = ((int(row[f"{which}lanes"]), octets(row[f"{which}bytes"])) for which in ["", "other_"])
        one, other = ((lanes, answer_of(names["opened"], lanes, text)) for lanes, text in [one, other])
        which, right = f"intersect {row['bytes'][:60]} {row['other_bytes'][:60]}", numbers(row["shared"])
        yield which, answer_of(names["intersect"], *one, *other), right
        yield f"{which}, exchanged", answer_of(names["intersect"], *other, *one), right
        yield f"{which}, as sets", sorted({*one[1]} & {*other[1]}), right


def long_list_checks(names):
    """Lists whose values are those of the rule of docs/VECTORS.md, and whose texts are known by their digest."""
    read = []
    for row in table("digests.tsv"):
        (lanes, kind), bits, version = of(row), int(row["bits"]), row["version"].strip("1")
        codes = [x >> 32 - bits for x in drawn(int(row["count"]))]
        values = names["block_values"](kind, [0, 0, 2**32 - 1][kind], codes)
        name, text = f"{row['count']} {row['kind']} values, version {row['version']}", names[f"encode{version}"](lanes, kind, values)
        yield f"{name}, length", len(text), int(row["length"])
        yield f"{name}, digest", hashlib.sha256(text).hexdigest(), row["sha256"]
        read.append((name, names[f"decode{version}"], lanes, text, (kind, values)))
    for name, decode, lanes, text, right in read:
        yield f"{name}, read", answer_of(decode, lanes, text), right


def id_set_checks(names, kind="set", file="id_sets"):
    decode, encode = names[f"decode_{kind}"], names[f"encode_{kind}"]
    for row in table(f"refused_{file}.tsv"):
        yield f"refused {kind} {row['bytes'][:80]}", answer_of(decode, octets(row["bytes"])), row["fault"]
    for row in table(f"{file}.tsv"):
        ids, text = [*spelled_ids(row["ids"])], octets(row["bytes"])
        yield f"{kind} {row['bytes'][:80]}", answer_of(decode, text), ids
        yield f"text of {kind} {row['bytes'][:80]}", answer_of(encode, ids), text
        for p in {1, len(ids) // 2, len(ids) - 1} if 1 < len(ids) < 1000 else []:  # an id is that before it, or less
            for least in {ids[p - 1], 0}:
                wrong = [*ids[:p], least, *ids[p:]]
                yield f"refused ids {row['bytes'][:80]}", answer_of(encode, wrong), f"NotSorted({p})"


def bitmap_checks(names):
    for row in table("refused_bitmaps.tsv"):
        yield f"refused bitmap {row['bytes'][:80]}", answer_of(names["decode_roaring"], octets(row["bytes"])), row["fault"]
    for row in table("bitmaps.tsv"):
        ids, text = [*spelled_ids(row["ids"])], octets(row["bytes"])
        yield f"bitmap {row['bytes'][:80]}", answer_of(names["decode_roaring"], text), ids
        written = names["encode_roaring"](ids)
        yield f"text of bitmap {row['bytes'][:80]}", answer_of(names["decode_roaring"], written), ids
        yield f"text of bitmap {row['bytes'][:80]}, as CRoaring's", row["croaring"] == "no" or written == text, True


def column_checks(names):
    for row in table("refused_columns.tsv"):
        yield f"refused column {row['bytes'][:80]}", answer_of(names["decode_column"], octets(row["bytes"])), row["fault"]
    for row in table("columns.tsv"):
        kind, values, text = KINDS.index(row["kind"]), numbers(row["values"]), octets(row["bytes"])
        yield f"column {row['bytes'][:80]}", answer_of(names["decode_column"], text), (kind, values)
        yield f"text of column {row['bytes'][:80]}", answer_of(names["encode_column"], kind, values), text
        for p in {1, len(values) // 2, len(values) - 1} if kind and len(values) > 1 else []:
            if values[p] > 0:
                wrong = [*values[:p], values[p], values[p] - 1, *values[p:]]
                yield f"refused values {row['bytes'][:80]}", answer_of(names["encode_column"], kind, wrong), f"NotSorted({p + 1})"


def wide_column_checks(names):
    for row in table("refused_wide_columns.tsv"):
        yield f"refused wide column {row['bytes'][:80]}", answer_of(names["decode_wide_column"], octets(row["bytes"])), row["fault"]
    for row in table("wide_columns.tsv"):
        values, text = spelled_values(row["values"]), octets(row["bytes"])
        yield f"wide column {row['bytes'][:80]}", answer_of(names["decode_wide_column"], text), values
        yield f"text of wide column {row['bytes'][:80]}", answer_of(names["encode_wide_column"], values), text


CHECKS = {
    **{
        "blocks": block_checks,
        "lists": list_checks,
        "queries": query_checks,
        "id_sets": id_set_checks,
        "wide_sets": lambda names: id_set_checks(names, "wide_set", "wide_sets"),
        "bitmaps": bitmap_checks,
        "columns": column_checks,
        "wide_columns": wide_column_checks,
    },
    "lines": lambda names: ((line, names["answer"](line), right) for line, right in lines_by_hand()),
    "long_lists": long_list_checks,
}


def rule_checks(names):
    """The codes of the blocks are those of the rule of docs/VECTORS.md."""
    for row in table("blocks.tsv"):
        lanes, width = int(row["packer"][0]), int(row["width"])
        found, right = names["block_codes"](lanes, width, octets(row["bytes"])), [x >> 32 - width for x in drawn(32 * lanes)]
        yield f"the codes of block {row['packer']} {row['kind']} {row['width']}", found, right


def page_checks(names):
    """The bytes beside the faults of docs/FORMAT.md, by the decoder of their version in one lane, of sets, or of columns, and of docs/ROARING.md."""
    lists = {title: functools.partial(names[name], 1) for title, name in [("Refusals", "decode"), ("Refusals of version 2", "decode2")]}
    kinds = {"set": "set", "column": "column", "wide set": "wide_set", "wide column": "wide_column", "bitmap": "roaring"}
    pages = source("docs/FORMAT.md") + source("docs/ROARING.md")
    for title, decode in [*lists.items(), *((f"Faults of a {title}", names[f"decode_{kind}"]) for title, kind in kinds.items())]:
        shown, fault = re.split(r"\n##+ ", pages.split(f"\n### {title}\n")[1])[0], ""
        found = re.findall(r"\b([A-Z]\w+)[(,; ]|`((?:[0-9A-F]{2})+)`(?:: ([\d, ]*\d))?", shown)
        yield f"whether bytes are beside the {title}", any(text for _, text, _ in found), True
        for name, text, details in found:
            fault = name or fault
            if text:
                yield f"{text} by the page", answer_of(decode, bytes.fromhex(text)), f"{fault}({details})" if details else fault


def caught(text, kind):
    """Whether some vector of a kind fails with this implementation, or ends it."""
    names = names_of(text)
    try:
        return any(found != right for _, found, right in CHECKS[kind](names))
    except (IndexError, ValueError, OverflowError):
        return True


def mistakes(kind):
    """The mistakes of a file of vectors/mistakes/: the name of each, the lines that it changes, and those in their place."""
    for part in source(f"vectors/mistakes/{kind}.txt").rstrip("\n").split("\n\n")[1:]:
        name, *changes = part.split("\n")
        old, new = ("".join(f"{line[1:]}\n" for line in changes if line[0] == sign) for sign in "-+")
        yield kind, name, old, new


def mistake_checks():
    """Each wrong implementation is the model with one change; some vector has to fail with it."""
    right, tried = model(), [it for kind in CHECKS for it in mistakes(kind)]
    yield "how many mistakes have a name of their own", len({name for _, name, _, _ in tried}), len(tried)
    yield "whether the decoders without a mistake are caught", caught(right, "blocks"), False
    with multiprocessing.get_context("fork").Pool() as pool:
        found = pool.starmap(caught, [(right.replace(old, new), kind) for kind, _, old, new in tried], chunksize=1)
    for (_, name, old, _), is_caught in zip(tried, found):
        yield f"how many places the mistake '{name}' changes", right.count(old), 1
        yield f"whether the mistake '{name}' is caught", is_caught, True


def program_checks(program):
    asked = [*block_lines(), *list_lines(), *query_lines(), *page_lines(), *lines_by_hand()]
    text = "".join(f"{line}\n" for line, _ in asked)
    ran = subprocess.run(program, input=text, stdout=subprocess.PIPE, encoding="ascii", errors="replace")
    answers = ran.stdout.split("\n")
    yield "the program's status", ran.returncode, 0
    yield "how many lines it answered", len(answers) - 1, len(asked)
    if len(answers) - 1 == len(asked):
        for answer, (line, right) in zip(answers, asked):
            yield line, answer, right


def programs():
    """The program, and the one that the gate's second compiler built, unless that is the older."""
    yield f"{ROOT}/bitpack"
    built = f"{ROOT}/crates/bitpack_main/out/bitpack_main"
    second = f"{built}.by-rattle"
    if os.path.isfile(second) and os.path.isfile(built) and os.stat(second).st_mtime >= os.stat(built).st_mtime:
        yield second


def of_python():
    """The checks of the readers in Python, with their names."""
    names = names_of(model())
    found = [it for checks in [*CHECKS.values(), rule_checks, page_checks] for it in checks(names)]
    yield "vectors/decoders.py, wide_decoders.py and the models", found
    yield "wrong implementations", mistake_checks()


def of_programs(asked):
    """The checks of each program, with its name."""
    for program in asked:
        yield os.path.relpath(program[0] if isinstance(program, list) else program, ROOT), program_checks(program)


def readers():
    """The readers of the vectors, each as its name and its first wrong answers, if it has any."""
    asked = sys.argv[1:]
    assembled = run(sys.executable, f"{ROOT}/vectors/assemble.py", "--check")
    yield "vectors/assemble.py", None if assembled.returncode == 0 else assembled.stdout
    in_python = of_python() if asked != ["--programs"] else []
    in_programs = of_programs([asked] if asked not in ([], ["--programs"]) else programs()) if asked != ["--readers"] else []
    for reader, checks in itertools.chain(in_python, in_programs):
        count, wrong = 0, []
        for name, found, right in checks:
            count += 1
            if found != right:
                wrong.append(f"{name[:120]}\n    is {str(found)[:120]}\n    and not {str(right)[:120]}")
        print(f"{reader}: {count - len(wrong)} of {count} checks as they should be")
        yield reader, "\n".join(wrong[:20]) or None


if __name__ == "__main__":
    sys.exit(report(readers()))
