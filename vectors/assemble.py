#!/usr/bin/env python3
"""Writes the files of this folder but blocks.tsv, from blocks.tsv and from bytes worked by hand.

A body holds codes and no start. So a body of blocks.tsv, as the original crate wrote it, can be a block of any list, and the values
are the codes added up. Other bodies are laid bit by bit, and every body of blocks.tsv too, to test that this is right. All else is
from docs/FORMAT.md: the header, the width bytes or entries, and the tail.
`assemble.py --check` writes nothing, and fails if the files are not what it would write. `assemble.py --long VERSION` prints the lists of
digests.tsv in the form of lists.tsv.
"""

import sys
from itertools import groupby

sys.dont_write_bytecode = True

from calls import loose_blocks, refused_packs, refused_unpacks, single_blocks, upgrades
from columns import columns
from combined_id_sets import combined_id_sets
from id_sets import id_sets, spelled_bytes, spelled_ids
from lists import digest_lists, digests, edge_lists, long_lists, made_lists, single_lists, worked_lists, worked_lists2
from parts import FOLDER, KINDS, LANES, body_of, list_text, plain_blocks
from refusals import number_of, refused_rows
from refused_columns import damaged_columns, refused_columns
from refused_id_sets import damaged_sets, refused_id_sets
from refused_wide_sets import damaged_wide_sets, refused_wide_sets
from roaring import WORKED as WORKED_BITMAPS, bitmaps, damaged_bitmaps, refused_bitmaps
from rules import rule_of
from sets import intersections, refused_values, searches
from wide_columns import damaged_wide_columns, refused_wide_columns, wide_columns
from wide_sets import wide_sets


def field(value):
    """A field of a table: `-` for no values and no bytes."""
    if isinstance(value, (bytes, list, range)):
        return (value.hex() if isinstance(value, bytes) else ",".join(map(str, value))) or "-"
    return str(value)


def table(head, lines):
    return "".join("\t".join(map(field, line)) + "\n" for line in [head.split(), *lines])


def fault_number(fault):
    return 0 if fault == "-" else number_of(fault)


def refused_calls(blocks):
    for lanes in LANES:
        for number, kind, start, width, values in refused_packs(lanes, blocks):
            yield "pack", f"{lanes}x", kind, start, width, values, number
        for number, width, body in refused_unpacks(lanes):
            yield "unpack", f"{lanes}x", "plain", "-", width, body, number


def set_rows():
    """The sets, and after them the damaged texts that are the text of another set."""
    found = {text: ids for ids, text in id_sets()} | {text: ids for text, fault, ids in damaged_sets() if fault is None}
    for text, ids in found.items():
        yield spelled_ids(ids), spelled_bytes(text)


def refused_set_rows():
    for fault, text in refused_id_sets():
        yield number_of(fault), fault, spelled_bytes(text)


def wide_set_rows():
    """The wide sets, and after them the damaged texts that are the text of another set."""
    found = {text: ids for ids, text in wide_sets()} | {text: ids for text, fault, ids in damaged_wide_sets() if fault is None}
    for text, ids in found.items():
        yield spelled_ids(ids), spelled_bytes(text)


def refused_wide_set_rows():
    for fault, text in refused_wide_sets():
        yield number_of(fault), fault, spelled_bytes(text)


def bitmap_rows():
    """Roaring's bitmaps, and after them the damaged texts that are another bitmap."""
    worked = {bytes.fromhex(text).hex() for text in WORKED_BITMAPS.values()}
    found = dict(bitmaps()) | {text: ids for text, fault, ids in damaged_bitmaps() if fault is None}
    for text, ids in found.items():
        yield spelled_ids(ids), spelled_bytes(text), "yes" if text.hex() in worked else "no"


def refused_bitmap_rows():
    for fault, text in refused_bitmaps():
        yield number_of(fault), fault, spelled_bytes(text)


def column_rows():
    """The columns, and after them the damaged texts that are the text of another column."""
    found = {text: (kind, values) for kind, values, text in columns()}
    found |= {text: column for text, fault, column in damaged_columns() if fault is None}
    for text, (kind, values) in found.items():
        yield KINDS[kind], values, spelled_bytes(text)


def refused_column_rows():
    for fault, text in refused_columns():
        yield number_of(fault), fault, spelled_bytes(text)


def spelled_values(values):
    """Values with commas, and none between two where one is missing. `{7,*16}` are sixteen times the same."""
    spelled = ["" if value is None else str(value) for value in values]
    runs = [(text, len([*run])) for text, run in groupby(spelled)]
    text = "".join(f"{{{text},*{count}}}" if count > 4 else f"{text}," * count for text, count in runs)
    return text or "-"


def wide_column_rows():
    """The wide columns, and after them the damaged texts that are the text of another one."""
    found = wide_columns() | {text: values for text, fault, values in damaged_wide_columns() if fault is None}
    for text, values in found.items():
        yield spelled_values(values), spelled_bytes(text)


def refused_wide_column_rows():
    for fault, text in refused_wide_columns():
        yield number_of(fault), fault, spelled_bytes(text)


def tables(blocks):
    """The text of each file, by its name."""
    found = {
        "loose.tsv": table("packer kind initial least width values bytes", loose_blocks(blocks)),
        "refused_blocks.tsv": table("call packer kind initial width given number", refused_calls(blocks)),
        "single.tsv": table("packer kind initial width values bytes", single_blocks()),
        "seek.tsv": table("lanes bytes targets found", searches(blocks)),
        "intersect.tsv": table("lanes bytes other_lanes other_bytes shared", intersections()),
        "refused_values.tsv": table("kind lanes values position", refused_values()),
        "id_sets.tsv": table("ids bytes", set_rows()),
        "refused_id_sets.tsv": table("number fault bytes", refused_set_rows()),
        "wide_sets.tsv": table("ids bytes", wide_set_rows()),
        "refused_wide_sets.tsv": table("number fault bytes", refused_wide_set_rows()),
        "combined_id_sets.tsv": table("ids others both", (map(spelled_ids, it) for it in combined_id_sets())),
        "bitmaps.tsv": table("ids bytes croaring", bitmap_rows()),
        "refused_bitmaps.tsv": table("number fault bytes", refused_bitmap_rows()),
        "columns.tsv": table("kind values bytes", column_rows()),
        "refused_columns.tsv": table("number fault bytes", refused_column_rows()),
        "wide_columns.tsv": table("values bytes", wide_column_rows()),
        "refused_wide_columns.tsv": table("number fault bytes", refused_wide_column_rows()),
        "digests.tsv": table("kind lanes count bits version length sha256", digests()),
    }
    upgraded = [(lanes, text, fault_number(fault), fault, after) for lanes, text, fault, after in upgrades(blocks)]
    found["upgrade.tsv"] = table("lanes bytes number fault upgraded", upgraded)
    plain = [*worked_lists(), *single_lists(1), *made_lists(blocks, 1), *edge_lists(1)]
    longer = [*worked_lists2(), *single_lists(2), *long_lists(blocks), *made_lists(blocks, 2), *edge_lists(2)]
    for version, name, lists in [(1, "", plain), (2, "2", longer)]:
        found[f"lists{name}.tsv"] = table("kind lanes values bytes", lists)
        refused = [
            (lanes, number_of(fault), fault, text, rule_of(version, lanes, fault, text))
            for lanes, fault, text in refused_rows(version, blocks)
        ]
        found[f"refused{name}.tsv"] = table("lanes number fault bytes rule", refused)
    return found


def digested_lists(version):
    lists = ((name, lanes, values, list_text(version, lanes, KINDS.index(name), values)) for name, lanes, _, values in digest_lists())
    return table("kind lanes values bytes", lists)


def main():
    if sys.argv[1:2] == ["--long"]:
        print(digested_lists(int(sys.argv[2])), end="")
        return 0
    blocks, status = plain_blocks(), 0
    for (lanes, width), (codes, body) in blocks.items():
        if body_of(lanes, width, codes) != body:
            print(f"the block of {lanes} lanes at width {width} is not laid as in vectors/blocks.tsv")
            status = 1
    for name, text in tables(blocks).items():
        if sys.argv[1:] == ["--check"]:
            with open(f"{FOLDER}/{name}", encoding="ascii") as file:
                if file.read() != text:
                    print(f"vectors/{name} is not what assemble.py writes")
                    status = 1
        else:
            with open(f"{FOLDER}/{name}", "w", encoding="ascii") as file:
                file.write(text)
    return status


if __name__ == "__main__":
    sys.exit(main())
