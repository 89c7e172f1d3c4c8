"""The package over the tables of vectors/."""

import operator

import fimulowen
import numpy as np
import pytest
from fimulowen import Error, IdSet, IdSet64, chain

from tables import data, fault, numbers, rows

# The number of a fault says which part, or which position.
PARTS = ("BadWidth", "LooseWidth", "BadKey", "BadSum", "BadOffset", "BadBody", "LooseBody")


@pytest.mark.parametrize("kind, dtype, name, least", [(IdSet, "u4", "id_sets", 300), (IdSet64, "u8", "wide_sets", 500)])
def test_sets(kind, dtype, name, least):
    found = rows(name)
    assert len(found) > least
    for row in found:
        ids, text = numbers(row["ids"]), data(row["bytes"])
        packed = kind(np.array(ids, dtype))
        assert packed.tobytes() == text and kind.open(text) == packed
        assert packed.unpack().tolist() == ids and packed.nbytes == len(text)


def test_refused_sets():
    """Each fault by its name, and the part or the position that the table says."""
    tried = set()
    for row in rows("refused_id_sets"):
        text, (name, more) = data(row["bytes"]), fault(row["fault"])
        with pytest.raises(Error) as raised:
            IdSet.open(text)
        error = raised.value
        assert error.fault == name, row
        assert name != "NotSorted" or error.position == more[0], row
        assert name not in PARTS or error.part == more[0], row
        assert error.position is not None or 0 <= error.byte <= len(text), row
        tried.add(name)
    assert len(tried) >= 15


def test_refused_wide_sets():
    """Each fault by its name, and the word or the position that the table says. A fault in the column has the byte where the column begins."""
    tried, places = set(), set()
    for row in rows("refused_wide_sets"):
        text, (name, more) = data(row["bytes"]), fault(row["fault"])
        with pytest.raises(Error, match=rf"^[A-Z].*\. \({name}, (part \d+, )?byte \d+(, position \d+)?\)$") as raised:
            IdSet64.open(text)
        error, in_words = raised.value, text[:1] == b"\x08"
        assert error.fault == name and 0 <= error.byte <= len(text), row
        assert error.part == (more[0] if in_words and name in PARTS else None), row
        assert error.position in ([more[0], None] if name == "NotSorted" else [None]), row
        tried.add(name)
        places.add((name, error.position is None))
    assert len(tried) >= 15 and {("NotSorted", True), ("NotSorted", False)} < places


def test_bitmaps():
    """Bitmaps in Roaring's portable format: what CRoaring and the model of vectors/ write."""
    found = rows("bitmaps")
    assert len(found) > 150
    for row in found:
        packed = IdSet.from_roaring(data(row["bytes"]))
        assert packed == IdSet(np.array(numbers(row["ids"]), "u4")), row
        assert row["croaring"] == "no" or packed.to_roaring() == data(row["bytes"]), row


def test_refused_bitmaps():
    tried = set()
    for row in rows("refused_bitmaps"):
        with pytest.raises(Error) as raised:
            IdSet.from_roaring(data(row["bytes"]))
        assert raised.value.fault == fault(row["fault"])[0] and raised.value.byte is raised.value.position is None, row
        tried.add(raised.value.fault)
    assert tried == {"Short", "BadVersion", "BadNumber", "BadKey", "BadOffset", "NotSorted", "BadBody", "Trailing"}


def test_two_sets():
    calls = {"both": (operator.and_, fimulowen.intersect)}
    for row in rows("combined_id_sets"):
        one, other = (IdSet(np.array(numbers(row[name]), "u4")) for name in ("ids", "others"))
        for name, (joined, call) in calls.items():
            wanted = numbers(row[name])
            assert list(joined(one, other)) == wanted == call(other, one).tolist()
        assert fimulowen.intersect_len(one, other) == len(numbers(row["both"]))


@pytest.mark.parametrize("name", ["blocks", "single", "loose"])
def test_blocks(name):
    for row in rows(name):
        lanes, width, text = int(row["packer"][0]), int(row["width"]), data(row["bytes"])
        initial = None if row["initial"] in ("-", "none") else int(row["initial"])
        values = np.array(numbers(row["values"]), "u4")
        given = {"kind": row["kind"], "initial": initial, "lanes": lanes}
        assert chain.unpack(bytes([width]), text, **given).tolist() == values.tolist()
        widths, packed = chain.pack(values, **given)
        assert widths[0] <= width and (widths[0] < width or packed == text)
        assert name != "blocks" or (widths[0], packed) == (width, text)
