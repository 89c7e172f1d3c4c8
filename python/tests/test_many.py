"""Many sets in one buffer."""

import fimulowen
import numpy as np
import pytest
from fimulowen import Error, IdSet

from test_id_set import RANDOM


def test_many():
    sizes = RANDOM.integers(0, 300, 500)
    bounds = np.concatenate([[0], np.cumsum(sizes)])
    ids = np.concatenate([np.sort(RANDOM.choice(9999, it, replace=False)) for it in sizes])
    text, ends = IdSet.pack_many(ids, bounds)
    opened = IdSet.open_many(text, ends)
    assert len(opened) == 500 and ends[0] == 0 and ends[-1] == len(text)
    for i, packed in enumerate(opened):
        assert packed == IdSet(ids[bounds[i] : bounds[i + 1]]) and type(packed) is IdSet
    again = IdSet.open_many(bytearray(text), ends.tolist())
    assert again == opened
    some = IdSet.open_many(text, ends[100:200])
    assert some == opened[100:199]


def test_some_of_the_ids():
    text, ends = IdSet.pack_many([9, 1, 2, 5, 0], [1, 4, 4])
    assert [list(it) for it in IdSet.open_many(text, ends)] == [[1, 2, 5], []]
    assert IdSet.pack_many([], [0])[0] == b"" and IdSet.open_many(b"", [0]) == []


def test_long():
    bounds = [0, 1_500_000, 1_500_000, 3_000_000]
    ids = np.concatenate([np.arange(1_500_000), np.arange(0, 3_000_000, 2)])
    text, ends = IdSet.pack_many(ids, bounds)
    assert [len(it) for it in IdSet.open_many(text, ends)] == [1_500_000, 0, 1_500_000]


def test_refused():
    for bounds in ([], [0, 5, 4], [0, 7], [-1, 2], [2**63]):
        with pytest.raises(IndexError):
            IdSet.pack_many([1, 2, 3, 4, 5], bounds)
    for bounds in ([], [0, 3, 2], [0, 9], [-1, 2]):
        with pytest.raises(IndexError):
            IdSet.open_many(IdSet([1, 5]).tobytes(), bounds)
    with pytest.raises(Error) as raised:
        IdSet.pack_many([1, 2, 3, 7, 7, 8], [0, 3, 6])
    assert (raised.value.fault, raised.value.number, raised.value.position) == ("NotSorted", 1, 1)
    text = IdSet([1, 5]).tobytes() + bytes.fromhex("81FF")
    with pytest.raises(Error) as raised:
        IdSet.open_many(text, [0, len(text) - 2, len(text)])
    assert (raised.value.fault, raised.value.number, raised.value.byte) == ("Short", 1, 1)
    assert "number 1" in str(raised.value)
    assert fimulowen.IdSet.open_many(text, [0, len(text) - 2])[0] == IdSet([1, 5])
