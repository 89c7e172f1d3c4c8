"""Sets from columns of data frames, and back: beside numpy and pandas."""

import numpy as np
import pytest
from fimulowen import Error, IdSet
from hypothesis import given, settings
from hypothesis import strategies as st

from test_id_set import MOST, RANDOM, arrays, pandas


@given(st.lists(st.booleans(), max_size=300), st.integers(0, 70))
def test_masks(bools, more):
    mask, ids = np.array(bools, bool), [at for at, it in enumerate(bools) if it]
    series = [] if pandas is None else [pandas.Series(mask), pandas.array(mask)]
    for form in (mask, bools, tuple(bools), iter(bools), mask[::-1][::-1], mask.astype(object), list(mask), *series):
        packed = IdSet.of_mask(form)
        assert type(packed) is IdSet and list(packed) == ids
    found = packed.mask(len(bools) + more)
    assert found.dtype == bool and found.tolist() == bools + [False] * more
    assert list(packed.complement(len(bools) + more)) == np.flatnonzero(~found).tolist()


@settings(max_examples=50)
@given(arrays(), st.integers(0, 70_000))
def test_complement(ids, count):
    """Ids from the count on are in neither."""
    assert list(IdSet(ids).complement(count)) == sorted(set(range(count)).difference(ids.tolist()))


def test_long_masks():
    for share in (0.001, 0.5, 0.999):
        mask = RANDOM.random(3_000_000) < share
        packed = IdSet.of_mask(mask)
        assert (packed.unpack() == np.flatnonzero(mask)).all() and (packed.mask(len(mask)) == mask).all()
        assert packed.complement(len(mask)) == IdSet.of_mask(~mask)


@pytest.mark.parametrize(
    "wrong, error, text",
    [
        ([True, 1], TypeError, "position 1: 1 is not a bool"),
        ([True, None], TypeError, "position 1: None is not a bool"),
        (["True"], TypeError, "position 0: 'True' is not a bool"),
        (iter([False, 0.5]), TypeError, "position 1: 0.5 is not a bool"),
        (np.array([1, 0]), TypeError, "position 0: 1 is not a bool"),
        (np.array([True, 5], object), TypeError, "position 1: 5 is not a bool"),
        (np.ones((2, 2), bool), ValueError, "one dimension expected, not 2"),
        (np.bool_(True), TypeError, "dimension"),
        (np.ma.MaskedArray([True, False], [False, True]), ValueError, "missing"),
        (True, TypeError, "not iterable"),
        (None, TypeError, "not iterable"),
        *([] if pandas is None else [(pandas.array([True, None]), TypeError, "position 1: <NA> is not a bool")]),
    ],
)
def test_refused_masks(wrong, error, text):
    with pytest.raises(error, match=text):
        IdSet.of_mask(wrong)


def test_masks_are_no_ids():
    """What takes ids says which call takes a mask."""
    masks = [np.array([True, False]), [True, False], *([] if pandas is None else [pandas.Series([True, False])])]
    for mask in masks:
        for call in (IdSet, IdSet().__and__, IdSet().contains, IdSet().gather, IdSet().append, IdSet().rank):
            with pytest.raises(
                TypeError, match=r"position 0: True is not an integer: IdSet.of_mask has the positions where a mask is true"
            ):
                call(mask)


def test_counts():
    """What the numbers of rows may be."""
    packed = IdSet([3, 7])
    assert packed.mask(8).tolist() == [False, False, False, True, False, False, False, True] and IdSet().mask(0).tolist() == []
    for few in (0, 7):
        with pytest.raises(IndexError, match=f"the id 7 is not below {few}"):
            packed.mask(few)
    for call in (packed.mask, packed.complement, lambda it: IdSet.groups([], it)):
        with pytest.raises(ValueError, match="below 0"):
            call(-1)
        with pytest.raises(TypeError):
            call(1.5)
    with pytest.raises((OverflowError, MemoryError)):
        packed.mask(1 << 70)
    for many in (2**28 + 3, 2**32, 1 << 70):
        with pytest.raises(Error, match="More than 268,435,456") as raised:
            packed.complement(many)
        assert raised.value.fault == "TooLong"
    whole = packed.complement(2**28 + 2)
    assert len(whole) == 2**28 and whole.isdisjoint(packed) and whole.max() == 2**28 + 1


@given(st.lists(st.integers(-1, 40), max_size=400), st.integers(0, 3), st.sampled_from(["i1", "i2", "i8", ">i4", "O"]))
def test_groups(codes, more, dtype):
    most = max(codes, default=-1) + 1
    wanted = [[at for at, it in enumerate(codes) if it == code] for code in range(most + more)]
    forms = [codes, iter(codes), np.array(codes, dtype), *([] if pandas is None else [pandas.Series(codes, dtype="i8")])]
    for form in forms:
        found = IdSet.groups(form, most + more)
        assert [list(it) for it in found] == wanted and {type(it) for it in found} <= {IdSet}
    assert [list(it) for it in IdSet.groups(codes)] == wanted[:most]


def test_long_groups():
    """Sets of many rows, and many sets."""
    for groups, dtype in ((3, "i1"), (300, "u2"), (70_000, "i8")):
        codes = RANDOM.integers(0, groups, 1_500_000).astype(dtype)
        found = IdSet.groups(codes, groups)
        order = np.argsort(codes, kind="stable")
        assert len(found) == groups and (np.concatenate([it.unpack() for it in found]) == order).all()
        assert [len(it) for it in found] == np.bincount(codes, minlength=groups).tolist()


@pytest.mark.parametrize(
    "codes, count, error, text",
    [
        ([0, 1, -2], None, IndexError, "position 2: the code -2 is below -1, or not below 2"),
        ([0, 3, 4], 3, IndexError, "position 1: the code 3 is below -1, or not below 3"),
        ([0], 0, IndexError, "position 0"),
        ([0, 2**24], None, Error, "More than 16,777,216 sets"),
        ([0], 2**24 + 1, Error, "More than 16,777,216 sets"),
        ([0, 2**70], None, IndexError, "position 1"),
        (np.array([0, 2**64 - 1], "u8"), None, IndexError, "position 1"),
        ([0.5], None, TypeError, "position 0: 0.5"),
        ([True], None, TypeError, "position 0: True"),
        (5, None, TypeError, "not iterable"),
        *([] if pandas is None else [(pandas.array([1, None]), None, TypeError, "position 1: <NA>")]),
    ],
)
def test_refused_groups(codes, count, error, text):
    with pytest.raises(error, match=text):
        IdSet.groups(codes, count)


def test_pandas():
    """Masks, codes and rows as pandas has them, if it is there."""
    if pandas is None:
        return
    frame = pandas.DataFrame({"plan": pandas.Categorical(["pro", None, "free", "pro"], ["free", "none", "pro"]), "age": [20, 31, 44, 35]})
    plans = dict(zip(frame.plan.cat.categories, IdSet.groups(frame.plan.cat.codes, len(frame.plan.cat.categories))))
    assert {name: list(it) for name, it in plans.items()} == {"free": [2], "none": [], "pro": [0, 3]}
    codes, names = pandas.factorize(frame.plan)
    assert [list(it) for it in IdSet.groups(codes)] == [[0, 3], [2]] and list(names) == ["pro", "free"]
    chosen = plans["pro"] & IdSet.of_mask(frame.age > 30)
    assert frame.iloc[chosen].age.tolist() == [35] == frame[chosen.mask(len(frame))].age.tolist()
    assert (frame.age.isin([31, 44]) == IdSet([31, 44]).contains(frame.age)).all()


@settings(max_examples=30)
@given(arrays(), arrays())
def test_jaccard(one, other):
    a, b = set(one.tolist()), set(other.tolist())
    wanted = len(a & b) / len(a | b) if a | b else 1.0
    assert IdSet(one).jaccard(IdSet(other)) == wanted == IdSet(other).jaccard(one)


@settings(max_examples=30)
@given(arrays(), st.data())
def test_many_targets(ids, data):
    """Few and many targets, which are searched for in the set or in bits."""
    packed, known, some = IdSet(ids), set(ids.tolist()), ids.tolist() or [7]
    asked = data.draw(st.lists(st.integers(-(2**70), 2**70) | st.integers(-5, MOST + 5) | st.sampled_from(some), max_size=40))
    near = RANDOM.integers(-3, int(ids[-1]) + 3 if len(ids) else 9, data.draw(st.sampled_from([0, 1, 5000])))
    for targets in (asked, [*asked, *near.tolist()], near, near.astype("i8")[::-1], np.abs(near).astype("u4"), np.abs(near).astype("u8")):
        every = [int(it) for it in targets]
        at = np.searchsorted(ids, np.array([min(max(it, 0), 2**32) for it in every], "i8"))
        ranks, (positions, found) = packed.rank(targets), packed.seek(targets)
        assert ranks.dtype == positions.dtype == found.dtype == np.int64
        assert ranks.tolist() == at.tolist() == positions.tolist()
        assert found.tolist() == [int(ids[it]) if it < len(ids) else -1 for it in at]
        assert packed.contains(targets).tolist() == [it in known for it in every]


@pytest.mark.parametrize("span", [1 << 12, 1 << 20, 1 << 32])
@pytest.mark.parametrize("count", [1, 63, 64, 65, 2000])
def test_bits(span, count):
    """Each bit of the words, and what is beside them, as one id after another says."""
    ids = np.unique(RANDOM.integers(0, span, count)).astype("i8")
    packed, least = IdSet(ids), int(ids[0])
    near = np.concatenate([ids - 1, ids, ids + 1, least + np.arange(-130, 130), ids[-1] + np.arange(-130, 130)])
    for targets in (near, np.tile(near, 40)):
        assert (packed.rank(targets) == np.searchsorted(ids, targets)).all()
        assert (packed.contains(targets) == np.isin(targets, ids)).all()
        assert [packed.rank(int(it)) for it in targets[:300]] == packed.rank(targets[:300]).tolist()


def test_targets():
    packed = IdSet([5, 9])
    assert packed.rank(np.int64(9)) == 1 == packed.rank(np.array(9)) and packed.seek(9) == (1, 9) and packed.seek(10) is None
    assert packed.rank((9,)).tolist() == [1] and packed.seek((9, 4))[0].tolist() == [1, 0]
    assert packed.rank(np.array([9])).tolist() == [1] and packed.rank([]).tolist() == [] and packed.rank(packed).tolist() == [0, 1]
    assert [it.tolist() for it in packed.seek(range(4, 11, 3))] == [[0, 1, 2], [5, 9, -1]]
    for wrong in (1.5, "5", None, [1.5], ["5"], np.array(1.5), b"5", [[1]], object()):
        for call in (packed.rank, packed.seek):
            with pytest.raises(TypeError):
                call(wrong)
    for call in (packed.rank, packed.seek):
        with pytest.raises(ValueError, match="one dimension"):
            call(np.zeros((2, 2), "i8"))
