"""What a caller passes to a column, in each form that Python has, and what it returns as other types: beside a model."""

import numpy as np
import pytest
from fimulowen import Column, IdSet, Query

from test_inputs import COLUMN, MOST, TYPES, VALUES, D, T, fits, forms, outcome


def values_of(values):
    """The type and the values of a column of a list, or the error of one."""
    there = [it for it in values if it is not None]
    if any(type(it) not in (int, D, T) for it in there) or len(set(map(type, there))) > 1:
        raise TypeError
    if there and type(there[0]) is not int:
        kind, units = type(there[0]), [np.datetime_data(it.dtype)[0] for it in there]
        unit = max(units, key=["Y", "M", "D", "s", "ns"].index)
        if any(abs(it.astype("i8")) > 999 for it, its in zip(there, units) if its == "Y" and unit == "ns"):
            raise OverflowError  # the years of nanoseconds are 1677 to 2262
        return [kind(0, unit).dtype, *(it if it is None or np.isnat(it) else kind(it, unit) for it in values)]
    first, last = (0, 2**64 - 1) if max(there, default=0) >= 2**63 else (-(2**63), 2**63 - 1)
    if any(not first <= it <= last for it in there):
        raise OverflowError
    return [np.dtype("i8" if first else "u8"), *values]


def column_of(values, missing=None):
    """The type and the values of a column."""
    column = Column(values, missing)
    return [column.dtype, *column]


COLUMNS = [
    [5, None, -7],
    [None, None],
    [2**64 - 1, None, 0],
    [D("2020-01-01"), D("1969-05-06")],
    [None, D("2020-01-01"), None],
    [D("2020", "Y"), D("2020-05-06", "s"), None],
    [D("2020", "Y"), D("1999-01-01T05", "ns")],
    [D("2020-01-01T00", "ns"), D("3000", "Y")],
    [T(5, "s"), None, T(-7, "D")],
    [T(5, "s"), 3],
    [3, T(5, "s")],
    [T(5, "s"), True],
    [D("2020-01-01"), 3],
    [D("2020-01-01"), T(5, "s")],
    [D("2020-01-01"), "2021-01-01"],
    [D("2020-01-01"), 0.5],
]


@pytest.mark.parametrize("values", [*VALUES[1:], *COLUMNS], ids=lambda it: str(it)[:30])
def test_columns(values):
    wanted = outcome(values_of, values)
    for form in forms(values):
        found = outcome(column_of, form)
        unsigned = isinstance(form, (np.ndarray, memoryview)) and np.asarray(form).dtype in ("u8", ">u8")
        assert found == (["u8", *values] if unsigned else wanted), type(form)
    for before in [COLUMN, Column([D("2020", "s")]), Column(np.array([5], "u8"))]:
        more = [list(before) + list(values) if type(wanted) is list else wanted, TypeError, OverflowError]
        found = [outcome(before.append, form) for form in forms(values)]
        assert found[0] in more and all(it == found[0] for it in found), found


def test_empty_columns():
    for form in forms([]):
        times = getattr(form, "dtype", np.dtype("i8")).kind in "mM"
        assert column_of(form) == [form.dtype if times else np.dtype("u8" if getattr(form, "dtype", "") in ("u8", ">u8") else "i8")]
        assert COLUMN.append(form) == COLUMN and outcome(column_of, [], form) == [np.dtype("i8")]


@pytest.mark.parametrize(
    "missing, wanted",
    [
        ([True, False, True], [None, 5, None]),
        ([1, 0, 0], [None, 5, 6]),
        ([False, np.True_, False], [4, None, 6]),
        ([], ValueError),
        ([True, False], ValueError),
        ([True] * 4, ValueError),
        (["a", "", "b"], TypeError),
        ([0.0, 1.0, 0.5], TypeError),
        ([None, True, False], TypeError),
        ([D("2020")] * 3, TypeError),
        ([[True], [False], [True]], ValueError),
    ],
)
def test_missing(missing, wanted):
    for form in [*forms(missing), np.array(missing)]:
        found = outcome(column_of, [4, 5, 6], form)
        assert found == ([np.dtype("i8"), *wanted] if type(wanted) is list else wanted), type(form)
    for wrong in ("abc", b"abc", 5, 0.5, True):
        with pytest.raises((TypeError, ValueError)):
            Column([4, 5, 6], wrong)


FEW = [
    [],
    [0],
    [1],
    [0, 1],
    [0, 127],
    [0, 128],
    [0, 255],
    [0, 256],
    [5, 32767],
    [5, 32768],
    [65504],
    [65535],
    [65536],
    [2**31 - 1],
    [2**31],
    [MOST],
]
MORE = [[-1], [-128], [-129, 5], [-(2**31) - 1], [2**63 - 1], [-(2**63)], [2**63], [2**64 - 1]]


def as_type(values, dtype):
    """Integers as another type, by numpy if it has them."""
    dtype = np.dtype(dtype)
    if dtype.kind in "SV" or dtype == "U20":
        raise TypeError
    if dtype.kind in "iu" and not fits(values, dtype) or dtype == "f2" and any(abs(it) > 65504 for it in values):
        raise OverflowError
    if dtype == "?" and set(values) - {0, 1} or dtype.kind in "mM" and any(not -(2**63) < it < 2**63 for it in values):
        raise OverflowError
    return np.array(values, "u8" if min(values, default=0) >= 0 else "i8").astype(dtype).tolist()


@pytest.mark.parametrize("dtype", [*TYPES, "U"])
@pytest.mark.parametrize("values", FEW + MORE, ids=repr)
def test_types_out(values, dtype):
    """An array of another type has the values, or there is an error."""
    wanted, column = outcome(as_type, values, dtype), Column(values)
    assert outcome(lambda: column.unpack(dtype=dtype)) == wanted == outcome(lambda: np.asarray(column, dtype))
    if dtype != "U":
        assert outcome(lambda: column.unpack(np.empty(len(values), dtype))) == wanted
    filled = outcome(as_type, [*values, 7], dtype)
    assert outcome(lambda: Column([*values, None]).unpack(dtype=dtype, fill=7)) == filled
    if values and min(values) >= np.iinfo(column.dtype).min:
        assert (
            outcome(lambda: Column([None, *values[:0]]).unpack(dtype=dtype, fill=values[0])) == outcome(as_type, values[:1], dtype)
            or values[0] >= 2**63
        )
    if values in FEW:
        packed = IdSet(values)
        assert outcome(lambda: packed.unpack(dtype=dtype)) == wanted == outcome(lambda: np.asarray(packed, dtype))
        assert outcome(lambda: np.asarray(Query(packed), dtype)) == wanted


@pytest.mark.parametrize("column", [Column([1, None]), Column([1]), Column([])], ids=repr)
def test_fill(column):
    """It is looked at also if nothing is missing."""
    calls = [lambda it: column.unpack(fill=it), lambda it: column.gather([], it), lambda it: column.unpack(np.empty(2, "i8"), fill=it)]
    for call in [*calls, lambda it: column.unpack(np.empty(2, "f8"), fill=it), lambda it: column.unpack(dtype="i4", fill=it)]:
        for wrong, error in [
            (0.5, TypeError),
            ("7", TypeError),
            (2**63, OverflowError),
            (-(2**63) - 1, OverflowError),
            ([7], TypeError),
        ]:
            with pytest.raises(error):
                call(wrong)
        call(7), call(np.uint8(7))


def test_limits_of_integers():
    """Beside the integers of Python, whatever type a limit has."""
    for dtype in ("i8", "u8"):
        values = [0, 5, 7, 2**63 - 1] + ([-(2**63), -1] if dtype == "i8" else [2**63, 2**64 - 1])
        column, ordered = Column(np.array(values, dtype)), Column(np.array(sorted(values), dtype))
        limits = [
            *values,
            -6,
            6,
            2**63,
            2**64,
            -(2**63) - 1,
            2**100,
            -(2**100),
            np.int8(-1),
            np.uint8(7),
            np.uint64(2**63),
            np.int64(5),
        ]
        for low in limits:
            found = [it for it in sorted(values) if it >= int(low)]
            assert ordered.seek(low) == ((sorted(values).index(found[0]), found[0]) if found else None)
            for high in limits:
                wanted = [at for at, it in enumerate(values) if int(low) <= it <= int(high)]
                assert column.between(low, high).tolist() == wanted == list(column.between_ids(low, high))
                assert column.count_between(low, high) == len(wanted)
        for wrong in (0.5, np.float64(5), "5", None, D("2020"), T(5, "s"), [5]):
            for call in (lambda it: column.between(it, 9), lambda it: column.count_between(0, it), ordered.seek):
                with pytest.raises(TypeError):
                    call(wrong)
