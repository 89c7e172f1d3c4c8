"""Limits of dates and spans in every unit, and values of another one, beside integers of Python."""

import datetime

import numpy as np
import pytest
from fimulowen import Column

D, T = np.datetime64, np.timedelta64
# Attoseconds, or months.
SIZES = {"W": 604_800 * 10**18, "D": 86_400 * 10**18, "h": 3600 * 10**18, "m": 60 * 10**18, "s": 10**18}
SIZES |= {"ms": 10**15, "us": 10**12, "ns": 10**9, "ps": 10**6, "fs": 1000, "as": 1}
MONTHS = {"Y": 12, "M": 1}
UNITS = [*MONTHS, *SIZES]
MOST = 2**63 - 1
NUMBERS = [-MOST, -(10**13), -9999, -13, -1, 0, 1, 12, 29, 400, 10**13, MOST]


def first_day(month):
    """The day on which a month begins, both counted from the start of 1970, by the rule of leap years."""
    year, month = divmod(1970 * 12 + month, 12)
    is_leap = year % 4 == 0 and (year % 100 != 0 or year % 400 == 0)
    lengths = [31, 28 + is_leap, 31, 30, 31, 30, 31, 31, 30, 31, 30, 31]
    before = year - 1
    return 365 * before + before // 4 - before // 100 + before // 400 - 719_162 + sum(lengths[:month])


def amount(kind, number, unit):
    """What can be compared: the attosecond of a date, or the attoseconds or months of a span."""
    if unit in MONTHS:
        return first_day(number * MONTHS[unit]) * SIZES["D"] if kind is D else number * MONTHS[unit]
    return number * SIZES[unit]


DAYS = [datetime.date(year, month, 1) for year in (1, 1600, 1900, 1969, 1972, 2000, 2100, 9999) for month in (1, 2, 3, 12)]


def test_model():
    """The first days of months, by the calendar of Python."""
    assert [first_day(12 * (it.year - 1970) + it.month - 1) for it in DAYS] == [(it - datetime.date(1970, 1, 1)).days for it in DAYS]


@pytest.mark.parametrize("unit", UNITS)
@pytest.mark.parametrize("kind", [D, T])
def test_units(kind, unit):
    """Each pair of a column and a limit, with numbers at the ends of 64 bits."""
    column, values = Column([kind(it, unit) for it in NUMBERS]), [amount(kind, it, unit) for it in NUMBERS]
    for other in UNITS:
        if kind is T and (other in MONTHS) != (unit in MONTHS):
            with pytest.raises(TypeError):
                column.between(kind(1, other), kind(1, other))
            continue
        for number in NUMBERS:
            limit, wanted = kind(number, other), amount(kind, number, other)
            at = next((at for at, it in enumerate(values) if it >= wanted), None)
            assert column.seek(limit) == (None if at is None else (at, kind(NUMBERS[at], unit))), limit
            for high in NUMBERS[::3]:
                found = [at for at, it in enumerate(values) if wanted <= it <= amount(kind, high, other)]
                assert column.between(limit, np.array(kind(high, other))).tolist() == found, (limit, high)
                assert column.count_between(limit, kind(high, other)) == len(found)


TIMES = Column(np.array(["1990-01-01", "2020-01-01", "2026-11-27"], "M8[ns]"))
ALL, FIRST = [0, 1, 2], (0, D("1990-01-01"))


@pytest.mark.parametrize(
    "low, high, wanted",
    [
        ("1900-01-01", "2300-01-01", ALL),
        ("1500", "3000", ALL),
        (datetime.date.min, datetime.date.max, ALL),
        (datetime.datetime.min, datetime.datetime.max, ALL),
        ("1677-09-21T00:12:43.145224193", "9999-12-31T23:59:59.999999999", ALL),
        ("0001-01-01T00:00:00.000000001", "1990-01-01T00:00:00.000000000000000001", [0]),
        ("1990-01-01T00:00:00.000000000000000001", "2020-01-01T00:00:00.0", [1]),
        ("-292277022657-01-27T08:29:52", "292277026596-12-04T15:30:08", ALL),
        ("-99999999999999999999-01-01", "99999999999999999999-12-31T00:00:00.5", ALL),
        ("2300-01-01", "1900-01-01", []),
        ("2300-01-01", "3000-01-01", []),
        (D(-MOST, "Y"), D(MOST, "Y"), ALL),
        (D(MOST, "Y"), D(-MOST, "Y"), []),
        (D(1, "25s"), D(2 * 10**9, "s"), [0, 1, 2]),
        (D(631152000 // 25 + 1, "25s"), D(63, "Y"), [1, 2]),
    ],
)
def test_outside_of_the_unit(low, high, wanted):
    assert TIMES.between(low, high).tolist() == wanted == list(TIMES.between_ids(low, high)) and TIMES.count_between(low, high) == len(
        wanted
    )
    assert (TIMES.seek(low) or (3,))[0] == min([*wanted, 3]) or not wanted


def test_seek_outside_of_the_unit():
    assert TIMES.seek("3000-01-01") is None is TIMES.seek(datetime.date.max) and TIMES.seek("1500") == FIRST == TIMES.seek(
        datetime.date.min
    )
    spans = Column(np.array([0, 86_400 * 10**9], "m8[ns]"))
    for most in (T(10**6, "D"), datetime.timedelta.max, T(MOST, "W"), datetime.timedelta(days=10**6)):
        assert spans.between(T(0, "D"), most).tolist() == [0, 1] and spans.seek(most) is None
    for least in (T(-(10**6), "D"), datetime.timedelta.min, T(-MOST, "W"), T(0)):
        assert spans.seek(least) == (0, T(0, "s")) and spans.count_between(least, datetime.timedelta(1)) == 2
    assert spans.between(T(1), T(86_400 * 10**9)).tolist() == [1]  # a span without a unit is of that of the column
    if __import__("importlib").util.find_spec("pandas"):
        import pandas

        stamp = pandas.Timestamp("2020-01-01T00:00:00.000000001")
        assert TIMES.between(pandas.Timestamp.min, stamp).tolist() == [0, 1] and TIMES.between(stamp, pandas.Timestamp.max).tolist() == [2]
        assert spans.seek(pandas.Timedelta(1, "ns")) == (1, T(1, "D"))


OF_ANOTHER_KIND = [5, 0.5, None, b"2020", [D("2020")], np.array([D("2020")]), T("NaT"), T(1, "s"), datetime.time(1)]


@pytest.mark.parametrize("wrong", [*OF_ANOTHER_KIND, "x", "", "NaT", D("NaT")])
def test_no_date(wrong):
    error = TypeError if any(it is wrong for it in OF_ANOTHER_KIND) else ValueError
    for call in (
        TIMES.seek,
        lambda it: TIMES.between(it, "2020"),
        lambda it: TIMES.count_between("2020", it),
        lambda it: TIMES.between_ids(it, it),
    ):
        with pytest.raises(error):
            call(wrong)


@pytest.mark.parametrize("wrong", [5, 0.5, None, "5", "1 day", D("2020"), datetime.date(2020, 1, 1), T(1, "Y"), np.array([T(1, "s")])])
def test_no_span(wrong):
    with pytest.raises(TypeError):
        Column(np.array([5], "m8[s]")).between(wrong, T(1, "s"))


def test_fill():
    """A value in place of missing ones is one of the column."""
    times, spans = Column(np.array(["NaT", "2020-01-01"], "M8[ns]")), Column(np.array(["NaT", 5], "m8[s]"))
    for fill in ("2020-01-01", datetime.date(2020, 1, 1), D("2020", "Y"), D("2020-01-01", "us")):
        assert times.unpack(fill=fill).tolist() == [times[1].astype("i8")] * 2 == times.gather([0, 1], fill).tolist()
        assert times.unpack(np.empty(2, "M8[D]"), fill=fill).tolist() == [datetime.date(2020, 1, 1)] * 2
    for fill in (None, D("NaT")):
        assert np.isnat(times.unpack(fill=fill)).tolist() == [True, False] == np.isnat(times.gather([0, 1], fill)).tolist()
    assert spans.unpack(fill=datetime.timedelta(seconds=7)).astype(int).tolist() == [7, 5]
    for column, wrong, error in [
        (times, "3000", OverflowError),
        (times, datetime.date.min, OverflowError),
        (times, D(1, "as"), ValueError),
        (times, 5, TypeError),
        (times, T(5, "s"), TypeError),
        (spans, T(MOST, "D"), OverflowError),
        (spans, T(1, "ms"), ValueError),
        (spans, T(1, "Y"), TypeError),
        (spans, 0.5, TypeError),
    ]:
        for call in (
            lambda it: column.unpack(fill=it),
            lambda it: column.gather([1], it),
            lambda it: column.unpack(np.empty(2, column.dtype), fill=it),
        ):
            with pytest.raises(error):
                call(wrong)


def test_other_units_out():
    """A date that another unit cannot say is an error, and else it is the one at which the unit begins."""
    column = Column([D("1969-12-31T23:59:59"), None, D("3000-05-06T07:08:09")])
    assert column.unpack(dtype="M8[D]").tolist() == [datetime.date(1969, 12, 31), None, datetime.date(3000, 5, 6)]
    assert column.unpack(dtype="M8[us]")[2] == D("3000-05-06T07:08:09") == np.asarray(column, "M8[us]")[2]
    for dtype in ("M8[ns]", "M8[as]", "i4", "u8"):
        for call in (lambda it: column.unpack(dtype=it), lambda it: column.unpack(np.empty(3, it)), lambda it: np.asarray(column, it)):
            with pytest.raises(OverflowError):
                call(dtype)
    with pytest.raises(OverflowError):
        Column([D("2020", "s"), None]).unpack(dtype="M8[ns]", fill="3000")
    with pytest.raises(OverflowError):
        Column([T(10**6, "D")]).unpack(dtype="m8[ns]")
