"""Columns beside numpy, and their bytes beside COLUMN.md."""

import copy
import ctypes
import datetime
import pickle
import struct
import sys
import zlib

import numpy as np
import pytest
from fimulowen import Column, Error, IdSet
from fimulowen.column import CHUNK
from hypothesis import given
from hypothesis import strategies as st

from tables import VECTORS

sys.path.append(str(VECTORS))
from columns import column_text
from id_sets import set_text

LEAST, GREATEST = -(1 << 63), (1 << 63) - 1
COUNT = 2 * CHUNK + 777
RANDOM = np.random.default_rng(8)
DATA = {
    "times": 1_700_000_000_000_000 + np.cumsum(RANDOM.integers(0, 20_000, COUNT)),
    "prices": RANDOM.normal(0, 20_000, COUNT).astype("i8"),
    "random": RANDOM.integers(LEAST, GREATEST, COUNT, endpoint=True),
    "random without a sign": RANDOM.integers(0, 1 << 64, COUNT, dtype="u8"),
    "codes": RANDOM.choice([200, 204, 301, 404, 500], COUNT),
    "wide in order": np.sort(RANDOM.integers(LEAST, GREATEST, COUNT)),
    "one far away": np.where(np.arange(COUNT) == 70_000, LEAST, 3),
}


def by_hand(values, missing=(), kind=0, unit=0, sign=True):
    """The bytes of one chunk, from the tables of COLUMN.md and the writers of vectors/."""
    there, filled = [it for it, gone in enumerate(missing) if not gone] if missing else range(len(values)), list(values)
    for at in range(len(values)):
        if at not in there:
            filled[at] = values[max([it for it in there if it < at] or there[:1])] if there else 0
    least, greatest = min(filled), max(filled)
    codes = [it - least for it in filled]
    halves = [[it % 2**32 for it in codes]] + ([[it >> 32 for it in codes]] if greatest - least >= 2**32 else [])
    parts = [column_text(int(sorted(it) == it), it) for it in halves]
    gone = [at for at in range(len(values)) if at not in there]
    parts = [set_text(gone) if gone else b"", *parts, *[b""] * (2 - len(parts))]
    row = struct.pack("<qq" if sign else "<QQ", least, greatest) + struct.pack("<3II", *map(len, parts), zlib.crc32(b"".join(parts)))
    return assembled(len(values), [row], parts, kind, unit)


def assembled(count, rows, parts, kind=0, unit=0, zero=0, version=2, chunks=None):
    """Bytes with right checksums."""
    table = b"".join(rows)
    chunks = len(rows) if chunks is None else chunks
    header = struct.pack("<4sBBBBQII", b"FCOL", version, kind, unit, zero, count, chunks, zlib.crc32(table))
    return header + struct.pack("<I", zlib.crc32(header)) + table + b"".join(parts)


@pytest.mark.parametrize("share", [0, 0.01, 0.9, 1])
@pytest.mark.parametrize("name", DATA)
def test_as_numpy(name, share):
    values, missing = DATA[name], RANDOM.random(COUNT) < share
    column, there = Column(values, missing if share else None), values[~missing]
    assert (len(column), column.dtype, len(column.missing)) == (COUNT, values.dtype, missing.sum())
    assert column.kind == ("sorted" if (there[1:] >= there[:-1]).all() else "plain")
    filled = np.where(missing, values.dtype.type(7), values)
    assert (column.unpack(fill=7) == filled).all() and (column.missing.unpack() == np.flatnonzero(missing)).all()
    assert (np.ma.getmaskarray(column.unpack()) == missing).all() and (np.ma.compressed(column.unpack()) == there).all()
    assert isinstance(column.unpack(), np.ma.MaskedArray) == bool(share)
    for part in slice(5, 700), slice(CHUNK - 3, -5, 7), slice(None, None, -1), slice(-9, 4, -1000), slice(9, 2), slice(10**9, None):
        assert (np.ma.getmaskarray(column[part]) == missing[part]).all() and (np.ma.filled(column[part], 7) == filled[part]).all()
    at = RANDOM.integers(-COUNT, COUNT, 500)
    assert (column.gather(at, 7) == filled[at]).all() and (np.ma.getmaskarray(column.gather(at)) == missing[at]).all()
    wanted = [None if missing[it] else int(values[it]) for it in at[:50]]
    assert [column[int(it)] for it in at[:50]] == wanted
    assert list(column) == [None if gone else it for gone, it in zip(missing.tolist(), values.tolist())]
    if len(there):
        assert (column.min(), column.max()) == (there.min(), there.max())
    again = Column.open(column.tobytes())
    assert again == column == pickle.loads(pickle.dumps(column)) == pickle.loads(pickle.dumps(column, 4)) == copy.copy(column)
    assert hash(again) == hash(column) and column.nbytes == len(column.tobytes()) and column.data.readonly
    for cut in 0, 5, CHUNK, CHUNK + 1, COUNT:
        one = Column(values[:cut], missing[:cut] if share else None)
        assert one.append(values[cut:], missing[cut:] if share else None) == column


@pytest.mark.parametrize("share", [0, 0.3])
@pytest.mark.parametrize("name", DATA)
def test_searches(name, share):
    values, missing = DATA[name], RANDOM.random(COUNT) < share
    column, lowest, highest = Column(values, missing), int(values.min()), int(values.max())
    quantiles = np.quantile(values, [0.4, 0.41]).astype(values.dtype).tolist()
    for low, high in [quantiles, (int(values[3]),) * 2, (LEAST, 1 << 64), (5, 4), (1 << 70, 1 << 71), (-(1 << 80), 0)]:
        within = values == values
        if low <= highest and high >= lowest:
            within = (values >= max(low, lowest)) & (values <= min(high, highest)) & ~missing
        wanted = np.flatnonzero(within) if lowest <= high and low <= highest and low <= high else np.empty(0, "i8")
        assert (column.between(low, high) == wanted).all() and column.count_between(low, high) == len(wanted)
        assert (column.between_ids(low, high).unpack() == wanted).all()
    if column.kind == "plain":
        with pytest.raises(Error, match="not in order: sort them before they are packed, or ask `between`. .BadKind"):
            column.seek(5)
        return
    there = np.flatnonzero(~missing)
    for target in [LEAST, lowest, int(values[70_000]) + 1, highest, *values[RANDOM.integers(0, COUNT, 20)].tolist()]:
        at = there[np.searchsorted(values[there], target)] if target <= values[there[-1]] else None
        assert column.seek(target) == (None if at is None else (at, values[at]))
    assert column.seek(highest + 1) is column.seek(1 << 90) is None and column.seek(-(1 << 90)) == (there[0], values[there[0]])


@given(
    st.lists(st.tuples(st.integers(LEAST, GREATEST) | st.integers(-9, 9) | st.sampled_from([LEAST, GREATEST]), st.booleans()), max_size=80),
    st.booleans(),
)
def test_few(pairs, sign):
    values, missing = [it if sign else it % 2**64 for it, _ in pairs], [it for _, it in pairs]
    column = Column(np.array(values, "i8" if sign else "u8"), np.array(missing, bool))
    wanted = [None if gone else it for gone, it in zip(missing, values)]
    assert list(column) == wanted == [column[it] for it in range(len(values))]
    for low, high in [(-5, 5), (LEAST, 0), (0, 1 << 64), (values[0], values[-1]) if values else (1, 2)]:
        assert column.between(low, high).tolist() == [i for i, it in enumerate(wanted) if it is not None and low <= it <= high]
    assert column == Column.open(column.tobytes())
    if values:
        assert column.tobytes() == by_hand(values, missing, int(not sign), sign=sign)


def test_bytes_of_the_page():
    """As COLUMN.md says: -2, missing, 5. The least is -2, the numbers are 0, 0 and 7, and the missing position is 1."""
    missing, low = bytes.fromhex("8101"), bytes.fromhex("63000338")
    table = struct.pack("<qqIIII", -2, 5, 2, 4, 0, zlib.crc32(missing + low))
    header = b"FCOL" + bytes([2, 0, 0, 0]) + struct.pack("<QII", 3, 1, zlib.crc32(table))
    column = Column([-2, 99, 5], [False, True, False])
    assert column.tobytes() == header + struct.pack("<I", zlib.crc32(header)) + table + missing + low
    assert list(column) == [-2, None, 5] and repr(column) == "<Column int64, sorted, 3 values, 1 missing, in 66 bytes>"
    assert Column([]).tobytes() == assembled(0, [], []) and list(Column([])) == []


@pytest.mark.parametrize("name", DATA)
def test_bytes_of_chunks(name):
    """A chunk has the bytes of the page for its kind and its halves."""
    values = DATA[name][:300].tolist()
    sign, kind = DATA[name].dtype.kind == "i", int(DATA[name].dtype.kind == "u")
    for missing in [(), [at % 7 == 0 for at in range(300)], [at < 200 for at in range(300)], [True] * 300]:
        column = Column(np.array(values, DATA[name].dtype), np.array(missing, bool) if missing else None)
        assert column.tobytes() == by_hand(values, missing, kind, sign=sign)


def test_none_is_missing():
    for values in ([5, None, -7], (5, None, -7), np.array([5, None, -7], object), (it for it in [5, None, -7])):
        column = Column(values)
        assert list(column) == [5, None, -7] and column == Column([5, 0, -7], [False, True, False])
    assert list(Column([5, None, -7], [True, False, False])) == [None, None, -7]
    assert list(Column([None, None])) == [None, None] and list(Column([2**64 - 1, None])) == [2**64 - 1, None]
    masked = np.ma.MaskedArray([1, 2, 3], [False, True, False])
    assert list(Column(masked)) == [1, None, 3] and list(Column(masked, [True, False, False])) == [None, None, 3]
    assert list(Column(range(5))) == list(Column({0, 1, 2, 3, 4})) == [0, 1, 2, 3, 4]
    for column in Column([5, None]), Column([5, 6]), Column(np.array([5, LEAST], "M8[s]")):
        assert Column(column) == column and list(column.append(column)) == 2 * list(column)


def test_types_in():
    for dtype in "i1", "u1", "i2", "u2", "i4", "u4", "i8", "u8", ">i4", ">u8":
        column = Column(np.array([3, 0, 100], dtype))
        assert list(column) == [3, 0, 100] and column.dtype == ("u8" if dtype[1:] == "u8" or dtype == "u8" else "i8")
        assert list(Column(np.array([3, 9, 0, 9, 100], dtype)[::2])) == [3, 0, 100]
    for values in ([5, 2**63 + 1], [2**64 - 1, 0], np.array([5, 2**63 + 1], ">u8"), np.array([5, 2**63 + 1], object)):
        column = Column(values)
        assert column.dtype == np.uint64 and list(column) == [int(it) for it in values] == np.asarray(column).tolist()
    for wrong in ([-1, 2**63], [1, 2**64], [1, -(2**63) - 1]):
        with pytest.raises(OverflowError, match="position"):
            Column(wrong)
    for wrong in (
        [1.5, None],
        [True, None],
        ["1", None],
        [1.5],
        ["1"],
        [[1]],
        None,
        5,
        np.array([0.5]),
        [True],
        b"1",
        "1",
        np.array([True]),
    ):
        with pytest.raises((TypeError, ValueError)):
            Column(wrong)
    with pytest.raises(ValueError):
        Column([1, 2], [True])


class Nullable:
    """What pandas.array([1, None, 3], "Int32") and a series of it have."""

    dtype = type("", (), {"numpy_dtype": np.dtype("i4")})()

    def isna(self):
        return np.array([False, True, False])

    def to_numpy(self, dtype, na_value):
        return np.array([1, na_value, 3], dtype)


def test_pandas():
    assert list(Column(Nullable())) == [1, None, 3]
    if "pandas" in sys.modules or __import__("importlib").util.find_spec("pandas"):
        import pandas

        for values in pandas.array([1, None, 3], "Int32"), pandas.Series([1, None, 3], dtype="Int64"):
            assert list(Column(values)) == [1, None, 3]
        times = pandas.Series(pandas.to_datetime(["1970-01-02", None]))
        assert Column(times).dtype == "M8[ns]" and list(Column(times)) == [np.datetime64(86_400_000_000_000, "ns"), None]


@pytest.mark.parametrize("unit", ["Y", "M", "W", "D", "h", "m", "s", "ms", "us", "ns", "ps", "fs", "as"])
@pytest.mark.parametrize("kind", "Mm")
def test_times(kind, unit):
    dtype = np.dtype(f"{kind}8[{unit}]")
    times = np.array([20, LEAST, -3, 0], "i8").view(dtype)
    column, number = Column(times), ["Y", "M", "W", "D", "h", "m", "s", "ms", "us", "ns", "ps", "fs", "as"].index(unit) + 1
    assert column.dtype == dtype and column.tobytes() == by_hand([20, 0, -3, 0], [False, True, False, False], "iuMm".index(kind), number)
    assert np.array_equal(column.unpack(), times, equal_nan=True) and np.array_equal(np.asarray(column), times, equal_nan=True)
    assert list(column) == [times[0], None, times[2], times[3]] and column[0] == times[0] and column[1] is None
    assert (column.min(), column.max()) == (times[2], times[0]) and column.between(times[3], times[0]).tolist() == [0, 3]
    assert np.array_equal(column.gather([-1, 1]), times[[3, 1]], equal_nan=True) and np.array_equal(column[1:3], times[1:3], equal_nan=True)
    again = Column.open(column.tobytes())
    assert again == column != Column([20, None, -3, 0]) and again.dtype == dtype and again.append(times[:1])[4] == times[0]
    assert column.unpack(fill=times[0])[1] == times[0] and Column(times[[2, 3, 0]]).seek(times[3]) == (1, times[3])


def test_limits_between_units():
    """A limit between two times of a column, worked by hand: 09:00:00.5 is after the second second, and before the next."""
    seconds = np.array(["2026-11-27T09:00:00", "2026-11-27T09:00:01"], "M8[s]")
    column, between = Column(seconds), np.datetime64("2026-11-27T09:00:00.5")
    assert column.between(between, np.datetime64("2027")).tolist() == [1] and column.between(seconds[0], between).tolist() == [0]
    assert column.seek(between) == (1, seconds[1]) and column.between("2026-11-27", "2026-11-28").tolist() == [0, 1]
    before = Column(np.array([-2, -1, 0, 1], "m8[s]"))
    assert before.between(np.timedelta64(-1500, "ms"), np.timedelta64(500, "ms")).tolist() == [1, 2]
    assert column.between(datetime.datetime(2026, 11, 27, 9, 0, 0, 500_000), datetime.date(2027, 1, 1)).tolist() == [1]
    for wrong in np.datetime64("NaT"), np.timedelta64(5, "s"), 0.5, 5, None:
        with pytest.raises((ValueError, TypeError)):
            column.between(wrong, between)
    for wrong in np.array([5], "M8[25s]"), np.array([5], "m8"):
        with pytest.raises(TypeError):
            Column(wrong)


def test_unpack_to():
    column, missing = Column([3, -4, 2**40]), Column([3, None])
    for dtype in "i8", "f8":
        out = np.full(5, 9, dtype)
        assert column.unpack(out).tolist() == [3, -4, 2**40] and out.tolist() == [3, -4, 2**40, 9, 9]
        assert column.unpack(dtype=dtype).dtype == dtype and column.unpack(np.zeros(10, dtype)[::2]).tolist() == [3, -4, 2**40]
    assert missing.unpack(np.zeros(2, "u1"), fill=9).tolist() == [3, 9] and missing.unpack(np.zeros(2, "i8"), fill=9).tolist() == [3, 9]
    for out, dtype, error in [
        (None, "i4", OverflowError),
        (None, "u8", OverflowError),
        (np.zeros(3, "u8"), None, OverflowError),
        (np.zeros(2, "i8"), None, ValueError),
        (np.zeros((1, 3), "i8"), None, ValueError),
        (np.zeros(3, "i8"), "f8", TypeError),
    ]:
        with pytest.raises(error):
            column.unpack(out, dtype)
    for wrong, error in [(2**63, OverflowError), (0.5, TypeError)]:
        with pytest.raises(error):
            missing.unpack(fill=wrong)
        with pytest.raises(error):
            missing.gather([1], wrong)
    with pytest.raises(OverflowError):
        missing.unpack(dtype="u1", fill=300)
    with pytest.raises(ValueError, match="missing"):
        missing.unpack(np.zeros(2, "i8"))
    with pytest.raises(ValueError, match="missing"):
        np.asarray(missing)


def test_positions():
    column = Column([3, 4, 5, 2**40], [False, True, False, False])
    for kind in (np.uint64, np.int8, np.uint8, np.int64):
        assert [column[kind(it)] for it in range(4)] == [3, None, 5, 2**40] and column.between(kind(3), kind(4)).tolist() == [0]
    assert column[np.int8(-1)] == 2**40 and column.gather(np.array([3, 0], "u1"), 0).tolist() == [2**40, 3]
    at = np.array([0, -1, -2])
    assert column.gather(at, 0).tolist() == [3, 2**40, 5] and at.tolist() == [0, -1, -2]
    for wrong in (1.0, "1", None):
        with pytest.raises(TypeError):
            column[wrong]
    for at in (4, -5, 2**70):
        with pytest.raises(IndexError):
            column[at]
        with pytest.raises(IndexError):
            column.gather([0, at])
    for wrong in ([0.5], [[0]], "no", np.array([2**63], "u8")):
        with pytest.raises((TypeError, ValueError, IndexError)):
            column.gather(wrong)
    with pytest.raises(TypeError):
        column.between(0.5, 3)
    assert column.gather([], 0).tolist() == [] and column.bounds().tolist() == [[3, 2**40]] and column != [1, 2]
    assert Column([None, None]).bounds().tolist() == [[0, 0]] and Column([]).bounds().shape == (0, 2)
    for empty in Column([]), Column([None]):
        for call in empty.min, empty.max:
            with pytest.raises(ValueError):
                call()
        assert empty.seek(5) is None and empty.kind == "sorted"
    assert Column([None, None, 5, None, 7]).seek(5) == Column([None, None, 5, None, 7]).seek(-9) == (2, 5)
    assert Column([None, 5, None, 7]).seek(6) == (3, 7) and Column([None] * CHUNK + [None, 8]).seek(8) == (CHUNK + 1, 8)


def test_append_refuses():
    signed, unsigned = Column([1, 2]), Column(np.array([1], "u8"))
    assert list(unsigned.append([5, None])) == [1, 5, None] and list(signed.append(np.array([7], "u8"))) == [1, 2, 7]
    for column, more in [(unsigned, [-1]), (signed, [2**63])]:
        with pytest.raises(OverflowError):
            column.append(more)
    for more in np.array([5], "M8[s]"), [0.5]:
        with pytest.raises(TypeError):
            signed.append(more)
    assert list(Column(np.array([5], "M8[s]")).append([])) == [np.datetime64(5, "s")] and signed.append([]) == signed


def test_equal():
    class Mine(Column):
        pass

    mine = Mine([1, None])
    mine.note = 5
    again = copy.copy(mine)
    assert type(again) is type(copy.deepcopy(mine)) is Mine and again.note == 5 and again == mine == Column([1, None])
    assert (
        Column([1]) != Column(np.array([1], "u8")) and Column([1]) != Column([1, 1]) and len({Column([1]), Column([1]), Column([2])}) == 2
    )
    for column in (Column([1, 2]), Column([1, None])):
        assert (column == np.array([1, 2])) is False is (np.array([1, 2]) == column)
        with pytest.raises(TypeError):
            np.array([1, 2]) + column


class Exported(ctypes.Structure):
    """struct ArrowArray, as far as it is read here."""

    _fields_ = [(it, ctypes.c_int64) for it in ("length", "nulls", "offset", "buffers_len", "children")] + [
        ("buffers", ctypes.POINTER(ctypes.c_void_p))
    ]


@pytest.mark.parametrize(
    "dtype, format", [("i8", b"l"), ("u8", b"L"), ("M8[s]", b"tss:"), ("M8[us]", b"tsu:"), ("m8[ns]", b"tDn"), ("m8[ms]", b"tDm")]
)
def test_arrow(dtype, format):
    pointer = ctypes.pythonapi.PyCapsule_GetPointer
    pointer.restype, pointer.argtypes = ctypes.c_void_p, [ctypes.py_object, ctypes.c_char_p]
    for missing in [False] * 11, [at % 3 == 1 for at in range(11)]:
        values = np.arange(11).astype(dtype)
        schema, array = Column(values, missing).__arrow_c_array__()
        assert ctypes.cast(pointer(schema, b"arrow_schema"), ctypes.POINTER(ctypes.c_char_p))[0] == format
        found = ctypes.cast(pointer(array, b"arrow_array"), ctypes.POINTER(Exported))[0]
        assert (found.length, found.nulls, found.offset, found.buffers_len, found.children) == (11, sum(missing), 0, 2, 0)
        numbers = (ctypes.c_int64 * 11).from_address(found.buffers[1])
        assert [None if gone else it for gone, it in zip(missing, numbers)] == [None if gone else it for it, gone in enumerate(missing)]
        if any(missing):
            bits = bytes((ctypes.c_uint8 * 2).from_address(found.buffers[0]))
            assert [bits[it // 8] >> it % 8 & 1 for it in range(11)] == [int(not it) for it in missing]
        else:
            assert found.buffers[0] is None
    with pytest.raises(TypeError):
        Column(np.array([5], "M8[D]")).__arrow_c_array__()


def test_ids():
    """Positions of two columns are combined as sets."""
    one, other = Column([5, None, 7, 9]), Column([1, 2, 3, 2])
    assert one.between_ids(5, 8) & other.between_ids(2, 9) == IdSet([2]) and one.missing == IdSet([1])
