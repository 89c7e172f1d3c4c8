"""Sets beside numpy and the sets of Python."""

import array
import copy
import mmap
import pickle

import numpy as np
import pytest
from fimulowen import Column, Error, IdSet
from fimulowen.values import index, u32
from hypothesis import given
from hypothesis import strategies as st

from bitmaps import bitmap

try:
    import pandas
except ImportError:  # the package does not need it
    pandas = None

RANDOM = np.random.default_rng(7)
MOST = 2**32 - 1


@st.composite
def arrays(draw, most=3000):
    """Increasing ids: few or many, close together or far apart, and now and then a full chunk."""
    random = np.random.default_rng(draw(st.integers(0, 2**32)))
    count, gap = draw(st.integers(0, most)), 2 ** draw(st.integers(0, 20))
    steps = random.integers(1, gap, count, endpoint=True)
    steps[random.random(count) < 0.01] += draw(st.sampled_from([0, 5000, 100_000]))
    ids = np.cumsum(steps) - draw(st.integers(0, 1)) + (draw(st.integers(0, 2**16)) << draw(st.integers(0, 16)))
    if draw(st.integers(0, 9)) == 0:
        ids = np.union1d(ids, np.arange(65536) + (draw(st.integers(0, 3)) << 16))
    return ids[(ids >= 0) & (ids <= MOST)].astype("u4")


@given(arrays(9000), st.booleans())
def test_bitmaps(ids, as_runs):
    packed = IdSet.from_roaring(bitmap(ids, as_runs and len(ids) > 0))
    assert packed == IdSet(ids) == IdSet.from_roaring(packed.to_roaring())


@given(
    arrays(9000), st.one_of(st.integers(-(2**34), 2**34), st.integers(-(2**17), 2**17).map(lambda it: it << 16), st.just(10**30))
)
def test_moved(ids, by):
    moved = [it + by for it in ids.tolist() if 0 <= it + by <= MOST]
    assert IdSet(ids).shift(by) == IdSet(moved)


@given(arrays(9000), st.integers(-9, 2**33), st.integers(-9, 2**33))
def test_described_and_counted(ids, low, high):
    packed = IdSet(ids)
    assert packed.count_between(low, high) == np.count_nonzero((ids >= low) & (ids <= high))
    like = packed.describe()
    assert (like.ids, like.bytes, like.chunks) == (len(ids), packed.nbytes, like.numbers + like.blocks + like.runs)
    data = packed.tobytes() + b"\x05"
    assert IdSet.front_len(data) == IdSet.front_len(bytearray(data)) == packed.nbytes and IdSet.front_len(data[: packed.nbytes - 1]) == 0


def test_bitmaps_of_each_kind():
    """A set may have many more bytes than the bitmap. Memory is copied if it is not constant."""
    ids = np.flatnonzero(np.arange(1_000_000) % 1000 < 500)
    text, packed = bitmap(ids, True), IdSet(ids)
    assert packed.nbytes > 6 * len(text)
    for form in (text, bytearray(text), memoryview(text), np.frombuffer(text, "u1"), np.repeat(np.frombuffer(text, "u1"), 2)[::2]):
        assert IdSet.from_roaring(form) == packed
    assert IdSet.from_roaring(bitmap(np.arange(5_000_000), False)) == IdSet(range(5_000_000))
    sparse = 70_000 * np.arange(2000)  # each in a container, which take more than twice the bytes of the set
    assert IdSet(sparse).to_roaring() == bitmap(sparse, False)

    class Mine(IdSet):
        pass

    assert type(Mine.from_roaring(text)) is Mine
    for wrong in (None, "text", 5, [1], range(3), packed):
        with pytest.raises(TypeError):
            IdSet.from_roaring(wrong)
    full = bitmap(np.arange(65536), True)[9:]  # its one run
    key = lambda m: m.to_bytes(2, "little") + b"\xff\xff"
    for count in (4096, 4097):
        head = b"\x3B\x30" + (count - 1).to_bytes(2, "little") + ((1 << count) - 1).to_bytes((count + 7) // 8, "little")
        offsets = (len(head) + 8 * count + 6 * np.arange(count)).astype("<u4").tobytes()
        many = head + b"".join(map(key, range(count))) + offsets + count * full
        if count == 4096:
            assert IdSet.from_roaring(many) == IdSet(range(1 << 28))
        else:
            with pytest.raises(Error, match="more than 268435456") as raised:
                IdSet.from_roaring(many)
            assert raised.value.fault == "TooLong"
    with pytest.raises(Error, match="^Bytes are missing. \\(Short\\)$"):
        IdSet.from_roaring(text[:-1])


def test_ranges():
    """A range is not listed, and has the bytes of its ids."""
    for first in (0, 1, 65_520, 65_535, 200_000, MOST - 70_000):
        for count in (0, 1, 15, 16, 127, 128, 129, 65_536, 70_001):
            ids = range(first, first + count)
            assert IdSet(ids).tobytes() == IdSet(np.arange(first, first + count)).tobytes() == IdSet(ids[::-1]).tobytes()
    assert list(IdSet(range(3, 20, 8))) == [3, 11, 19] and list(IdSet(range(5, 3))) == [] and len(IdSet(range(2**28))) == 2**28
    assert IdSet(range(MOST, MOST + 1)).max() == MOST
    for wrong in (range(-1, 3), range(MOST, MOST + 2), range(MOST + 1, MOST + 2)):
        with pytest.raises(OverflowError):
            IdSet(wrong)
    with pytest.raises(Error, match="more than 268435456") as raised:
        IdSet(range(2**28 + 1))
    assert raised.value.fault == "TooLong"


@pytest.fixture(params=[0, 1, 2, 127, 128, 129, 1000, 100_000])
def ids(request):
    return np.sort(RANDOM.choice(1 << 20, request.param, replace=False)).astype("u4")


def test_as_numpy(ids):
    packed = IdSet(ids)
    assert len(packed) == len(ids) and bool(packed) == bool(len(ids))
    assert packed.unpack().dtype == np.uint32 and (packed.unpack() == ids).all() and (np.asarray(packed) == ids).all()
    assert list(packed) == ids.tolist()
    some = [
        (None, None, None),
        (3, -3, None),
        (None, None, -1),
        (5, 900, 7),
        (900, 5, -7),
        (10**9, None, None),
        (-2, None, None),
        (2, 2, None),
    ]
    some += [(None, None, 3), (-5, None, -599), (None, None, 511), (None, None, -512), (1, None, 2**62)]
    for part in [slice(*it) for it in some]:
        assert packed[part].tolist() == ids[part].tolist()
    for at in {0, len(ids) // 2, len(ids) - 1, -1, -len(ids)} if len(ids) else ():
        assert packed[at] == ids[at] == packed[np.int64(at)] and int(ids[at]) in packed and ids[at] in packed
    for at in [len(ids), -len(ids) - 1, 1 << 40, 1 << 80]:
        with pytest.raises(IndexError):
            packed[at]


@given(arrays(), st.data())
def test_reading(ids, data):
    packed, known = IdSet(ids), set(ids.tolist())
    assert (packed.unpack() == ids).all() and IdSet.open(packed.tobytes()) == packed
    some = ids.tolist() or [7]
    low, high = sorted([data.draw(st.integers(-5, MOST + 5)), data.draw(st.sampled_from(some))])
    assert packed.range(low, high).tolist() == ids[(ids >= low) & (ids < high)].tolist() and packed.range(high + 1, low).size == 0
    assert packed.count_between(low, high) == ((ids >= low) & (ids <= high)).sum() and packed.count_between(high + 1, low) == 0
    for target in (low, low + 1, high, high + 1):
        at = int(np.searchsorted(ids, target))
        assert (target in packed) == (target in known) and packed.rank(target) == at
        assert packed.seek(target) == (None if at == len(ids) else (at, ids[at]))
    asked = data.draw(st.lists(st.integers(-(2**70), 2**70) | st.integers(-5, MOST) | st.sampled_from(some), max_size=40))
    assert packed.contains(asked).tolist() == [it in known for it in asked]
    assert not packed.contains(ids[:50].astype("i8") + 2**32).any() and not packed.contains(ids[:50].astype("i8") - 2**32).any()
    at = np.array(data.draw(st.lists(st.integers(-len(ids), len(ids) - 1), max_size=50)) if len(ids) else [], "i8")
    assert packed.gather(at).tolist() == ids[at].tolist()
    if len(ids):
        assert (packed.min(), packed.max()) == (ids[0], ids[-1])


@given(arrays(), st.data())
def test_append(ids, data):
    cut = data.draw(st.integers(0, len(ids)))
    before, after = IdSet(ids[:cut]), ids[cut:]
    assert before.append(after) == IdSet(ids) == before.append(after.tolist()) and len(before) == cut
    if len(after) > 1:
        at = data.draw(st.integers(1, len(after) - 1))
        wrong = np.insert(after, at, after[at - 1])
        with pytest.raises(Error) as raised:
            before.append(wrong)
        assert (raised.value.fault, raised.value.position) == ("NotSorted", at)
    if cut:
        with pytest.raises(Error) as raised:
            before.append([before.max()])
        assert raised.value.position == 0


@given(arrays(500), st.sampled_from(["u1", "i2", "i4", ">u4", "i8", "u8", ">i8"]))
def test_any_order(ids, dtype):
    """Ids in any order, and more than once, in every way that Python has."""
    values = ids.astype("i8") % (np.iinfo(dtype).max + 1 if np.iinfo(dtype).max < MOST else 2**32)
    wanted, mixed = IdSet(np.unique(values)), RANDOM.permutation([*values, *values[::3]]).astype(int).tolist()
    given_values = np.array(mixed, dtype)
    wide = np.zeros((len(mixed), 2), dtype)
    wide[:, 0] = given_values
    frozen = given_values.copy()
    frozen.flags.writeable = False
    for form in (given_values, wide[:, 0], given_values[::-1], frozen, mixed, tuple(mixed), set(mixed), iter(mixed), dict.fromkeys(mixed)):
        assert IdSet(form) == wanted
    assert given_values.tolist() == mixed


def test_types_in(tmp_path):
    values = np.array([3, 5, 9, 300], "u4")
    values.tofile(tmp_path / "ids")
    mapped = np.memmap(tmp_path / "ids", "u4", "r")
    unaligned = np.frombuffer(b"\0" + values.tobytes(), "u4", 4, 1)

    class Array:
        __array_interface__ = values.__array_interface__

    forms = [mapped, unaligned, Array(), array.array("I", values), array.array("q", values), memoryview(values), IdSet(values)]
    forms += [np.array([3, 5, np.int8(9), 300], object), *([] if pandas is None else [pandas.Series(values), pandas.Index(values)])]
    forms += [] if pandas is None else [pandas.Series(values, dtype="Int64")]
    forms += [np.ma.MaskedArray(values, False), np.frombuffer(values.tobytes(), "u4"), map(int, values), [np.uint32(it) for it in values]]
    for form in forms:
        assert list(IdSet(form)) == [3, 5, 9, 300], form
    assert list(IdSet(range(0, 9, 4))) == [0, 4, 8] == list(IdSet(range(8, -1, -4))) and list(IdSet(range(0))) == []
    assert list(IdSet([])) == [] == list(IdSet(np.array([]))) == list(IdSet())
    assert len(IdSet(range(3_000_000))) == 3_000_000 == len(IdSet(iter(range(3_000_000))))
    assert list(IdSet(np.broadcast_to(np.uint32(7), 5))) == [7]


@pytest.mark.parametrize(
    "wrong, error, text",
    [
        ([1, 1.5], TypeError, "position 1: 1.5 is not an integer"),
        (["1"], TypeError, "position 0: '1' is not an integer"),
        ("12", TypeError, "integers expected, not str"),
        ([3, None], TypeError, "position 1: None"),
        ([True], TypeError, "position 0: True"),
        (np.array([False, True]), TypeError, "position 0: False"),
        (np.array([1.0]), TypeError, "position 0: 1.0"),
        (np.array([1], "M8[s]"), TypeError, "position 0"),
        ([[1]], TypeError, r"position 0: \[1\]"),
        ([[1], [2, 3]], TypeError, r"position 0: \[1\]"),
        (np.zeros((2, 2), "u4"), ValueError, "one dimension"),
        (np.uint32(5), TypeError, "dimension"),
        (None, TypeError, "not iterable"),
        (5, TypeError, "not iterable"),
        ([-1], OverflowError, "position 0: -1 is below 0 or above 4294967295"),
        ([1, 1 << 32], OverflowError, "position 1: 4294967296"),
        ([1, 1 << 63], OverflowError, "position 1: 9223372036854775808"),
        ([-1, 1 << 63], OverflowError, "position 0: -1"),
        ([1, 1 << 64], OverflowError, "position 1: 18446744073709551616"),
        ([1, -(1 << 64)], OverflowError, "position 1: -18446744073709551616"),
        (np.array([3, 4, -1, -2], "i1"), OverflowError, "position 2: -1"),
        (np.array([3, 1 << 40]), OverflowError, "position 1: 1099511627776"),
        (np.arange(3_000_000)[::-1] - 1, OverflowError, "position 2999999: -1"),
        (range(4294967290, 4294967300), OverflowError, "position 6: 4294967296"),
        (range(1, -2, -1), OverflowError, "position 2: -1"),
        (iter([*range(1_100_000), -5]), OverflowError, "position 1100000: -5"),
        (range(2**40), Error, "More than 268,435,456"),
        (b"12", TypeError, "`open`"),
        (bytearray(b"12"), TypeError, "`open`"),
        (memoryview(b"12"), TypeError, "`open`"),
        (np.ma.MaskedArray([1, 2], [False, True]), ValueError, "missing"),
    ],
)
def test_refused_values(wrong, error, text):
    with pytest.raises(error, match=text):
        IdSet(wrong)


@pytest.mark.parametrize("dtype", ["u4", "i8", "u8", "f8", "i4", ">u4", "u2"])
def test_types_out(dtype):
    ids = np.unique(RANDOM.integers(0, 60000, 9001)).astype("u4")
    found = IdSet(ids).unpack(dtype=dtype)
    assert found.dtype == np.dtype(dtype) and (found == ids).all() and (np.asarray(IdSet(ids), dtype) == ids).all()


@pytest.mark.parametrize("dtype", ["u4", "i8", "u8"])
def test_out(dtype):
    ids = np.unique(RANDOM.integers(0, 2**32, 9001, dtype="u4"))
    count = len(ids)
    packed, out = IdSet(ids), np.full(count + 4, 77, dtype)
    found = packed.unpack(out)
    assert np.shares_memory(found, out) and found.dtype == np.dtype(dtype)
    assert (found == ids).all() and (out[:count] == ids).all() and (out[count:] == 77).all()
    for bad in [
        np.zeros(count - 1, dtype),
        np.zeros((count, 2), dtype),
        np.zeros(2 * count, dtype)[::2],
        np.zeros(count, "f8"),
        np.zeros(count, "u2"),
        [0] * count,
    ]:
        with pytest.raises((TypeError, ValueError, BufferError)):
            packed.unpack(bad)
    with pytest.raises(TypeError, match="uint32, int64 or uint64"):
        packed.unpack(np.zeros(count, "i4"))
    out.flags.writeable = False
    with pytest.raises((ValueError, BufferError)):
        packed.unpack(out)
    with pytest.raises(TypeError):
        packed.unpack(np.zeros(count, "u4"), dtype="i8")
    unaligned = np.zeros(4 * count + 1, "u1")[1:].view("u4")
    with pytest.raises((TypeError, ValueError)):
        packed.unpack(unaligned)


def test_arguments():
    packed = IdSet([1, 2])
    for wrong in ("a", None, 1.0, (0, 1)):
        with pytest.raises(TypeError):
            packed[wrong]
        assert wrong not in packed
        many = [] if isinstance(wrong, tuple) else [packed.seek, packed.rank]  # these accept many targets
        for call in (*many, lambda it: packed.range(it, 3), lambda it: packed.range(0, it)):
            with pytest.raises(TypeError):
                call(wrong)
    for bad in ([0, 2**63], [2**70], [-(2**70)], [-1, 2**63], [2], [-3], np.array([2**64 - 1], ">u8"), np.array([2**63], "u8")):
        with pytest.raises(IndexError):
            packed.gather(bad)
    for bad in ([0.5], [True, False], 1, None):
        for call in (packed.gather, packed.contains):
            with pytest.raises(TypeError):
                call(bad)
    assert packed.gather(np.array([1, 0], "u1")).tolist() == [2, 1] and packed.gather([]).tolist() == [] == packed.contains(()).tolist()
    for call in (IdSet().min, IdSet().max):
        with pytest.raises(ValueError):
            call()
    with pytest.raises(AttributeError):
        packed.more = 1
    with pytest.raises(TypeError):
        type(packed.data.obj)()
    with pytest.raises(ValueError):
        packed.__array__(copy=False)


def test_arguments_stay():
    """No call changes what it was given."""
    packed, ids = IdSet(range(0, 5000, 5)), np.array([500, 3, 3, 7], "i8")
    for call in (packed.contains, IdSet, packed.__and__, packed.__ror__, packed.isdisjoint, packed.issuperset):
        call(ids)
    positions, more = np.array([0, -1, 5], "i8"), np.array([5000, 6000], "u4")
    packed.gather(positions), packed.append(more), IdSet.pack_many(more, positions[:1])
    assert (ids.tolist(), positions.tolist(), more.tolist()) == ([500, 3, 3, 7], [0, -1, 5], [5000, 6000])


def test_what_is_copied(tmp_path):
    """Only memory that no thread can write is read in place."""
    written, data = np.arange(5000, dtype="u4"), np.arange(5000, dtype="u4").tobytes()
    frozen = written.view()
    frozen.flags.writeable = False
    written.tofile(tmp_path / "ids")
    for array in (written, frozen, written.astype("i8"), np.frombuffer(bytearray(data), "u4"), np.memmap(tmp_path / "ids", "u4", "r+")):
        assert not np.shares_memory(u32(array), array) and not np.shares_memory(index(array), array)
    for array in (np.frombuffer(data, "u4"), np.frombuffer(data, "u4")[10:20], np.memmap(tmp_path / "ids", "u4", "r")):
        assert np.shares_memory(u32(array), array) and not np.shares_memory(index(array), array)


def test_iterates_in_parts():
    asked = []

    class Counting(IdSet):
        def __getitem__(self, key):
            asked.append(key)
            return super().__getitem__(key)

    assert sum(Counting(range(10_000))) == sum(range(10_000)) and len(asked) == 3


def test_core_refuses_other_arrays():
    """The C side takes no array and no class on trust."""
    import fimulowen

    core, packed = fimulowen._core, IdSet([1, 2])
    for wrong in [np.arange(3), np.arange(3.0), np.arange(3, dtype=">u4"), np.arange(6, dtype="u4")[::2], b"1234", [1], None]:
        for call in (lambda it: core.set_pack(IdSet, it), lambda it: core.set_pack_many(it, [0]), packed._remove):
            with pytest.raises((TypeError, ValueError, BufferError)):
                call(wrong)
        with pytest.raises((TypeError, ValueError, BufferError)):
            core.set_append(IdSet, packed, wrong)
    for wrong in [np.arange(3, dtype="i2"), np.arange(3.0), np.arange(6, dtype="u4")[::2], np.zeros(17, "u1")[1:].view("i8"), [0], None]:
        with pytest.raises((TypeError, ValueError, BufferError)):
            packed._contains(wrong)
    for wrong in [np.arange(3, dtype="u4"), np.arange(3.0), np.zeros(17, "u1")[1:].view("i8"), [0]]:
        for call in (packed._gather, packed._rank, lambda it: core.set_group(it, 1)):
            with pytest.raises((TypeError, ValueError)):
                call(wrong)
        with pytest.raises((TypeError, ValueError)):
            core.set_open_many(IdSet, b"", wrong)
        with pytest.raises((TypeError, ValueError)):
            core.set_pack_many(np.arange(3, dtype="u4"), wrong)
    for wrong in ([packed], (packed, 1), (None,), None):
        with pytest.raises((TypeError, SystemError)):
            core.set_combine(0, wrong)
        with pytest.raises((TypeError, SystemError)):
            core.set_join(IdSet, 0, wrong)
    with pytest.raises(Error):
        packed._remove(np.array([2, 1], "u4"))
    for wrong, error in ((-1, OverflowError), (2, IndexError), ("1", TypeError)):
        with pytest.raises(error):
            packed._mask(wrong)
    with pytest.raises(ValueError):
        core.set_group(np.zeros(1, "i8"), -1)
    for call in (-1, 4):
        with pytest.raises(ValueError):
            core.set_combine(call, (packed, packed))
        with pytest.raises(ValueError):
            core.set_join(IdSet, call, (packed, packed))
    with pytest.raises(ValueError):
        core.set_combine(3, (packed,))
    for wrong in (int, 5, object, core.Packed, None):
        for call in (core.set_pack, core.set_open):
            with pytest.raises(TypeError):
                call(wrong, np.zeros(1, "u4"))
        with pytest.raises(TypeError):
            core.set_join(wrong, 0, (packed,))
    for call in (core.Set, core.Packed, lambda: object.__new__(IdSet), lambda: packed._is_disjoint(5)):
        with pytest.raises(TypeError):
            call()


def test_copies(ids):
    packed = IdSet(ids)
    for protocol in range(2, pickle.HIGHEST_PROTOCOL + 1):
        assert pickle.loads(pickle.dumps(packed, protocol)) == packed
    assert copy.copy(packed) == packed == copy.deepcopy(packed)
    buffers = []
    outline = pickle.dumps(packed, 5, buffer_callback=buffers.append)
    assert len(outline) < 200 and pickle.loads(outline, buffers=buffers) == packed
    for form in [packed.tobytes(), packed.data, bytearray(packed.data), np.frombuffer(packed.tobytes(), "u1"), memoryview(packed.data)]:
        assert IdSet.open(form) == packed
    assert packed.data.readonly and packed.data == packed.tobytes() and packed.nbytes == len(packed.tobytes())


def test_equality():
    one = IdSet([1, 2, 3])
    assert one == IdSet([3, 2, 1]) and one != IdSet([1, 2, 4]) and one != IdSet([1, 2]) and one != [1, 2, 3]
    assert hash(one) == hash(IdSet([3, 2, 1])) and len({one, IdSet([1, 2, 3]), IdSet([1])}) == 2
    many = [IdSet(range(n)) for n in range(300)]
    assert len(set(map(hash, many))) == 300


def test_subclass():
    class Mine(IdSet):
        pass

    mine = Mine([1, 5])
    mine.note = "kept"
    assert type(pickle.loads(pickle.dumps(IdSet([1])))) is IdSet and type(IdSet(mine)) is IdSet and IdSet(mine) == mine
    assert list(mine & [5]) == [5] and type(copy.copy(mine)) is Mine and type(Mine.open(mine.data)) is Mine
    for again in (copy.copy(mine), copy.deepcopy(mine)):
        assert again == mine and again.note == "kept"


def test_buffers(tmp_path):
    text = IdSet(range(0, 9000, 3)).tobytes()
    path = tmp_path / "set"
    path.write_bytes(text)
    with open(path, "rb") as file:
        mapped = mmap.mmap(file.fileno(), 0, access=mmap.ACCESS_READ)
    packed = IdSet.open(mapped)
    with pytest.raises(BufferError):
        mapped.close()
    view = packed.data
    del packed
    with pytest.raises(BufferError):
        mapped.close()
    del view
    mapped.close()
    written, shown = bytearray(text), np.frombuffer(bytearray(text), "u1")
    frozen = shown.view()
    frozen.flags.writeable = False
    for form, memory in [
        (written, written),
        (memoryview(written).toreadonly(), written),
        (shown, shown),
        (frozen, shown),
        (memoryview(frozen), shown),
        (pickle.PickleBuffer(frozen), shown),
    ]:
        memory[:] = text if memory is written else np.frombuffer(text, "u1")
        packed = IdSet.open(form)
        memory[:] = bytes(len(text)) if memory is written else 0
        assert packed[-1] == 8997 and packed.unpack().sum() == sum(range(0, 9000, 3)), form
    with open(path, "r+b") as file:
        writable = mmap.mmap(file.fileno(), 0)
    packed = IdSet.open(writable)
    writable[:] = bytes(len(text))
    assert packed[-1] == 8997
    writable.close()
    for wrong in (None, "text", 5, [1], 1.5, range(3), IdSet([1])):
        for call in (IdSet.open, Column.open, lambda it: IdSet.open_many(it, [0, 1])):
            with pytest.raises(TypeError):
                call(wrong)
    for packed in (IdSet(range(0, 9000, 3)), Column([5, None])):
        apart = np.repeat(np.frombuffer(packed.data, "u1"), 2)
        for strided in (apart[::2], np.frombuffer(apart.tobytes(), "u1")[1::2]):
            assert type(packed).open(strided) == packed
            assert not isinstance(packed, IdSet) or IdSet.open_many(strided, [0, len(strided)]) == [packed]
    with pytest.raises(TypeError):
        IdSet.open()


def test_represented():
    packed = IdSet([7, 9, 10, 300])
    assert repr(packed) == "<IdSet of 4 ids in 7 bytes: [7, 9, 10, 300]>" and repr(IdSet(range(100))).endswith("[0, 1, 2, 3, 4, 5, ..]>")
    assert packed.tobytes().hex() == "84070901008404" and IdSet().tobytes().hex() == "80"  # of docs/FORMAT.md


def test_a_folder_of_bitmaps(tmp_path):
    """Files of bitmaps become sets, which are asked, changed and written back."""
    before = {f"{n}.roaring": np.unique(RANDOM.integers(0, 2 ** (17 + 3 * n), 5000, "u4")) for n in range(5)}
    for name, ids in before.items():
        (tmp_path / name).write_bytes(bitmap(ids, name == "0.roaring"))
    sets = {path.name: IdSet.from_roaring(path.read_bytes()) for path in tmp_path.iterdir()}
    assert {name: (len(it), it.rank(1000), it.count_between(5, 70_000)) for name, it in sets.items()} == {
        name: (len(ids), np.count_nonzero(ids < 1000), np.count_nonzero((ids >= 5) & (ids <= 70_000))) for name, ids in before.items()
    }
    for name, it in sets.items():
        (tmp_path / name).write_bytes((it.shift(65_536) - range(200_000) | [7]).to_roaring())
    for path in tmp_path.iterdir():
        changed = before[path.name].astype("i8") + 65_536
        assert list(IdSet.from_roaring(path.read_bytes())) == [7, *changed[(changed >= 200_000) & (changed <= MOST)].tolist()]
