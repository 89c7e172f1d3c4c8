"""Sets of ids of 64 bits beside numpy and the sets of Python."""

import array
import copy
import pickle

import fimulowen
import numpy as np
import pytest
from fimulowen import Column, Error, IdSet, IdSet64, Query

from wide_ids import EDGES, KINDS, MOST, decode_wide_set, drawn, form_of

COUNTS = [0, 1, 2, 7, 8, 9, 127, 128, 129, 1000, 20_000]


@pytest.fixture(params=[(kind, count) for kind in KINDS for count in COUNTS], ids=lambda it: f"{it[0].__name__}-{it[1]}")
def ids(request):
    return drawn(np.random.default_rng(request.param[1]), *request.param)


def test_bytes(ids):
    """The bytes that the decoder of docs/FORMAT.md reads, in the one form of these ids."""
    packed = IdSet64(ids)
    assert packed.tobytes()[0] == form_of(ids) and packed.nbytes == len(packed.data) <= 33 * len(ids) / 4 + 22
    assert decode_wide_set(packed.tobytes()) == ids.tolist() == packed.unpack().tolist()


def test_as_numpy(ids):
    packed = IdSet64(ids)
    assert len(packed) == len(ids) and bool(packed) == bool(len(ids)) and list(packed) == ids.tolist()
    assert packed.unpack().dtype == np.uint64 == np.asarray(packed).dtype and (np.asarray(packed) == ids).all()
    some = [
        (3, -3),
        (None, None, -1),
        (5, 900, 7),
        (900, 5, -7),
        (10**9, None),
        (-2, None),
        (2, 2),
        (None, None, 511),
        (None, None, -512),
    ]
    for key in [slice(*it) for it in some] + [slice(-5, None, -599), slice(1, None, 2**62), slice(None)]:
        assert packed[key].tolist() == ids[key].tolist() and packed[key].dtype == np.uint64
    for at in {0, len(ids) // 2, len(ids) - 1, -1, -len(ids)} if len(ids) else ():
        assert packed[at] == int(ids[at]) == packed[np.int64(at)] and type(packed[at]) is int
        assert int(ids[at]) in packed and ids[at] in packed
    for at in [len(ids), -len(ids) - 1, 1 << 40, 1 << 80]:
        with pytest.raises(IndexError):
            packed[at]


def test_searches(ids):
    packed, known = IdSet64(ids), ids.tolist()
    near = {it + by for it in [*known[:3], *known[-3:], *known[:: len(known) // 50 + 1], *EDGES] for by in (-1, 0, 1)}
    asked = sorted({*near, -(2**70), -(2**63), 2**64, 2**70, 10**30})
    inside = np.array([it for it in asked if 0 <= it <= MOST], "u8")
    ranks = [0 if it < 0 else len(known) if it > MOST else int(np.searchsorted(ids, np.uint64(it))) for it in asked]
    found = [known[at] if at < len(known) else MOST for at in ranks]
    there = set(known)
    assert [it in packed for it in asked] == [it in there for it in asked] == packed.contains(asked).tolist()
    assert [packed.rank(it) for it in asked] == ranks == packed.rank(asked).tolist()
    assert [packed.seek(it) for it in asked] == [(at, it) if at < len(known) else None for at, it in zip(ranks, found)]
    many = packed.seek(asked)
    assert [it.tolist() for it in many] == [ranks, found] and [it.dtype for it in many] == ["i8", "u8"]
    assert packed.contains(inside).tolist() == np.isin(inside, ids).tolist()
    assert packed.rank(inside).tolist() == np.searchsorted(ids, inside).tolist()
    for low, high in zip(asked[::3], asked[5::3]):
        assert packed.range(low, high).tolist() == [it for it in known[packed.rank(low) :][:30_000] if it < high]
    assert packed.range(high, low).size == 0
    if known:
        assert (packed.min(), packed.max()) == (known[0], known[-1])
        at = np.random.default_rng(3).integers(-len(known), len(known), 99)
        assert packed.gather(at).tolist() == ids[at].tolist() == packed.gather(at.tolist()).tolist()


def test_many_are_not_taken_for_others():
    """Integers below 0 have the bits of great ids."""
    packed = IdSet64([0, 5, MOST - 4, MOST])
    for dtype in ("i1", "i2", "i4", "i8", ">i8"):
        assert packed.contains(np.array([-1, -5, 5, 0], dtype)).tolist() == [False, False, True, True]
        assert packed.rank(np.array([-1, 5], dtype)).tolist() == [0, 1]
        assert packed.seek(np.array([-1, 6], dtype))[1].tolist() == [0, MOST - 4]
    assert packed.contains(np.array([MOST, MOST - 4], ">u8")).tolist() == [True, True] and packed.contains([]).tolist() == []
    assert packed.contains(np.array([5, 9], "u1")).tolist() == [True, False] == packed.contains(IdSet([5, 9])).tolist()
    assert packed.rank(()).tolist() == [] == packed.seek(iter(()))[0].tolist() == packed.gather([]).tolist()


@pytest.mark.parametrize("dtype", ["u1", "i2", "i4", ">u4", "i8", "u8", ">i8", ">u8"])
@pytest.mark.parametrize("kind", KINDS)
def test_any_order(kind, dtype):
    """Ids in any order, and more than once, in every way that Python has."""
    random, most = np.random.default_rng(5), int(np.iinfo(dtype).max)
    ids = np.unique(drawn(random, kind, 300) % np.uint64(most) if most < MOST else drawn(random, kind, 300))
    wanted, mixed = IdSet64(ids), random.permutation(np.concatenate([ids, ids[::3]])).tolist()
    values = np.array(mixed, "u8").astype(dtype)
    wide = np.zeros((len(mixed), 2), dtype)
    wide[:, 0] = values
    frozen = values.copy()
    frozen.flags.writeable = False
    for form in (values, wide[:, 0], values[::-1], frozen, mixed, tuple(mixed), set(mixed), iter(mixed), dict.fromkeys(mixed)):
        assert IdSet64(form) == wanted
    assert values.tolist() == mixed and wanted.unpack().tolist() == ids.tolist()


def test_types_in():
    values = np.array([3, 5, 2**40, 2**63 - 1])
    forms = [array.array("q", values), array.array("Q", values), memoryview(values), np.frombuffer(values.tobytes(), "u8"), iter(values)]
    forms += [np.array(values, object), [np.uint64(it) for it in values], IdSet64(values), Column(values), range(3, 6, 2)]
    for form in forms[:-1]:
        assert list(IdSet64(form)) == values.tolist(), form
    assert list(IdSet64(forms[-1])) == [3, 5] == list(IdSet64(IdSet([5, 3]))) == list(IdSet64(Query([5, 3])))
    for first, step, count in [
        (2**32 - 50, 1, 1_100_000),
        (0, 99, 999),
        (2**63 - 50, 1, 99),
        (2**63 - 50, 99, 99),
        (MOST - 98, 1, 99),
    ]:
        ids = range(first, first + count * step, step)
        assert (IdSet64(ids).unpack() == np.uint64(first) + np.arange(count, dtype="u8") * np.uint64(step)).all()
        assert IdSet64(ids[::-1]) == IdSet64(ids)
    assert list(IdSet64(np.broadcast_to(np.uint64(MOST), 3_000_000))) == [MOST]
    assert list(IdSet64()) == [] == list(IdSet64([])) == list(IdSet64(np.array([]))) == list(IdSet64(range(0)))


@pytest.mark.parametrize(
    "wrong, error, text",
    [
        ([1, 1.5], TypeError, "position 1: 1.5 is not an integer"),
        (["1"], TypeError, "position 0: '1' is not an integer"),
        ("12", TypeError, "integers expected, not str"),
        ([True], TypeError, "position 0: True"),
        (np.array([2.0**40]), TypeError, "position 0: 1099511627776.0"),
        (np.array([1], "M8[ns]"), TypeError, "position 0"),
        (np.zeros((2, 2), "u8"), ValueError, "one dimension"),
        (5, TypeError, "not iterable"),
        ([-1], OverflowError, "position 0: -1 is below 0 or above 18446744073709551615$"),
        ([1, 2**64], OverflowError, "position 1: 18446744073709551616 is below 0 or above 18446744073709551615$"),
        ([MOST, -(2**64)], OverflowError, "position 1: -18446744073709551616"),
        (np.array([3, 2**40, -2]), OverflowError, "position 2: -2"),
        (np.arange(3_000_000)[::-1] - 1, OverflowError, "position 2999999: -1"),
        (range(MOST - 5, MOST + 3), OverflowError, "position 6: 18446744073709551616"),
        (range(2**28 + 1), Error, "More than 268,435,456"),
        (b"12", TypeError, "`open`"),
        (np.ma.MaskedArray([1, 2], [False, True]), ValueError, "missing"),
    ],
)
def test_refused_values(wrong, error, text):
    with pytest.raises(error, match=text):
        IdSet64(wrong)


def test_beside_ids_of_32_bits():
    """Neither class becomes the other unless its name is called, and the error for an id that is too great names the class that has it."""
    for ids in ([1, 2**32], np.array([1, 2**32]), iter([1, 2**32]), range(2**32 - 1, 2**32 + 1), IdSet64([1, 2**32])):
        with pytest.raises(OverflowError, match="position 1: 4294967296 is below 0 or above 4294967295: IdSet64 has ids of 64 bits"):
            IdSet(ids)
    for call in (lambda: IdSet([1]) | [MOST], lambda: IdSet([1]).append([2**32]), lambda: IdSet.pack_many([2**32], [0, 1])):
        with pytest.raises(OverflowError, match="IdSet64"):
            call()
    for call in (lambda: IdSet([-1]), lambda: IdSet([2**64]), lambda: fimulowen.chain.pack([2**32] * 128)):
        with pytest.raises(OverflowError) as raised:
            call()
        assert "IdSet64" not in str(raised.value)
    small, wide = IdSet([1, 5]), IdSet64([1, 5])
    assert small != wide and type(IdSet(wide)) is IdSet and IdSet(wide) == small and IdSet64(small) == wide
    for call in (IdSet.open, Column.open):
        with pytest.raises(Error, match="BadVersion|BadName|Short"):
            call(wide.data)
    with pytest.raises(Error, match="BadVersion, byte 0"):
        IdSet64.open(small.data)


@pytest.mark.parametrize("dtype", ["u8", "i8", ">u8", "u4", "f8", "O"])
def test_types_out(dtype):
    ids = drawn(np.random.default_rng(9), KINDS[2], 9000) % np.uint64(2**31)
    packed = IdSet64(ids)
    found = packed.unpack(dtype=dtype)
    assert found.dtype == np.dtype(dtype) and found.tolist() == packed.unpack().tolist() == np.asarray(packed, dtype).tolist()
    for most, fits in ((2**31, True), (2**32, dtype != "u4"), (2**63, dtype not in ("i8", "u4"))):
        more = IdSet64([1, most])
        if fits:
            assert more.unpack(dtype=dtype).tolist() == [1, most]
        else:
            with pytest.raises(OverflowError, match=f"from 1 to {most} do not fit"):
                more.unpack(dtype=dtype)


@pytest.mark.parametrize("dtype", ["i8", "u8"])
def test_out(dtype):
    ids = np.unique(np.random.default_rng(9).integers(0, 2**63, 9001, "u8"))
    count, packed = len(ids), IdSet64(ids)
    out = np.full(count + 4, 77, dtype)
    found = packed.unpack(out)
    assert np.shares_memory(found, out) and (found == ids.astype(dtype)).all() and (out[count:] == 77).all()
    for bad in (
        np.zeros(count - 1, dtype),
        np.zeros((count, 2), dtype),
        np.zeros(2 * count, dtype)[::2],
        np.zeros(count, "f8"),
        [0] * count,
    ):
        with pytest.raises((TypeError, ValueError, BufferError)):
            packed.unpack(bad)
    with pytest.raises(TypeError, match="int64 or uint64"):
        IdSet64([5]).unpack(np.zeros(1, "u4"))
    with pytest.raises(TypeError):
        packed.unpack(out, dtype="u4")
    out.flags.writeable = False
    with pytest.raises((ValueError, BufferError)):
        packed.unpack(out)
    great = np.zeros(2, "i8")
    with pytest.raises(OverflowError):
        IdSet64([1, 2**63]).unpack(great)
    assert great.tolist() == [0, 0] and IdSet64([1, MOST]).unpack(great.view("u8")).tolist() == [1, MOST]


def test_arguments():
    packed = IdSet64([1, 2**40])
    for wrong in ("a", None, 1.0, (0, 1)):
        with pytest.raises(TypeError):
            packed[wrong]
        assert wrong not in packed
        many = [] if isinstance(wrong, tuple) else [packed.seek, packed.rank]  # these accept many targets
        for call in (*many, lambda it: packed.range(it, 3), lambda it: packed.range(0, it)):
            with pytest.raises(TypeError):
                call(wrong)

    class Wrong:
        def __index__(self):
            raise KeyError

    class Great:
        def __index__(self):
            return 2**63

    assert packed.rank(Great()) == 2 and Great() not in packed
    for call in (packed.seek, packed.rank, packed.__contains__):
        with pytest.raises(KeyError):
            call(Wrong())
    for bad in ([2**63], [-(2**70)], [2], [-3], np.array([MOST], "u8")):
        with pytest.raises(IndexError):
            packed.gather(bad)
    for bad in ([0.5], [True, False], 1, None):
        for call in (packed.gather, packed.contains):
            with pytest.raises(TypeError):
                call(bad)
    for call in (IdSet64().min, IdSet64().max):
        with pytest.raises(ValueError):
            call()
    with pytest.raises(AttributeError):
        packed.more = 1
    with pytest.raises(ValueError):
        packed.__array__(copy=False)


def test_core_refuses_other_arrays():
    """The C side takes no array and no class on trust."""
    core, packed = fimulowen._core, IdSet64([1, 2])
    for wrong in [
        np.arange(3, dtype="u4"),
        np.arange(3.0),
        np.arange(6, dtype="u8")[::2],
        np.zeros(17, "u1")[1:].view("u8"),
        b"12345678",
        [1],
    ]:
        for call in (lambda it: core.set_pack(IdSet64, it), packed._contains, packed._rank, packed._gather):
            with pytest.raises((TypeError, ValueError, BufferError)):
                call(wrong)
    for call in (lambda it: core.set_append(IdSet64, IdSet(), it), lambda it: core.set_pack(IdSet, it.astype("u8"))):
        with pytest.raises(TypeError):
            call(np.arange(3, dtype="u4"))
    for call in (core.WideSet, lambda: object.__new__(IdSet64), lambda: core.set_combine(0, (packed,)), lambda: core.wide_high_words(5)):
        with pytest.raises(TypeError):
            call()


def test_copies(ids):
    packed = IdSet64(ids)
    for protocol in range(2, pickle.HIGHEST_PROTOCOL + 1):
        again = pickle.loads(pickle.dumps(packed, protocol))
        assert again == packed and type(again) is IdSet64 and hash(again) == hash(packed)
    buffers = []
    outline = pickle.dumps(packed, 5, buffer_callback=buffers.append)
    again = pickle.loads(outline, buffers=buffers)
    assert len(outline) < 200 and np.shares_memory(*(np.frombuffer(it.data, "u1") for it in (again, packed)))
    text = packed.tobytes()
    for form in (text, packed.data, bytearray(text), np.frombuffer(text, "u1"), np.repeat(np.frombuffer(text, "u1"), 2)[::2]):
        assert IdSet64.open(form) == packed == copy.copy(packed) == copy.deepcopy(packed)
    assert IdSet64.open_many(text + text, [0, len(text), 2 * len(text)]) == [packed, packed]
    with pytest.raises(Error) as raised:
        IdSet64.open_many(text + text, [0, len(text), 2 * len(text) - 1])
    assert raised.value.number == 1 and packed.data.readonly and memoryview(packed.data) == text


def test_equality():
    one = IdSet64([1, 2**40])
    assert (
        one == IdSet64([2**40, 1])
        and one != IdSet64([1, 2**41])
        and one != IdSet64([1])
        and one != [1, 2**40]
        and not one == {1, 2**40}
    )
    assert len({one, IdSet64([1, 2**40]), IdSet64([1])}) == 2
    assert len({hash(IdSet64(range(2**40, 2**40 + n))) for n in range(300)}) == 300


def test_subclass():
    class Mine(IdSet64):
        pass

    mine = Mine([1, MOST])
    mine.note = "kept"
    assert (
        type(IdSet64(mine)) is IdSet64 and IdSet64(mine) == mine and type(Mine.open(mine.data)) is Mine and IdSet64(one := IdSet64()) is one
    )
    for again in (copy.copy(mine), copy.deepcopy(mine)):
        assert again == mine and again.note == "kept" and type(again) is Mine


def test_represented():
    """The bytes of docs/FORMAT.md."""
    assert repr(IdSet64([5])) == "<IdSet64 of 1 ids in 8 bytes: [5]>" and repr(IdSet64(range(9))).endswith("[0, 1, 2, 3, 4, 5, ..]>")
    for ids, text in [
        ([], "090060"),
        ([5], "0901610005000000"),
        ([MOST], "090161FFFFFFFF0FFFFFFFFF"),
        ([1, 2**32 + 1, 2**33], "09036300010301000000 0100000000000000"),
        (range(5_000_000_000, 5_000_000_008), "080801110100000007088880E497D00200"),
        ([*range(15), 2**63], "08100211 00000000 00000080 0305 0F10 8F0000 8100"),
    ]:
        assert IdSet64(ids).tobytes() == bytes.fromhex(text) and list(IdSet64.open(bytes.fromhex(text))) == list(ids)


def test_iterates_in_parts():
    asked = []

    class Counting(IdSet64):
        def __getitem__(self, key):
            asked.append(key)
            return super().__getitem__(key)

    assert sum(Counting(range(2**40, 2**40 + 10_000))) == sum(range(2**40, 2**40 + 10_000)) and len(asked) == 3
