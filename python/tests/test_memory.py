"""Memory stays the same over rounds of calls and errors, and no object is left over."""

import copy
import gc
import os
import pathlib
import pickle
import resource
import subprocess
import sys
import tracemalloc

import fimulowen
import numpy as np
import pytest
from fimulowen import Error, IdSet, IdSet64, Query, chain

from wide_ids import full


def resident():
    """The bytes of memory that the process has."""
    with open("/proc/self/statm", encoding="ascii") as file:
        return 4096 * int(file.read().split()[1])


def refused(call):
    try:
        call()
    except (Error, IndexError, TypeError, ValueError, OverflowError, AttributeError):
        return
    raise AssertionError("it was not refused")


def sets_round(ids, text, bounds):
    """Each call of sets, also with an answer that is shorter than its room."""
    packed, other, alone, out = IdSet(ids), IdSet(ids[::3]), IdSet(ids[1::2] + 1), np.empty(len(ids), "i8")
    packed.unpack(), packed.unpack(out), packed.unpack(dtype="f8"), packed[3:900:7], packed[-1], list(other), ids[5] in packed
    packed.seek(500), packed.seek(1 << 40), packed.rank(70), packed.range(50, 9000), packed.min(), packed.max(), len(packed)
    packed.gather([3, -1]), packed.contains(ids), packed.contains([5, -1]), packed.append(ids + ids[-1] + 1), "a" in packed
    packed & other, packed | alone, packed - other, packed ^ alone, packed & [5, 7], ids - other, {5} | packed, packed & IdSet()
    for call in COMBINING:
        call(packed, other), call(packed, alone), call(alone, other, packed), call(packed)
    packed == other, packed == IdSet(ids), packed <= other, other < packed, packed >= other, packed > other, packed != other
    packed.isdisjoint(alone), packed.issubset(ids), packed.issuperset([5]), hash(packed), repr(packed), np.asarray(packed)
    IdSet.from_roaring(bytearray(BITMAP)), packed.to_roaring()
    IdSet.open_many(*IdSet.pack_many(ids, bounds)), IdSet.open(bytearray(text)), IdSet.open(packed.data), IdSet(packed)
    pickle.loads(pickle.dumps(packed, 5)), pickle.loads(pickle.dumps(packed, 2)), copy.copy(packed), packed.data.tobytes(), packed.nbytes
    packed.__arrow_c_array__(), packed.__arrow_c_schema__(), IdSet(ids[::-1]), IdSet(ids.tolist()), IdSet(iter(ids.tolist())), IdSet(
        range(9)
    )
    packed.rank(ids), packed.seek([5, 1 << 40]), packed.contains(ids.astype("i8")), packed.rank([5]), packed.mask(
        ids[-1] + 1
    ), packed.complement(9000)
    IdSet.of_mask(packed.mask(90_000)), IdSet.groups(ids % 9), IdSet.groups([-1, 5, 2], 9), packed.jaccard(other)
    terms = [fimulowen.BM25(np.arange(90_000)).term(it, np.arange(len(it)) % 9) for it in (packed, other)]
    fimulowen.best(terms, 50), fimulowen.best(terms, 5, 2), fimulowen.best_among(ids, terms, 50), terms[0].documents
    query = (Query(packed) & other | alone) - packed ^ [5]
    list(query), len(query), query.seek(70), query.unpack()
    chain.unpack(*chain.pack(ids[:1024], kind="strict"), kind="strict")


def wide_round(ids, text, bounds):
    """Each call of wide sets, with one word and with many, and each error."""
    for step in (1, 1 << 40):
        wide = ids[:2000] * np.uint64(step) + np.uint64(1 << 40)
        packed, out, far = IdSet64(wide), np.empty(len(wide), "i8"), int(wide[-1]) + 1
        packed.unpack(), packed.unpack(out), packed.unpack(dtype="f8"), packed[3:900:7], packed[::600], packed[-1], list(packed[::-1])
        packed.seek(500), packed.seek(far), packed.rank(1 << 63), packed.range(50, far), packed.min(), packed.max(), len(packed)
        packed.gather([3, -1]), packed.contains(wide), packed.contains([5, -1, 1 << 70]), packed.rank(wide), packed.seek(
            [5, far]
        ), 5 in packed
        packed == IdSet64(wide[::-1]), packed != IdSet64(wide[5:]), hash(packed), repr(packed), np.asarray(packed), 1 << 70 in packed
        IdSet64(packed), IdSet64(wide.tolist()), IdSet64(IdSet(ids)), IdSet64.open(bytearray(packed.data)), IdSet64(range(far, far + 9))
        IdSet64.open_many(packed.tobytes(), [0, packed.nbytes]), pickle.loads(pickle.dumps(packed, 5)), copy.copy(packed)
        pickle.loads(pickle.dumps(packed, 2)), packed.data.tobytes(), packed.__arrow_c_array__(), packed.__arrow_c_schema__()
        other, alone = IdSet64(wide[::3]), IdSet64(wide[1::2] + np.uint64(1))
        packed & other, packed | alone, packed - other, packed ^ alone, packed & [5, 7], wide - other, {5} | packed, packed & IdSet64()
        packed.union(other, alone), packed.intersection(), packed.jaccard(other), packed.symmetric_difference(alone, other, [5])
        for call in COMBINING:
            call(packed, other), call(packed, alone), call(alone, other, packed), call(packed)
        packed <= other, other < packed, packed >= other, packed > other, packed.isdisjoint(alone), packed.issubset(wide), other <= packed
        bad = packed.tobytes()
        for call in [
            lambda: IdSet64.open(bad[:-1]),
            lambda: IdSet64.open(bytearray(bad[: len(bad) // 2])),
            lambda: IdSet64.open(bad + bad),
            lambda: IdSet64.open(text),
            lambda: IdSet64.open(None),
            lambda: IdSet64.open_many(bad, [0, 4]),
            lambda: IdSet64([-1]),
            lambda: IdSet64([1 << 64]),
            lambda: IdSet64(["a"]),
            lambda: IdSet(packed),
            lambda: packed[1 << 40],
            lambda: packed.gather([len(wide)]),
            lambda: packed.seek("a"),
            lambda: packed.rank(["a"]),
            lambda: packed.contains([0.5]),
            lambda: packed & IdSet(ids),
            lambda: IdSet(ids) | packed,
            lambda: packed < IdSet(ids),
            lambda: packed | [1 << 64],
            lambda: packed.isdisjoint(IdSet(ids)),
            lambda: fimulowen.unite(packed, IdSet(ids)),
            lambda: packed._is_disjoint(5),
            lambda: fimulowen._core.wide_combine(9, packed, packed),
            lambda: fimulowen._core.wide_join(IdSet, 0, packed, packed),
            lambda: fimulowen._core.wide_join(IdSet64, 9, packed, packed),
            lambda: fimulowen._core.wide_count(9, packed, packed),
            lambda: full(0) | full(1),
            lambda: IdSet64([1 << 63]).unpack(out),
            lambda: packed.unpack(np.empty(3, "u8")),
            lambda: packed.unpack(np.empty(len(wide), "f8")),
            lambda: fimulowen._core.set_pack(IdSet64, ids.copy()),
            lambda: fimulowen._core.wide_high_words(5),
        ]:
            refused(call)


def refused_round(ids, text, bounds):
    """Each error of a call of sets."""
    packed, core = IdSet(ids), fimulowen._core
    for call in [
        lambda: IdSet.open(text[:-1]),
        lambda: IdSet.open(bytearray(text[:-1])),
        lambda: IdSet.open(None),
        lambda: IdSet.from_roaring(BITMAP[:-1]),
        lambda: IdSet.from_roaring(bytearray(BITMAP[:7])),
        lambda: IdSet.from_roaring(None),
        lambda: core.set_from_roaring(int, BITMAP),
        lambda: IdSet([-1]),
        lambda: IdSet(["a"]),
        lambda: IdSet(np.array([1, 1 << 40])),
        lambda: IdSet(range(1 << 40)),
        lambda: packed[1 << 40],
        lambda: packed["a"],
        lambda: packed.gather([1 << 40]),
        lambda: packed.gather([len(ids)]),
        lambda: packed.seek("a"),
        lambda: packed.rank("a"),
        lambda: packed.append([5]),
        lambda: packed.rank(["a"]),
        lambda: packed.seek([0.5]),
        lambda: packed.contains([0.5]),
        lambda: packed.mask(5),
        lambda: packed.complement(1 << 40),
        lambda: IdSet.of_mask([5]),
        lambda: IdSet.groups([-2]),
        lambda: IdSet.groups([5], 5),
        lambda: fimulowen.Term(packed, [5], TABLE),
        lambda: fimulowen.Term([5], [5], TABLE[:0]),
        lambda: fimulowen.Term([5], [5], TABLE[::-1]),
        lambda: fimulowen.Term([5], [5], TABLE, [5]),
        lambda: fimulowen.best([5], 5),
        lambda: fimulowen.best_among([5, 4], [fimulowen.Term([5], [5], TABLE)], 5),
        lambda: core.term(int, packed, ids, ids, b""),
        lambda: core.term(fimulowen.Term, packed, ids, TABLE, b""),
        lambda: core.best((5,), b"", 1, 1),
        lambda: core.best_among(TABLE, (), b"", 1),
        lambda: core.set_group(ids, 5),
        lambda: packed & 5,
        lambda: packed < 5,
        lambda: fimulowen.intersect(packed, 5),
        lambda: IdSet.pack_many(ids, [0, 5, 4]),
        lambda: IdSet.pack_many(ids[::-1], bounds),
        lambda: IdSet.open_many(text, [0, 4]),
        lambda: IdSet.open_many(text, [0, len(text) + 1]),
        lambda: IdSet.open_many(text, [0, len(text), len(text)]),
        lambda: packed.unpack(np.empty(3, "u4")),
        lambda: packed.unpack(np.empty(len(ids), "f4")),
        lambda: chain.pack(ids[:5]),
        lambda: chain.unpack(b"\x21", b""),
        lambda: core.set_pack(IdSet, np.arange(3)),
        lambda: core.set_pack(int, ids.copy()),
        lambda: core.set_append(IdSet, packed, np.arange(3)),
        lambda: core.set_combine(9, (packed,)),
        lambda: core.set_combine(0, (packed, 5)),
        lambda: core.set_range(IdSet, 0, 1 << 40),
        lambda: core.set_range(int, 0, 1),
        lambda: core.set_join(IdSet, 9, (packed,)),
        lambda: core.set_join(IdSet, 0, (packed, 5)),
        lambda: core.set_count(0, (packed, 5)),
        lambda: core.set_pack_many(ids.copy(), ids),
        lambda: core.arrow_array(None, None, 0),
        lambda: core.arrow_array(ids.copy(), 5, 0),
    ]:
        refused(call)


COMBINING = [fimulowen.intersect, fimulowen.unite, fimulowen.subtract, fimulowen.symmetric_difference]
COMBINING += [fimulowen.intersect_len, fimulowen.unite_len, fimulowen.subtract_len, fimulowen.symmetric_difference_len]
BITMAP = bytes.fromhex("3B30000001000009000100000009 00")
TABLE = np.repeat(np.arange(3), 256).reshape(3, 256)
ROUNDS = [sets_round, wide_round, refused_round]


def test_constant():
    ids = np.unique(np.random.default_rng(5).integers(0, 90_000, 9000)).astype("u4")
    text, bounds = IdSet(ids).tobytes(), np.arange(0, len(ids), 500)

    def grown():
        """The blocks and the bytes that are more after some rounds than before them."""
        blocks, before = sys.getallocatedblocks(), resident()
        for _ in range(60):
            for one in ROUNDS:
                one(ids, text, bounds)
        gc.collect()
        return sys.getallocatedblocks() - blocks, resident() - before

    # Caches of numpy grow for a while. What a call leaks grows in each round.
    assert any(blocks < 50 and size < 60 * 1024 for blocks, size in (grown() for _ in range(16)))


def no_memory():
    """Wide sets of 2^28 ids are combined in a process that gets 2.5 GB more: room for as many ids, but not for work space too."""
    one, other, limit = full(0), full(1), resource.RLIMIT_AS
    with open("/proc/self/statm", encoding="ascii") as file:
        resource.setrlimit(limit, (4096 * int(file.read().split()[0]) + (5 << 29), resource.getrlimit(limit)[1]))
    # A short answer has room, after its ids were counted.
    assert not one - full(0) and not one ^ full(0) and len(fimulowen.subtract(one, full(0))) == 0
    blocks = sys.getallocatedblocks()
    for _ in range(5):
        for call, it in ((IdSet64.union, one), (IdSet64.difference, other), (fimulowen.intersect, full(0)), (fimulowen.unite, other)):
            with pytest.raises(MemoryError):
                call(one, it)
    gc.collect()
    assert sys.getallocatedblocks() - blocks < 50 and len(np.empty(1 << 28, "u8")) == 1 << 28


def test_no_memory():
    """MemoryError if the answer has no room, and nothing is left over."""
    options = f"{os.environ.get('ASAN_OPTIONS', '')}:allocator_may_return_null=1"
    command = [sys.executable, "-c", "import test_memory; test_memory.no_memory()"]
    subprocess.run(command, cwd=pathlib.Path(__file__).parent, env=dict(os.environ, ASAN_OPTIONS=options), check=True)


def test_slices():
    """A slice with a step holds no more than what it shows, and one of few ids unpacks no others."""
    packed, wide_ids, column = IdSet(range(4_000_000)), IdSet64(range(2**40, 2**40 + 4_000_000)), fimulowen.Column(range(1_000_000))
    tracemalloc.start()
    for it, most in ((packed, 10_000), (wide_ids, 10_000), (column, 40_000)):
        for step in (100_000, -100_000, 2, -2, 511, 512, 513, 15, 16, 17):
            found, wide = it[::step], it.unpack().itemsize
            while found.base is not None:
                found = found.base
            assert found.nbytes == wide * len(range(0, len(it), abs(step)))
        tracemalloc.reset_peak()
        before = tracemalloc.get_traced_memory()[0]
        it[::100_000], it[::-100_000]
        assert tracemalloc.get_traced_memory()[1] - before < most
    tracemalloc.stop()


@pytest.mark.parametrize("kind", [IdSet, IdSet64])
def test_references(kind):
    """A set gives its buffer back, and keeps no more of it than one."""
    text = kind(range(1000)).tobytes()
    before = sys.getrefcount(text)
    packed = kind.open(text)
    assert sys.getrefcount(text) > before
    view = packed.data
    del packed
    assert sys.getrefcount(text) > before and kind.open(view)[-1] == 999
    del view
    assert sys.getrefcount(text) == before
    many = kind.open_many(text, [0, len(text)])
    del many
    assert sys.getrefcount(text) == before
    types = [sys.getrefcount(it) for it in kind.__mro__[:-1]]
    for _ in range(100):
        kind.open(text), kind([1]).data
    assert [sys.getrefcount(it) for it in kind.__mro__[:-1]] == types
