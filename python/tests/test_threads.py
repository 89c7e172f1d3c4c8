"""Calls let other threads run, and Ctrl-C ends them."""

import gc
import operator
import signal
import sys
import threading
import time

import fimulowen
import numpy as np
import pytest
from fimulowen import IdSet, IdSet64, _core

from bitmaps import bitmap
from test_id_set import RANDOM

INTERSECT, UNITE, SUBTRACT, XOR = range(4)


def drawn(seed, count=1_000_000):
    return np.unique(np.random.default_rng(seed).integers(0, 1 << 24, count, dtype="u4"))


def test_threads():
    one, other = [IdSet(RANDOM.integers(0, 1 << 22, 300_000)) for _ in range(2)]
    wanted, found = fimulowen.intersect(one, other), []

    def work():
        out = np.empty(len(one), "u4")
        found.append((fimulowen.intersect(one, other), (one | other) - one, one.unpack(out).sum(), one == IdSet.open(one.tobytes())))

    threads = [threading.Thread(target=work) for _ in range(8)]
    for it in threads:
        it.start()
    for it in threads:
        it.join()
    assert len(found) == 8
    for shared, rest, total, same in found:
        assert (shared == wanted).all() and rest == other - one and total == one.unpack().sum() and same


class Long:
    """Sets and arrays for calls that take some time."""

    def __init__(self):
        self.ids, self.others = drawn(3), drawn(4)
        self.a, self.b, self.copy = IdSet(self.ids), IdSet(self.others), IdSet(self.ids)
        self.even, self.odd = IdSet(range(0, 2_000_000, 2)), IdSet(range(1, 2_000_000, 2))
        self.kept = self.even.unpack()
        self.pair, self.data, self.bitmap = (self.a, self.b), self.a.tobytes(), bitmap(self.ids, False)
        self.bounds, self.two = np.array([0, len(self.ids)]), np.array([0, len(self.data)])
        self.positions, self.far = np.arange(len(self.ids)), np.arange(50_000)
        self.out, self.wide, self.blocks = np.empty(len(self.ids), "u4"), np.empty(len(self.ids), "i8"), self.ids[: 1 << 19]
        self.chain = _core.chain_pack(self.blocks, 0, 4, 0)
        self.wide_ids = self.ids.astype("u8") << np.uint64(20)
        self.c, self.wide_copy = IdSet64(self.wide_ids), IdSet64(self.wide_ids)
        self.wide_data = self.c.tobytes()
        self.d, self.between = IdSet64(self.others.astype("u8") << np.uint64(20)), IdSet64(self.wide_ids + np.uint64(1))


@pytest.fixture(scope="module")
def long():
    return Long()


# Each call that releases the lock, by its name.
UNLOCKED = {
    "set_pack": lambda it: _core.set_pack(IdSet, it.ids),
    "set_pack_many": lambda it: _core.set_pack_many(it.ids, it.bounds),
    "set_open": lambda it: _core.set_open(IdSet, it.data),
    "set_open_many": lambda it: _core.set_open_many(IdSet, it.data, it.two),
    "set_from_roaring": lambda it: _core.set_from_roaring(IdSet, it.bitmap),
    "to_roaring": lambda it: it.a._to_roaring(),
    "set_append": lambda it: _core.set_append(IdSet, it.a, it.ids[:0]),
    "intersect": lambda it: _core.set_combine(INTERSECT, it.pair),
    "unite": lambda it: _core.set_combine(UNITE, it.pair),
    "subtract": lambda it: _core.set_combine(SUBTRACT, it.pair),
    "symmetric_difference": lambda it: _core.set_combine(XOR, it.pair),
    "set_join": lambda it: _core.set_join(IdSet, UNITE, it.pair),
    "intersect_len": lambda it: _core.set_count(INTERSECT, it.pair),
    "unite_len": lambda it: _core.set_count(UNITE, it.pair),
    "slice": lambda it: it.a[:],
    "slice with a step": lambda it: it.a[::500],
    "unpack to uint32": lambda it: it.a._read(it.out),
    "unpack to int64": lambda it: it.a._read(it.wide),
    "gather": lambda it: it.a._gather(it.positions),
    "contains": lambda it: it.a._contains(it.others),
    "contains in bits": lambda it: it.a._contains(it.positions),
    "rank": lambda it: it.even._rank(it.far),
    "rank in bits": lambda it: it.a._rank(it.positions),
    "mask": lambda it: it.a._mask(1 << 24),
    "remove": lambda it: it.odd._remove(it.kept),
    "group": lambda it: _core.set_group(it.positions, len(it.ids)),
    "==": lambda it: it.a == it.copy,
    "<=": lambda it: it.a <= it.copy,
    "isdisjoint": lambda it: it.even._is_disjoint(it.odd),
    "set_pack of 64": lambda it: _core.set_pack(IdSet64, it.wide_ids),
    "set_open of 64": lambda it: _core.set_open(IdSet64, it.wide_data),
    "slice of 64": lambda it: it.c[:],
    "slice of 64 with a step": lambda it: it.c[::500],
    "unpack of 64": lambda it: it.c._read(it.wide),
    "gather of 64": lambda it: it.c._gather(it.positions),
    "contains of 64": lambda it: it.c._contains(it.wide_ids),
    "rank of 64": lambda it: it.c._rank(it.wide_ids),
    "== of 64": lambda it: it.c == it.wide_copy,
    "<= of 64": lambda it: it.c <= it.wide_copy,
    "isdisjoint of 64": lambda it: it.c._is_disjoint(it.between),
    "wide_combine": lambda it: _core.wide_combine(XOR, it.c, it.d),
    "wide_join": lambda it: _core.wide_join(IdSet64, INTERSECT, it.c, it.d),
    "wide_count": lambda it: _core.wide_count(INTERSECT, it.c, it.d),
    "chain.pack": lambda it: _core.chain_pack(it.blocks, 0, 4, 0),
    "chain.unpack": lambda it: _core.chain_unpack(*it.chain, 0, 4, 0),
}


def others_run(call):
    """Whether another thread runs during one of some calls, though the interpreter itself would switch after a minute only."""
    begun, seen, found = threading.Event(), [], []

    def work():
        begun.set()
        end = time.monotonic() + 20
        while not seen and time.monotonic() < end:
            call()
        found.append(bool(seen))

    before = sys.getswitchinterval()
    sys.setswitchinterval(60)
    try:
        thread = threading.Thread(target=work)
        thread.start()
        begun.wait()
        seen.append(True)
        thread.join()
    finally:
        sys.setswitchinterval(before)
    return found == [True]


@pytest.mark.parametrize("name", UNLOCKED)
def test_lock_is_released(name, long):
    assert others_run(lambda: UNLOCKED[name](long))


class Stop(Exception):
    pass


def share_of(call):
    """The share of its processor time that a call takes if a signal comes early."""

    def stop(*_):
        raise Stop

    def taken():
        start = time.process_time()
        call()
        return time.process_time() - start

    gc.collect()
    gc.disable()  # to collect what other tests left is not the work of the call
    whole, before = min(taken(), taken()), signal.signal(signal.SIGALRM, stop)
    try:
        with pytest.raises(Stop):
            start = time.thread_time()  # what an earlier call does in the background is not its own
            signal.setitimer(signal.ITIMER_REAL, whole / 10)  # by the clock: a timer of processor time waits for the next tick
            call()
        return (time.thread_time() - start) / whole
    finally:
        signal.setitimer(signal.ITIMER_REAL, 0)
        signal.signal(signal.SIGALRM, before)
        gc.enable()


class Longer:
    """Sets and arrays for calls that take long."""

    def __init__(self):
        self.ids = np.arange(0, 3 << 23, 3, dtype="u4")
        self.a, self.b = IdSet(self.ids), IdSet(self.ids + np.uint32(3 << 12))
        self.mixed = RANDOM.permutation(self.ids)[: 1 << 22]
        self.bounds = np.arange(0, (1 << 23) + 1, 1 << 7)
        self.positions = self.bounds[:-1].repeat(1 << 6)
        self.out = np.empty(len(self.ids), "i8")
        self.text, self.ends = IdSet.pack_many(self.ids, self.bounds)
        self.many = [self.a, self.b] * 20
        self.codes = self.mixed.astype("i8") % 200
        steps = np.arange(9)[:, None] * (300 - np.arange(256))
        self.term = fimulowen.Term(self.a, self.ids % 9, steps)
        self.wide_ids = self.ids.astype("u8") << np.uint64(12)
        self.wide = IdSet64(self.wide_ids)
        self.pair = self.wide, IdSet64(self.wide_ids + np.uint64(3 << 12))


@pytest.fixture(scope="module")
def longer():
    return Longer()


STOPPED = {
    "IdSet of mixed ids": lambda it: IdSet(it.mixed),
    "IdSet of an iterable": lambda it: IdSet(iter(range(1 << 21))),
    "IdSet64 of mixed ids": lambda it: IdSet64(it.wide_ids[: 1 << 22][::-1]),
    "slice of 64": lambda it: it.wide[:],
    "unpack of 64": lambda it: it.wide.unpack(it.out),
    "contains of 64": lambda it: it.wide.contains(it.mixed[: 1 << 21]),
    "rank of 64": lambda it: it.wide.rank(it.positions[: 1 << 21]),
    "gather of 64": lambda it: it.wide.gather(it.positions[: 1 << 20]),
    "intersect of 64": lambda it: fimulowen.intersect(*it.pair * 2),
    "| of 64": lambda it: operator.or_(*it.pair),
    "unite_len of 64": lambda it: fimulowen.unite_len(*it.pair),
    "pack_many": lambda it: IdSet.pack_many(it.ids, it.bounds),
    "open_many": lambda it: IdSet.open_many(it.text, it.ends),
    "slice": lambda it: it.a[:],
    "unpack": lambda it: it.a.unpack(it.out),
    "gather": lambda it: it.a.gather(it.positions),
    "contains": lambda it: it.a.contains(it.mixed),
    "rank of many": lambda it: it.a.rank(it.positions),
    "mask": lambda it: it.a.mask(1 << 25),
    "groups": lambda it: IdSet.groups(it.codes),
    "best": lambda it: fimulowen.best([it.term] * 3, 10),
    "intersect": lambda it: fimulowen.intersect(*it.many),
    "unite": lambda it: fimulowen.unite(*it.many),
    "subtract": lambda it: fimulowen.subtract(it.a, *it.many[1::2]),
    "symmetric_difference": lambda it: fimulowen.symmetric_difference(*it.many),
    "intersect_len": lambda it: fimulowen.intersect_len(*it.many),
    "unite_len": lambda it: fimulowen.unite_len(*it.many),
}


@pytest.mark.parametrize("name", STOPPED)
def test_signals_end_calls(name, longer):
    # On a busy machine one call may wait.
    assert any(share_of(lambda: STOPPED[name](longer)) < 0.7 for _ in range(3))
