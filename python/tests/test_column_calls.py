"""Each call of columns in C: it lets other threads run, Ctrl-C ends it, it leaks nothing, and it reads no memory that others write."""

import gc
import pickle
import signal
import sys
import threading
import time

import numpy as np
import pytest
from fimulowen import Column, Error, IdSet, _core

from test_threads import others_run

LONG = 1 << 22
RANDOM = np.random.default_rng(9)
VALUES, POSITIONS = RANDOM.integers(0, 1 << 40, LONG), np.arange(LONG)
ABSENT = RANDOM.random(LONG) < 0.3
# Each call in C that is about many values: of a column with missing values, an equal one, room for values, and room for marks.
CALLS = {
    "column_pack": lambda it, other, out, mask: _core.column_pack(out, mask, True),
    "column_open": lambda it, other, out, mask: _core.column_open(Column, it.data, LONG, True, False),
    "_read": lambda it, other, out, mask: it._read(out, 0, 0),
    "_mark": lambda it, other, out, mask: it._mark(mask, 0),
    "_absent": lambda it, other, out, mask: it._absent(),
    "_gather": lambda it, other, out, mask: it._gather(POSITIONS, out, mask),
    "_between": lambda it, other, out, mask: it._between(1 << 38, 1 << 39),
    "_count_between": lambda it, other, out, mask: it._count_between(1 << 38, 1 << 39),
    "_same": lambda it, other, out, mask: it._same(other),
}
SHORT = {"_get", "_seek", "_limits", "_missing", "_sorted"}


@pytest.fixture(scope="module")
def columns():
    return Column(VALUES, ABSENT), Column(VALUES, ABSENT)


def test_all_calls():
    found = {it for it in dir(_core.Column) if it not in dir(_core.Packed)} | {it for it in dir(_core) if it.startswith("column_")}
    assert found - {"__len__"} == set(CALLS) | SHORT


@pytest.mark.parametrize("name", CALLS)
def test_lock_is_released(columns, name):
    arguments = *columns, VALUES.copy(), ABSENT.copy()
    assert others_run(lambda: CALLS[name](*arguments))


def interrupted(call, after):
    """The seconds of the processor that a call takes, or until the exception of a signal, which comes after a time by the clock."""

    def stop(*_):
        raise KeyboardInterrupt

    before, start = signal.signal(signal.SIGALRM, stop), time.thread_time()
    try:
        signal.setitimer(signal.ITIMER_REAL, after)
        call()
        signal.setitimer(signal.ITIMER_REAL, 0)
    except KeyboardInterrupt:
        pass
    finally:
        took = time.thread_time() - start
        signal.signal(signal.SIGALRM, before)
    return took


@pytest.mark.parametrize("name", [it for it in CALLS if it != "_same"])
def test_ctrl_c(columns, name):
    """It ends a call early: each looks between chunks. To compare two columns takes about a millisecond for 10 MB."""
    arguments = (*columns, VALUES.copy(), ABSENT.copy())
    whole = min(interrupted(lambda: CALLS[name](*arguments), 60) for _ in range(3))
    assert any(interrupted(lambda: CALLS[name](*arguments), whole / 8) < whole / 2 for _ in range(60))


def resident():
    """The bytes of memory that the process has."""
    with open("/proc/self/statm", encoding="ascii") as file:
        return 4096 * int(file.read().split()[1])


def refused(call):
    with pytest.raises((Error, IndexError, TypeError, ValueError, OverflowError, BufferError)):
        call()


def one_round(values, missing):
    column, wide = Column(values, missing), Column(values * 2**40)
    assert Column.open(column.data) == column == Column.open(bytearray(column.data)) and column != wide
    column.unpack(), column.unpack(np.empty(len(values), "i8"), fill=0), column.unpack(dtype="f4", fill=0), wide.unpack()
    column[3:900:7], column[-1], list(column), column.gather([3, -1]), wide.gather([5, 5]), column.missing, column.bounds()
    column.between(5, 5000), wide.between(5, 2**50), column.between_ids(5, 5000), column.count_between(5, 5000), wide.count_between(
        5, 2**50
    )
    column.min(), column.max(), column.kind, column.dtype, hash(column), repr(column), Column(np.sort(values)).seek(500)
    column.append([5, None]), pickle.loads(pickle.dumps(column, 5)), pickle.loads(pickle.dumps(column, 2)), column.__arrow_c_array__()
    wide.__arrow_c_array__(), Column(values.view("M8[s]")).unpack(), np.asarray(wide), Column(values.tolist())
    for call in [
        lambda: Column.open(column.tobytes()[:-1]),
        lambda: Column.open(bytearray(column.tobytes()[:-1])),
        lambda: Column.open(None),
        lambda: Column([0.5]),
        lambda: Column([1 << 70]),
        lambda: column[1 << 40],
        lambda: column["a"],
        lambda: column.gather([1 << 40]),
        lambda: column.gather(["a"]),
        lambda: column.seek(5),
        lambda: column.between("a", 5),
        lambda: column.unpack(np.empty(3, "i8")),
        lambda: column.append([2**63]),
        lambda: np.asarray(column),
        lambda: column._read(np.empty(len(values), "u1"), 0, 0),
        lambda: column._read(np.empty(len(values) + 1, "i8"), 0, 0),
        lambda: column._mark(np.empty(5, "u1"), -1),
        lambda: column._gather(np.zeros(5, "i8"), np.zeros(4, "i8"), None),
        lambda: column._gather(np.zeros(5, "i8"), np.zeros(5, "i8"), np.zeros(4, "u1")),
        lambda: column._same(5),
        lambda: _core.column_open(Column, b"", 5, True, False),
        lambda: _core.column_open(Column, column.data, 5, True, False),
        lambda: _core.column_open(IdSet, column.data, len(values), True, False),
        lambda: _core.column_pack(values.copy(), b"1", True),
        lambda: _core.column_pack(b"12345678", None, True),
    ]:
        refused(call)


def test_constant():
    """A stretch of rounds leaves nothing: caches fill in the first ones, and a leak is in each."""
    values = RANDOM.integers(0, 90_000, 9000)
    missing, found = values % 7 == 0, []
    for _ in range(15):
        gc.collect()
        before, blocks = resident(), sys.getallocatedblocks()
        for _ in range(60):
            one_round(values, missing)
        gc.collect()
        found.append((sys.getallocatedblocks() - blocks, resident() - before))
        if len(found) > 1 and found[-1][0] < 40 and found[-1][1] < 1 << 20:
            return
    raise AssertionError(found)


def test_references():
    """A column gives its buffer back."""
    data = Column(range(1000)).tobytes()
    before = sys.getrefcount(data)
    column = Column.open(data)
    assert sys.getrefcount(data) > before
    view = column.data
    del column
    assert sys.getrefcount(data) > before and Column.open(view)[-1] == 999
    del view
    assert sys.getrefcount(data) == before
    types = [sys.getrefcount(it) for it in (Column, _core.Column)]
    for _ in range(100):
        Column.open(data), Column([1]).data
    assert [sys.getrefcount(it) for it in (Column, _core.Column)] == types


@pytest.mark.parametrize("view", [lambda it: it, memoryview, lambda it: memoryview(it).toreadonly(), lambda it: np.frombuffer(it, "u1")])
def test_memory_that_is_written(view):
    """A column holds none that another thread can write: neither its bytes, nor the values and masks of a caller."""
    values, missing = np.array([5, 6, 7]), np.array([False, True, False])
    column = Column(values, missing)
    assert values.tolist() == [5, 6, 7] and missing.tolist() == [False, True, False]
    values[:], missing[:] = 0, True
    assert list(column) == [5, None, 7]
    data = bytearray(column.data)
    opened = Column.open(view(data))
    data[:] = bytes(len(data))
    assert list(opened) == [5, None, 7] and opened == column
    whole = bytes(column.data)
    assert Column.open(whole).data.obj is not None and np.shares_memory(
        np.frombuffer(Column.open(whole).data, "u1"), np.frombuffer(whole, "u1")
    )


def test_threads():
    """Many threads read one column at once, and each finds what one finds alone."""
    values = RANDOM.integers(0, 1 << 34, 200_000)
    column, found = Column(values, values % 5 == 0), []

    def work():
        found.append((column.unpack(fill=0).sum(), len(column.between(5, 1 << 33)), column.gather(np.arange(0, 200_000, 3), 0).sum()))

    threads = [threading.Thread(target=work) for _ in range(8)]
    for it in threads:
        it.start()
    for it in threads:
        it.join()
    work()
    assert len(found) == 9 and len(set(found)) == 1


def test_errors_are_pickled():
    with pytest.raises(Error) as raised:
        Column.open(b"FCOL")
    again = pickle.loads(pickle.dumps(raised.value))
    assert (again.fault, again.byte, str(again)) == ("Short", 0, str(raised.value))
