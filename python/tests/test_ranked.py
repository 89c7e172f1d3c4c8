"""Ranked search beside a scan by numpy, which adds up the parts of all documents."""

import copy
import math
import pickle
import sys
import threading

import fimulowen
import numpy as np
import pytest
from fimulowen import BM25, Column, Error, IdSet, Query, Term, _core, best, best_among
from hypothesis import given, settings
from hypothesis import strategies as st

from test_id_set import RANDOM, arrays
from test_threads import others_run


def table_of(random, rows):
    """A random table: parts fall with the class, and rise with the count."""
    steps = np.sort(random.integers(0, 9, (rows, 256)), axis=1)[:, ::-1]
    return np.cumsum(steps, axis=0)


def scanned(words, classes, at_least, most, among=None):
    """The best documents of words, each as ids, counts and a table, by a scan: as a list of ids and scores."""
    scores, have = {}, {}
    for ids, counts, table in words:
        for it, count in zip(ids.tolist(), counts.tolist()):
            scores[it] = scores.get(it, 0) + int(table[min(count, len(table) - 1), classes[it] if it < len(classes) else 0])
            have[it] = have.get(it, 0) + 1
    chosen = [it for it in scores if have[it] >= at_least] if among is None else among
    return sorted(((it, scores.get(it, 0)) for it in chosen), key=lambda it: (-it[1], it[0]))[:most]


def listed(answer):
    ids, scores = answer
    assert ids.dtype == np.uint32 and scores.dtype == np.uint64
    return list(zip(ids.tolist(), scores.tolist()))


@settings(max_examples=60)
@given(st.lists(arrays(600), max_size=5), st.data())
def test_as_a_scan(sets, data):
    random = np.random.default_rng(data.draw(st.integers(0, 2**32)))
    # Ids near each other, and some in all sets, so that documents have more than one word.
    most, shared = data.draw(st.sampled_from([50, 3000, 2**32])), data.draw(arrays(20))
    sets = [np.union1d(it, shared).astype("i8") % most for it in sets]
    sets = [np.unique(it).astype("u4") for it in sets]
    words = [(it, random.integers(0, 6, len(it)), table_of(random, data.draw(st.integers(1, 5)))) for it in sets]
    classes = random.integers(0, 256, data.draw(st.sampled_from([0, 40, 4000]))).astype("u1").tobytes()
    terms = [Term(*word, classes) for word in words]
    for at_least in range(len(words) + 2):
        for most in (0, 1, 10, 10**9):
            assert listed(best(terms, most, at_least)) == scanned(words, classes, max(at_least, 1), most)
    among = np.unique(np.concatenate([np.empty(0, "u4"), *sets, random.integers(0, 4000, 30)])[::2]).astype("u4")
    for form in (among, among.tolist(), IdSet(among), Query(among)):
        assert listed(best_among(form, terms, 7)) == scanned(words, classes, 1, 7, among.tolist())
    if terms:
        assert listed(best(terms * 2, 10)) == scanned(words * 2, classes, 1, 10)


def test_worked():
    """By hand: 300 for each time, less the class."""
    table = np.arange(5)[:, None] * (300 - np.arange(256))
    classes = bytes([0] * 9 + [100])
    ship, sea = Term([1, 4, 7], [2, 1, 1], table, classes), Term([4, 9], [1, 3], table, classes)
    assert listed(best([ship, sea], 3)) == [(1, 600), (4, 600), (9, 600)]
    assert listed(best(iter([ship, sea]), 3, at_least=2)) == [(4, 600)] == listed(best((sea, ship), 1, 2)[:2])
    assert listed(best_among([3, 4, 5], [ship], 2)) == [(4, 300), (3, 0)] and listed(best_among([3, 5, 9], [], 2)) == [(3, 0), (5, 0)]
    assert listed(best([], 5)) == [] == listed(best([ship], 0)) == listed(best([ship], 5, at_least=2))
    assert ship.documents == IdSet([1, 4, 7]) and repr(ship) == "<Term of 3 documents>"
    # Greater counts have the last row, and documents after the end of the classes class 0.
    assert listed(best([Term([9, 10], [99, 99], table, classes)], 5)) == [(10, 1200), (9, 800)]
    # Counts and tables in every form.
    again = [[2, 1, 1], iter([2, 1, 1]), np.array([2, 1, 1], "i2"), Column([2, 1, 1])]
    for counts in again:
        for form in (table, table.tolist(), np.asfortranarray(table), table.astype("u4"), table[::-1][::-1]):
            for its in (classes, bytearray(classes), np.frombuffer(classes, "u1"), memoryview(classes)):
                made = Term([1, 4, 7], counts, form, its)
                assert listed(best([made, ship], 1)) == [(1, 1200)]
                counts = [2, 1, 1]


def test_arguments_stay():
    """A term has copies, and no call changes what it was given."""
    table, counts, classes = np.arange(5)[:, None] * (300 - np.arange(256)), np.array([2, 1], "u4"), bytearray([0, 7])
    term, documents = Term([0, 1], counts, table, classes), np.array([0, 1], "u4")
    assert listed(best_among(documents, [term], 5)) == [(0, 600), (1, 293)]
    for it in (table, counts, documents):
        it[...] = 0
    classes[:] = b"\0\0"
    assert listed(best([term], 5)) == [(0, 600), (1, 293)]


@pytest.mark.parametrize(
    "change, error, text",
    [
        ({"counts": [1]}, Error, "more documents than counts, or fewer.*BadLength"),
        ({"counts": [1, 2, 3]}, Error, "BadLength"),
        ({"counts": [1, -1]}, OverflowError, "position 1: -1"),
        ({"counts": [1, 0.5]}, TypeError, "position 1: 0.5"),
        ({"counts": Column([1, None])}, ValueError, "missing"),
        ({"documents": [1, -1]}, OverflowError, "position 1: -1"),
        ({"documents": 5}, TypeError, "not iterable"),
        ({"table": np.zeros((0, 256), "u4")}, Error, "no row.*BadTable"),
        ({"table": np.zeros(256, "u4")}, Error, r"rows of 256, not \(256,\) of uint32.*BadTable"),
        ({"table": np.zeros((2, 255), "u4")}, Error, "rows of 256"),
        ({"table": np.zeros((2, 256))}, Error, "float64"),
        ({"table": None}, Error, "BadTable"),
        ({"table": np.arange(512).reshape(2, 256)}, Error, "above the first of its row"),
        ({"table": np.array([[2] * 256, [1] * 256])}, Error, "below that of the count before"),
        ({"table": np.full((2, 256), 2**32)}, OverflowError, "position 0: 4294967296"),
        ({"table": np.full((2, 256), -1)}, OverflowError, "position 0: -1"),
        ({"classes": [1, 2]}, TypeError, "bytes-like"),
        ({"classes": "ab"}, TypeError, "bytes-like"),
        ({"classes": np.zeros(2, "i8")}, TypeError, "classes are bytes"),
        ({"classes": np.zeros((2, 2), "u1")}, TypeError, "classes are bytes"),
    ],
)
def test_refused_terms(change, error, text):
    right = {"documents": [3, 5], "counts": [1, 2], "table": np.ones((2, 256), "u4"), "classes": b"ab"}
    assert len(best([Term(**right)], 9)[0]) == 2
    with pytest.raises(error, match=text):
        Term(**right | change)


def test_refused_calls():
    one, other = Term([3], [1], np.ones((2, 256), "u4")), Term([3], [1], np.ones((2, 256), "u4"), b"\1")
    for call in (lambda *its: best(*its), lambda *its: best_among([3], *its)):
        for terms, most, error, text in [
            ([one, 5], 3, TypeError, "position 1: 5 is not a Term"),
            ([IdSet()], 3, TypeError, "position 0: <IdSet"),
            (one, 3, TypeError, "not iterable"),
            ([one, other], 3, ValueError, "position 1: the term has other classes"),
            ([one], -1, ValueError, "most is below 0"),
            ([one], 1.5, TypeError, "integer"),
            ([one], None, TypeError, "integer"),
        ]:
            with pytest.raises(error, match=text):
                call(terms, most)
    with pytest.raises(ValueError, match="at_least is below 0"):
        best([one], 3, at_least=-1)
    for wrong, position in (([5, 3], 1), ([1, 2, 2, 7], 2), ([9, 8, 8], 1)):
        with pytest.raises(Error) as raised:
            best_among(wrong, [one], 3)
        assert (raised.value.fault, raised.value.position) == ("NotSorted", position)
    for wrong, error in (([-1], OverflowError), (["a"], TypeError), (5, TypeError), (b"12", TypeError)):
        with pytest.raises(error):
            best_among(wrong, [one], 3)
    assert len(best([one], 1 << 80, 1 << 80)[0]) == 0 and len(best([one], 1 << 80)[0]) == 1


def test_core_refuses_other_objects():
    """The C side takes nothing on trust."""
    ids, parts, made = np.array([3, 5], "u4"), np.ones(256, "u4"), Term([3], [1], np.ones((1, 256), "u4"))
    packed, wrongs = IdSet(ids), [np.arange(3), np.arange(3.0), np.arange(6, dtype="u4")[::2], b"1234", [1], None]
    for wrong in wrongs:
        for call in (lambda it: _core.term(Term, packed, it, parts, b""), lambda it: _core.term(Term, packed, ids, it, b"")):
            with pytest.raises((TypeError, ValueError, BufferError)):
                call(wrong)
        with pytest.raises((TypeError, ValueError, BufferError)):
            _core.best_among(wrong, (made,), b"", 1)
    for wrong in (int, IdSet, _core.Set, None, 5):
        with pytest.raises(TypeError):
            _core.term(wrong, packed, ids, parts, b"")
    with pytest.raises(TypeError):
        _core.term(Term, ids, ids, parts, b"")
    for wrong in ([made], (made, 5), (packed,), None, 5):
        for call in (lambda it: _core.best(it, b"", 1, 1), lambda it: _core.best_among(ids, it, b"", 1)):
            with pytest.raises((TypeError, SystemError)):
                call(wrong)
    assert len(_core.best((made,), b"", -5, -5)[0]) == 0 and len(_core.best((made,), b"", -5, 5)[0]) == 1
    for call in (_core.Term, lambda: object.__new__(Term), lambda: copy.copy(made), lambda: pickle.dumps(made)):
        with pytest.raises(TypeError):
            call()


@pytest.mark.parametrize("lengths", [[5], [0, 0], [3, 9, 4, 5], RANDOM.integers(0, 3000, 500), RANDOM.geometric(0.02, 5000)])
@pytest.mark.parametrize("k1, b", [(1.2, 0.75), (0, 0.5), (2, 0), (10, 1)])
def test_bm25(lengths, k1, b):
    """Exactly the formula for lengths of four binary digits, and nearly that for the lengths themselves."""
    lengths = np.array(lengths)
    ids = np.flatnonzero(RANDOM.random(len(lengths)) < 0.4)
    counts, total = RANDOM.integers(0, 9, len(ids)), len(lengths)
    model = BM25(lengths, k1, b)
    found = dict(listed(best([model.term(ids, counts)], total)))
    cut = [int(it) >> max(0, int(it).bit_length() - 4) << max(0, int(it).bit_length() - 4) for it in lengths]
    idf = math.log(1 + (total - len(ids) + 0.5) / (len(ids) + 0.5))
    for part, exact in ((cut, True), (lengths.tolist(), False)):
        mean = max(1, sum(part) / total)
        for it, count in zip(ids.tolist(), counts.tolist()):
            over = count + k1 * (1 - b + b * part[it] / mean)
            wanted = BM25.UNIT * idf * (k1 + 1) * count / over if count else 0
            assert abs(found[it] - wanted) <= (2 if exact else wanted / 8 + 2)
    assert len(found) == len(ids) and repr(model) == f"<BM25 of {total} documents>"


def test_bm25_ranks():
    """Two words together, beside a scan by numpy of their scores."""
    lengths = RANDOM.integers(1, 400, 30_000)
    model, scores, terms = BM25(lengths), np.zeros(len(lengths), "u8"), []
    for share in (0.5, 0.02, 0.3):
        ids = np.flatnonzero(RANDOM.random(len(lengths)) < share)
        counts = RANDOM.geometric(0.4, len(ids))
        terms.append(model.term(ids, counts))
        ids, parts = best([terms[-1]], len(lengths))
        scores[ids] += parts
    order = np.lexsort([np.arange(len(scores)), -scores.astype("i8")])[:50]
    assert listed(best(terms, 50)) == list(zip(order.tolist(), scores[order].tolist()))
    every = fimulowen.intersect(*(it.documents for it in terms))
    order = every[np.lexsort([every, -scores[every].astype("i8")])][:50]
    assert listed(best(terms, 50, at_least=3)) == list(zip(order.tolist(), scores[order].tolist())) == listed(best_among(every, terms, 50))


def test_bm25_limits():
    model = BM25([7] * 10)
    assert listed(best([model.term([], [])], 5)) == [] and BM25([]).term([], []).documents == IdSet()
    # Counts above 4,095 count as 4,095, and the greatest parts fit 32 bits.
    many = dict(listed(best([model.term([1, 2, 3], [4094, 4095, 10**9])], 5)))
    assert many[1] < many[2] == many[3]
    rare = BM25(np.full(1_000_000, 7), k1=10).term([5], [4095])
    assert listed(best([rare], 1))[0][1] > 1.4 * 10**9
    for wrong in ({"k1": -0.1}, {"k1": 10.1}, {"b": -0.1}, {"b": 1.1}, {"k1": math.nan}, {"b": math.nan}):
        with pytest.raises(ValueError, match="k1 is from 0 to 10"):
            BM25([1], **wrong)
    for wrong, error in (([-1], OverflowError), ([0.5], TypeError), (5, TypeError)):
        with pytest.raises(error):
            BM25(wrong)
    with pytest.raises(IndexError, match="document 10 has no length: there are 10"):
        model.term([3, 10], [1, 1])
    with pytest.raises(Error, match="BadLength"):
        model.term([3], [1, 1])


class Long:
    def __init__(self):
        self.ids = np.arange(0, 3_000_000, 3, dtype="u4")
        self.counts, self.table = np.random.default_rng(1).integers(0, 9, len(self.ids), "u4"), np.ones(4096 * 256, "u4")
        self.packed = IdSet(self.ids)
        steps = np.arange(9)[:, None] * (300 - np.arange(256))
        self.terms = (Term(self.packed, self.counts, steps), Term(self.ids + np.uint32(1), self.counts, steps))


@pytest.fixture(scope="module")
def long():
    return Long()


@pytest.mark.parametrize("name", ["term", "best", "best_among"])
def test_lock_is_released(name, long):
    calls = {
        "term": lambda: _core.term(Term, long.packed, long.counts, long.table, b""),
        "best": lambda: _core.best(long.terms, b"", 1, 1000),
        "best_among": lambda: _core.best_among(long.ids, long.terms, b"", 1000),
    }
    assert others_run(calls[name])


def test_threads(long):
    wanted, found = listed(best(long.terms, 20)), []
    threads = [threading.Thread(target=lambda: found.append(listed(best(long.terms, 20)))) for _ in range(8)]
    for it in threads:
        it.start()
    for it in threads:
        it.join()
    assert found == [wanted] * 8


def test_references():
    """A term holds its set, and gives it back."""
    packed, table = IdSet([3, 5]), np.ones((2, 256), "u4")
    counts = lambda: [sys.getrefcount(it) for it in (packed, Term, _core.Term)]
    before = counts()
    term = Term(packed, [1, 1], table)
    assert counts()[0] == before[0] + 1 and term.documents is packed
    del term
    for _ in range(100):
        Term(packed, [1, 1], table)
    assert counts() == before
