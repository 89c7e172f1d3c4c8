"""AND, OR, NOT and XOR beside the sets of Python, of ids of 32 and of 64 bits."""

import functools
import operator

import fimulowen
import numpy as np
import pytest
from fimulowen import Error, IdSet, IdSet64, Query
from hypothesis import given, settings
from hypothesis import strategies as st

from test_id_set import MOST, arrays
from wide_ids import KINDS, drawn, full

OPERATORS = (operator.and_, operator.or_, operator.sub, operator.xor)


def kept(ids):
    return ids


def dense(ids):
    """Ids around 2^32, with many of each high word."""
    return np.asarray(ids, "u8") + np.uint64(2**32 - 100_000)


def spread(ids):
    """Each id in a high word of its own, up to 2^64 - 1."""
    return np.asarray(ids, "u8") * np.uint64(2**32 + 1)


# The class of sets, and its ids in place of those of 32 bits, in the same order.
SIZES = [(IdSet, kept), (IdSet64, dense), (IdSet64, spread)]
each_size = pytest.mark.parametrize("kind, ids_of", SIZES, ids=lambda it: it.__name__)


@each_size
@given(ids=st.lists(arrays(), min_size=1, max_size=5))
def test_any_number(kind, ids_of, ids):
    ids = [*map(ids_of, ids)]
    packed, sets = [kind(it) for it in ids], [set(it.tolist()) for it in ids]
    every, some, odd = (sorted(functools.reduce(call, sets)) for call in (operator.and_, operator.or_, operator.xor))
    alone = sorted(sets[0].difference(*sets[1:]))
    assert fimulowen.intersect(*packed).tolist() == every and fimulowen.intersect_len(*packed) == len(every)
    assert fimulowen.unite(*packed).tolist() == some and fimulowen.unite_len(*packed) == len(some)
    assert fimulowen.subtract(*packed).tolist() == alone and fimulowen.subtract_len(*packed) == len(alone)
    assert fimulowen.symmetric_difference(*packed).tolist() == odd and fimulowen.symmetric_difference_len(*packed) == len(odd)
    for call in OPERATORS:
        found = functools.reduce(call, packed)
        assert type(found) is kind and found == kind(functools.reduce(call, sets))


@each_size
@given(one=arrays(), other=arrays(), within=st.booleans())
def test_two(kind, ids_of, one, other, within):
    one, other = ids_of(one), ids_of(np.union1d(one, other) if within else other)
    a, b, x, y = kind(one), kind(other), set(one.tolist()), set(other.tolist())
    assert (a == b, a != b, a <= b, a < b, a >= b, a > b) == (x == y, x != y, x <= y, x < y, x >= y, x > y)
    assert (a.issubset(b), a.issuperset(b), a.isdisjoint(b)) == (x <= y, x >= y, x.isdisjoint(y))
    assert (a.issubset(other), a.issuperset(y), a.isdisjoint(iter(y))) == (x <= y, x >= y, x.isdisjoint(y))
    assert (hash(a) == hash(b)) == (x == y)


@pytest.mark.parametrize("kind, ids_of", SIZES[::2])
@settings(max_examples=20)
@given(one=arrays(500), other=arrays(500))
def test_operands(kind, ids_of, one, other):
    """Sets with arrays and iterables, on either side."""
    one, other = ids_of(one), ids_of(other)
    packed, wanted = kind(one), {call: sorted(call(set(one.tolist()), set(other.tolist()))) for call in OPERATORS}
    mirrored = wanted | {operator.sub: sorted(set(other.tolist()) - set(one.tolist()))}
    forms = [lambda: other, other[::-1].copy, other.tolist, lambda: set(other.tolist()), lambda: iter(other.tolist()), lambda: kind(other)]
    for form in forms:
        for call in OPERATORS:
            assert list(call(packed, form())) == wanted[call] and list(call(form(), packed)) == mirrored[call]
            assert type(call(form(), packed)) is kind
    assert fimulowen.intersect(one, other[::-1], packed).tolist() == wanted[operator.and_]
    for changed, call in zip((operator.iand, operator.ior, operator.isub, operator.ixor), OPERATORS):
        assert list(changed(packed, other)) == wanted[call] and packed == kind(one)


@each_size
def test_long(kind, ids_of):
    one, other = [ids_of(np.unique(np.random.default_rng(seed).integers(0, 1 << 20, 200_000)).astype("u4")) for seed in (1, 2)]
    a, b = kind(one), kind(other)
    assert (fimulowen.intersect(a, b) == np.intersect1d(one, other)).all() and a & b == kind(np.intersect1d(one, other))
    assert (fimulowen.unite(a, b) == np.union1d(one, other)).all() and (fimulowen.subtract(a, b) == np.setdiff1d(one, other)).all()
    assert (fimulowen.symmetric_difference(a, b) == np.setxor1d(one, other)).all()
    assert (a | b) - a == b - a and fimulowen.intersect_len(a, b) == len(a & b)
    assert (a - b).isdisjoint(b) and (a & b) <= a <= (a | b) and not a.isdisjoint(b)


# Sets in each form: none, one, few, an array, and chunks of numbers, of bitmaps and of runs, with full ones.
FORMS = {
    "none": [],
    "one": [70_000],
    "few": range(5, 127_000, 1000),
    "array": range(7, 60_000_000, 65_537),
    "numbers": range(3, 2_700_000, 300),
    "bitmaps": range(0, 200_000, 5),
    "runs": [400 * at + it for at in range(1000) for it in range(100)],
    "gaps": [at for at in range(300_000) if at % 999],
    "full": range(65_536, 3 * 65_536),
    "the last": range(MOST - 140_000, MOST + 1),
}


def checked(call, kind, a, b, x, y):
    """Two sets are combined to the bytes of the answer, of two arrays."""
    found = call(a, b)
    find = dict(zip(OPERATORS, (np.intersect1d, np.union1d, np.setdiff1d, np.setxor1d)))[call]
    assert type(found) is kind and found.tobytes() == kind(find(x, y)).tobytes() == kind.open(found.tobytes()).tobytes()


@pytest.mark.parametrize("one", FORMS)
def test_forms(one):
    """The operators write the bytes that packing writes, whatever forms the sets and the answer have."""
    for kind, ids_of in SIZES:
        x = ids_of(np.array(FORMS[one], "u4"))
        for other in FORMS:
            y = ids_of(np.array(FORMS[other], "u4"))
            a, b = kind(x), kind(y)
            for call in OPERATORS:
                checked(call, kind, a, b, x, y)


def test_wide_shapes():
    """Sets of the kinds that users have, in both forms, beside one another."""
    random = np.random.default_rng(7)
    for one in KINDS:
        for other in KINDS:
            for counts in ((1, 300), (300, 7), (129, 9000), (20_000, 5000)):
                x, y = drawn(random, one, counts[0]), drawn(random, other, counts[1])
                y = np.union1d(y, x[random.random(len(x)) < 0.5])
                a, b = IdSet64(x), IdSet64(y)
                for call in OPERATORS:
                    checked(call, IdSet64, a, b, x, y)
                assert (a <= b, a.isdisjoint(b)) == (np.isin(x, y).all(), not np.isin(x, y).any())


def test_too_long():
    """An answer with more ids than a set may have is refused before there is memory for it. It can be counted."""
    a, b = full(0), full(2**32 - 1)
    for call in (operator.or_, operator.xor, IdSet64.union, lambda a, b: IdSet64([2**40]) | a | b):
        with pytest.raises(Error, match="TooLong"):
            call(a, b)
    assert fimulowen.unite_len(a, b) == 2**29 == fimulowen.symmetric_difference_len(a, b) and fimulowen.subtract_len(a, b) == 2**28
    assert a.isdisjoint(b) and fimulowen.intersect_len(a, b) == 0 and a <= full(0) and not a <= b and a.jaccard(full(0)) == 1


@each_size
def test_many(kind, ids_of):
    """Any number of sets to a set, beside the sets of Python."""
    chance = np.random.default_rng(11)
    for count in (1, 2, 3, 4, 7, 30):
        forms = [ids_of(np.array(FORMS[it], "u4")) for it in chance.choice(list(FORMS), count)]
        (first, *rest), (one, *others) = [set(it.tolist()) for it in forms], [kind(it) for it in forms]
        odd = set(first)
        for it in rest:
            odd ^= it
        for call, wanted in (
            (kind.intersection, first.intersection(*rest)),
            (kind.union, first.union(*rest)),
            (kind.difference, first.difference(*rest)),
            (kind.symmetric_difference, odd),
        ):
            found = call(one, *others)
            assert type(found) is kind and found.tobytes() == kind(sorted(wanted)).tobytes(), (count, call)
    assert kind([1, 5]).union([7], iter([3]), range(9, 11)) == kind([1, 3, 5, 7, 9, 10])
    with pytest.raises(TypeError):
        kind().union(5)


def test_subclass():
    """An answer is of no subclass, also if there is only one set."""
    for kind in (IdSet, IdSet64):
        mine = type("Mine", (kind,), {})([1, 5])
        for found in (mine & [1], [5] - mine, mine.union(), mine.difference([1]), mine | mine):
            assert type(found) is kind and found <= mine


def test_more_bytes_than_both():
    """A chunk without gaps has few bytes, and without many ids it has thousands."""
    full, some = IdSet(range(1 << 22)), IdSet(np.cumsum(np.random.default_rng(5).integers(1, 40, 200_000)))
    left = full - some
    assert left.nbytes > 100_000 and left == IdSet(np.setdiff1d(full.unpack(), some.unpack())) and (left | (some & full)) == full
    ends = IdSet(range(0, 1 << 22, 2))
    assert full - ends == full ^ ends == IdSet(range(1, 1 << 22, 2))


def test_none():
    for call in (fimulowen.intersect, fimulowen.unite, fimulowen.subtract, fimulowen.symmetric_difference):
        assert call(IdSet64()).dtype == np.uint64 == call((), IdSet64()).dtype and call(IdSet64([5])).tolist() == [5]
    for call in (fimulowen.intersect, fimulowen.unite, fimulowen.symmetric_difference):
        assert call().size == 0
    assert fimulowen.intersect_len() == fimulowen.unite_len() == fimulowen.symmetric_difference_len() == 0
    for call in (fimulowen.subtract, fimulowen.subtract_len):
        with pytest.raises(TypeError):
            call()


@pytest.mark.parametrize("kind", [IdSet, IdSet64])
def test_refused(kind):
    packed = kind([1])
    for other in (1, None, 1.5, np.uint32(3)):
        for call in OPERATORS:
            with pytest.raises(TypeError):
                call(packed, other)
            with pytest.raises(TypeError):
                call(other, packed)
        for call in (fimulowen.intersect, fimulowen.unite_len, fimulowen.subtract, fimulowen.symmetric_difference_len):
            with pytest.raises(TypeError):
                call(packed, other)
    for other in ([1.5], "a", [None], b"1"):
        for call in OPERATORS:
            with pytest.raises(TypeError):
                call(packed, other)
    for other in ([-1], [1 << 32 if kind is IdSet else 1 << 64]):
        with pytest.raises(OverflowError):
            packed & other
    for call in (operator.lt, operator.le, operator.gt, operator.ge):
        with pytest.raises(TypeError):
            call(packed, [1])


def test_two_sizes():
    """Ids of 32 and of 64 bits are not combined: the error names both classes."""
    small, wide, query = IdSet([1, 5]), IdSet64([1, 5]), Query([5])
    for call in (*OPERATORS, operator.lt, operator.le, operator.gt, operator.ge):
        for one, two in ((small, wide), (wide, small)):
            with pytest.raises(TypeError, match="(?=.*'IdSet')(?=.*'IdSet64')"):
                call(one, two)
    for call in (IdSet.union, IdSet.isdisjoint, IdSet.issubset, IdSet.issuperset, IdSet.jaccard):
        with pytest.raises(TypeError, match="an IdSet expected, not IdSet64$"):
            call(small, wide)
    for call in (IdSet64.union, IdSet64.isdisjoint, IdSet64.issubset, IdSet64.issuperset, IdSet64.jaccard, fimulowen.unite):
        with pytest.raises(TypeError, match=r"an IdSet64 expected, not IdSet: IdSet64\(ids\) converts it"):
            call(wide, small)
        with pytest.raises(TypeError, match="an IdSet64 expected, not Query"):
            call(wide, query)
    for call in OPERATORS:
        for one, two in ((query, wide), (wide, query)):
            with pytest.raises(TypeError, match="an IdSet expected, not IdSet64"):
                call(one, two)
    with pytest.raises(TypeError, match="an IdSet expected, not IdSet64"):
        Query(wide)
    assert wide | IdSet64(small) == wide == wide & [1, 5] and fimulowen.unite_len([2**40], wide) == 3


def test_core_refuses():
    """The C side takes no set and no class on trust."""
    core, packed = fimulowen._core, IdSet64([1])
    for call in (core.wide_combine, core.wide_count, lambda *given: core.wide_join(IdSet64, *given)):
        for wrong in (
            (4, packed, packed),
            (-1, packed, packed),
            (0, packed, IdSet([1])),
            (0, [1], packed),
            (0, packed),
            (None, packed, packed),
        ):
            with pytest.raises((TypeError, ValueError)):
                call(*wrong)
    for wrong in (IdSet, int, 5):
        with pytest.raises(TypeError):
            core.wide_join(wrong, 0, packed, packed)
    for wrong in (IdSet([1]), [1], None):
        with pytest.raises(TypeError):
            packed._is_disjoint(wrong)


@pytest.mark.parametrize("kind", [IdSet, IdSet64])
def test_results_hold_no_more_than_they_need(kind):
    one, other = kind(range(0, 2_000_000, 2)), kind(range(1, 2_000_000, 1999))
    found = fimulowen.intersect(one, other)
    base = found.base if found.base is not None else found
    assert 0 < len(found) and base.nbytes <= 2 * found.nbytes
