"""Lazy trees of sets beside the sets of Python."""

import copy
import operator
import pickle

import fimulowen
import numpy as np
import pytest
from fimulowen import IdSet, Query
from hypothesis import given, settings
from hypothesis import strategies as st

from test_id_set import arrays

OPERATORS = (operator.and_, operator.or_, operator.sub, operator.xor)
FORMS = (IdSet, Query, lambda it: it, lambda it: it.tolist(), lambda it: set(it.tolist()))


def leaves():
    """A set as a query or another operand, and as a set of Python."""
    return st.tuples(arrays(800), st.sampled_from(FORMS)).map(lambda it: (it[1](it[0]), set(it[0].tolist())))


def trees():
    """A query, and what it wants as a set of Python. One operand at least is lazy."""
    lazy = arrays(800).map(lambda it: (Query(it), set(it.tolist())))
    return st.recursive(lazy, lambda it: st.tuples(st.sampled_from(OPERATORS), it, it | leaves(), st.booleans()).map(join), max_leaves=8)


def join(given_tree):
    call, one, other, is_mirrored = given_tree
    if is_mirrored:
        one, other = other, one
    return call(one[0], other[0]), call(one[1], other[1])


@settings(max_examples=50)
@given(trees(), st.integers(-5, 2**32 + 5))
def test_trees(tree, target):
    query, wanted = tree[0], sorted(tree[1])
    assert type(query) is Query and list(query) == wanted == query.unpack().tolist() and len(query) == len(wanted)
    assert bool(query) == bool(wanted) and IdSet(query) == query.pack() == IdSet(wanted) and type(query.pack()) is IdSet
    for target in (target, *wanted[:2], *wanted[-2:]):
        assert query.seek(target) == min((it for it in wanted if it >= target), default=None)
        assert np.concatenate([[0], *query.parts(target)])[1:].tolist() == [it for it in wanted if it >= target]
    assert all(len(part) for part in query.parts())


def test_is_lazy(monkeypatch):
    """The first ids of a long answer are found by few calls, and chains of any length by no recursion."""
    one, other = IdSet(range(0, 1 << 23, 2)), IdSet(range(0, 1 << 23, 3))
    found, original = [], fimulowen.combining.combined
    monkeypatch.setattr(fimulowen.combining, "combined", lambda *given_calls: found.append(1) or original(*given_calls))
    query = Query(one) & other
    assert not found and query.seek(6_000_001) == 6_000_006 and len(found) == 1
    assert len(next(query.parts())) == (1 << 16) // 6 + 1 and len(found) == 2
    chain = Query(())
    for at in range(3000):
        chain = chain | [at]
    assert len(chain) == 3000


def test_any_depth():
    """No call on a query recurses with its depth."""
    query, other = Query([5, 70_000]), IdSet([5, 6, 70_000])
    for _ in range(5000):
        query = (query | [6]) - [7]
    deep = other & query ^ [9]
    assert list(deep) == [5, 6, 9, 70_000] == deep.unpack().tolist() and len(deep) == 4 and deep.seek(7) == 9 and bool(deep)
    assert np.asarray(deep).tolist() == list(deep) == list(IdSet(deep)) and repr(deep) == "<Query of ((.. - 1 ids) & 3 ids) ^ 1 ids>"
    for again in (pickle.loads(pickle.dumps(deep)), copy.copy(deep), copy.deepcopy(deep)):
        assert list(again) == [5, 6, 9, 70_000] and type(again) is Query
    del deep, query, again


def test_represented():
    assert repr(Query([1, 2])) == "<Query of 2 ids>"
    assert repr(Query([]) | [1] | [2, 3] | [] | [5]) == "<Query of 0 ids | 1 ids | 2 ids | 0 ids ..>"
    assert repr(((Query([1]) | [2]) - IdSet([2])) & (Query([7]) ^ [8])) == "<Query of ((1 ids | 1 ids) - 1 ids) & (1 ids ^ 1 ids)>"


@settings(max_examples=20)
@given(trees())
def test_copies(tree):
    query, wanted = tree[0], sorted(tree[1])
    for again in (pickle.loads(pickle.dumps(query, 5)), copy.deepcopy(query)):
        assert list(again) == wanted and repr(again) == repr(query)


def test_parts_grow(monkeypatch):
    """Few calls find few ids, however far apart: the parts grow up to 2**24. Those of many ids do not."""
    found, original = [], fimulowen.combining.combined
    monkeypatch.setattr(fimulowen.combining, "combined", lambda *calls: found.append(1) or original(*calls))
    query = Query([0, 2**32 - 1]) | [7]
    assert [it.tolist() for it in query.parts()] == [[0, 7], [2**32 - 1]] and 256 <= len(found) <= 264
    found.clear()
    assert [len(it) for it in (Query(range(1 << 20)) | []).parts()] == [1 << 16] * 16 and len(found) == 16


def test_refused():
    query = Query([1, 2])
    for wrong in (1, None, 1.5):
        for call in OPERATORS:
            with pytest.raises(TypeError):
                call(query, wrong)
            with pytest.raises(TypeError):
                call(wrong, query)
        with pytest.raises(TypeError):
            Query(wrong)
    for wrong in ("a", None):
        with pytest.raises(TypeError):
            query.seek(wrong)
    with pytest.raises(OverflowError):
        query | [-1]
    with pytest.raises(ValueError):
        query.__array__(copy=False)
    assert query.seek(1 << 70) is None and query.seek(-(1 << 70)) == 1
