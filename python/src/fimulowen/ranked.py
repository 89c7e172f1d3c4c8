"""Ranked search: the documents with the greatest scores, which add up what each word is worth."""

from __future__ import annotations

import operator
from typing import Any, Iterable, List, SupportsIndex, Tuple, Union

import numpy as np
import numpy.typing as npt

from . import _core, waiting
from .combining import intersect
from .errors import Error
from .id_set import IdSet
from .query import Query
from .values import Bytes, Integers, u32

CLASSES = 256
_ROWS = 4096
Ranked = Tuple[npt.NDArray[np.uint32], npt.NDArray[np.uint64]]


class Term(_core.Term):
    """A word of a query: the documents that have it, how often each of them does, and what this adds to the score of a document.

    `table` is an array of integers with a row for each count from 0 on, which the last row also serves for greater counts, and in it 256 parts,
    one for each class of the lengths of documents. `classes` has the class of each document, by its id, as bytes; documents after their end have
    class 0, which is for the shortest. No part is above the first of its row, or below the part of the count before.

        >>> table = np.arange(5)[:, None] * (300 - np.arange(256))
        >>> Term([1, 4, 7], [2, 1, 1], table)
        <Term of 3 documents>

    `BM25` makes terms with their tables. Make a term once and use it in many queries: it copies counts and table. Error with the fault BadLength
    if there are more documents than counts, or fewer, or BadTable."""

    __slots__ = ("_classes",)
    _classes: bytes

    def __new__(cls, documents: Integers, counts: Integers, table: npt.ArrayLike, classes: Bytes = b"") -> Term:
        its = _bytes_of(classes)
        made: Any = _core.term(cls, IdSet._operand(documents), u32(counts), _rows_of(table), its)
        made._classes = its
        return made

    def __repr__(self) -> str:
        return f"<Term of {len(self.documents)} documents>"


class BM25:
    """Scores by BM25: makes the terms of documents with these lengths, in words. `lengths[id]` is that of a document.

        >>> model = BM25([3, 9, 4, 5])
        >>> ship, sea = model.term([0, 3], [1, 2]), model.term([1, 3], [1, 1])
        >>> ids, scores = best([ship, sea], 10)
        >>> ids.tolist(), (scores / BM25.UNIT).round(2).tolist()
        ([3, 0, 1], [1.67, 0.84, 0.54])

    A word that n of N documents have, one of them c times, adds to its score

        log(1 + (N - n + 0.5) / (n + 0.5)) * (k1 + 1) * c / (c + k1 * (1 - b + b * length / mean))

    in units of a ten-millionth, rounded down. A length counts with its four highest binary digits: 0 to 15 as they are, 16 to 31 in twos, and so on. The
    mean is that of these lengths. A count above 4,095 counts as 4,095.

    ValueError if k1 is not from 0 to 10, or b from 0 to 1."""

    UNIT = 10_000_000

    def __init__(self, lengths: Integers, k1: float = 1.2, b: float = 0.75):
        if not (0 <= k1 <= 10 and 0 <= b <= 1):
            raise ValueError(f"k1 is from 0 to 10, and b from 0 to 1, not {k1} and {b}")
        classes = _classes_of(u32(lengths))
        known = _least_of(np.arange(CLASSES))
        mean = max(1.0, float(known[classes].mean())) if len(classes) else 1.0
        self._classes, self._norms, self._weight = classes.tobytes(), k1 * (1 - b + b * known / mean), self.UNIT * (k1 + 1)

    def term(self, documents: Integers, counts: Integers) -> Term:
        """The term of a word that these documents have, each as often as its count says. IndexError if a document has no length. Error, with the
        fault BadLength, if there are more documents than counts, or fewer."""
        ids, often, number = IdSet._operand(documents), u32(counts), len(self._classes)
        if len(ids) and ids[-1] >= number:
            raise IndexError(f"document {ids[-1]} has no length: there are {number}")
        weight = self._weight * np.log(1 + (number - len(ids) + 0.5) / (len(ids) + 0.5))
        table = np.zeros((min(int(often.max(initial=0)), _ROWS - 1) + 1, CLASSES), "=u4")
        table[1:] = weight / (1 + self._norms / np.arange(1, len(table))[:, None])
        return Term(ids, often, table, self._classes)

    def __repr__(self) -> str:
        return f"<BM25 of {len(self._classes)} documents>"


def best(terms: Iterable[Term], most: SupportsIndex, at_least: SupportsIndex = 1) -> Ranked:
    """The documents with the greatest scores of those that have at least `at_least` of the words: their ids and their scores, as two arrays, the best
    document first, and `most` at most. Of two with the same score the one with the lower id is first.

        >>> model = BM25([3, 9, 4, 5])
        >>> ids, scores = best([model.term([0, 3], [1, 2]), model.term([1, 3], [1, 1])], 10, at_least=2)
        >>> ids.tolist()
        [3]

    An `at_least` of 1 or 0 is a query by OR, and one of `len(terms)` by AND. A call takes time for each of `most`: ask for pages, and not for all.
    ValueError if the terms have other classes than the first, or a number is below 0."""
    rarest, classes = _rarest_first(terms)
    wanted, needed = _not_below_0("most", most), _not_below_0("at_least", at_least)
    if len(rarest) > 1 and needed == len(rarest):
        # Few documents have all words, and all sets are intersected faster than the counts of one word are read.
        return _among(intersect(*(it.documents for it in rarest)), rarest, classes, wanted)
    return waiting.run(_documents(rarest), _core.best, rarest, classes, min(needed, len(rarest) + 1), wanted)


def best_among(documents: Union[Integers, Query], terms: Iterable[Term], most: SupportsIndex) -> Ranked:
    """The documents with the greatest scores of the given ones, which increase, such as a set, or the answer to any query. A document that has
    none of the words has score 0. The answer is as that of `best`.

        >>> ship = BM25([3, 9, 4, 5]).term([0, 3], [1, 2])
        >>> ids, scores = best_among(Query([0, 1, 3]) - [0], [ship], 10)
        >>> ids.tolist(), scores.tolist()[1:]
        ([3, 1], [0])

    Error, with the fault NotSorted and its position, if a document is not above the one before it."""
    return _among(u32(documents), *_rarest_first(terms), _not_below_0("most", most))


def _among(documents: npt.NDArray[np.uint32], terms: Tuple[Term, ...], classes: bytes, most: int) -> Ranked:
    try:
        return waiting.run(len(documents) + _documents(terms), _core.best_among, documents, terms, classes, most)
    except Error as why:
        at = np.flatnonzero(documents[1:] <= documents[:-1]) + 1
        raise Error(why.text, why.fault, position=int(at[0]) if len(at) else None) from None


def _rarest_first(terms: Iterable[Term]) -> Tuple[Tuple[Term, ...], bytes]:
    """The terms, those of few documents first, and their classes."""
    every: List[Any] = list(terms)
    for at, it in enumerate(every):
        if not isinstance(it, Term):
            raise TypeError(f"position {at}: {it!r} is not a Term")
        if it._classes is not every[0]._classes and it._classes != every[0]._classes:
            raise ValueError(f"position {at}: the term has other classes of documents than the first")
    return tuple(sorted(every, key=lambda it: len(it.documents))), every[0]._classes if every else b""


def _documents(terms: Tuple[Term, ...]) -> int:
    return sum(len(it.documents) for it in terms)


def _not_below_0(name: str, number: SupportsIndex) -> int:
    """A number, which is at most 2^62."""
    value = operator.index(number)
    if value < 0:
        raise ValueError(f"{name} is below 0")
    return min(value, 1 << 62)


def _rows_of(table: npt.ArrayLike) -> npt.NDArray[np.uint32]:
    """The parts of a table, one row after another."""
    rows = np.asarray(table)
    if rows.ndim != 2 or rows.shape[1] != CLASSES or rows.dtype.kind not in "iu":
        raise Error(f"The table is an array of integers in rows of {CLASSES}, not {rows.shape} of {rows.dtype}.", "BadTable")
    return u32(rows.ravel())


def _bytes_of(classes: Bytes) -> bytes:
    view = memoryview(classes)
    if view.ndim != 1 or view.itemsize != 1:
        raise TypeError("classes are bytes, one for each document")
    return classes if type(classes) is bytes else view.tobytes()


def _classes_of(lengths: npt.NDArray[np.uint32]) -> npt.NDArray[np.uint8]:
    """The class of each length: that of its four highest binary digits."""
    shift = np.maximum(np.frexp(lengths.astype("f8"))[1] - 4, 0).astype("=u4")
    return (8 * shift + (lengths >> shift)).astype("u1")


def _least_of(classes: npt.NDArray[Any]) -> npt.NDArray[np.float64]:
    """The least length of each class."""
    return np.where(classes < 8, classes, np.ldexp(8.0 + classes % 8, classes // 8 - 1))
