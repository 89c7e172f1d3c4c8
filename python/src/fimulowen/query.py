"""Trees of sets, whose ids are found part by part."""

from __future__ import annotations

import operator
from typing import Any, Callable, Generator, Iterator, List, Optional, SupportsIndex, Tuple, Type, Union

import numpy as np
import numpy.typing as npt

from .combining import intersect, subtract, symmetric_difference, unite
from .id_set import IdSet
from .values import Integers, fitted

# A set, or a call with its operands.
_Node = Union[IdSet, Tuple[Callable[..., np.ndarray], Tuple[Any, ...]]]
# A recursive call as `_run` runs it: it yields the calls that it waits for.
_Steps = Generator[Any, Any, Any]
_LEAST, _MOST, _FEW, _MANY = 1 << 16, 1 << 24, 1 << 12, 1 << 17
_CALLS = {
    intersect: IdSet.intersection,
    unite: IdSet.union,
    subtract: IdSet.difference,
    symmetric_difference: IdSet.symmetric_difference,
}
_SIGNS = {intersect: "&", unite: "|", subtract: "-", symmetric_difference: "^"}


class Query:
    """Which ids are wanted: the ids of a set, or of sets that are joined by `&`, `|`, `-` and `^`. An operand is a query, a set, an array or
    another iterable of ids.

    It finds nothing before it is asked, and then its ids part by part: the first ones of a long answer come at once, and take little memory. If all ids
    are wanted, the operators of sets are faster."""

    __slots__ = ("_node",)
    __array_ufunc__ = None  # array & query must not be a bitwise AND of numbers

    def __init__(self, ids: Integers):
        self._node: _Node = ids._node if isinstance(ids, Query) else IdSet._operand(ids)

    def __and__(self, other: Integers) -> Query:
        return _joined(intersect, self, other)

    def __or__(self, other: Integers) -> Query:
        return _joined(unite, self, other)

    def __sub__(self, other: Integers) -> Query:
        return _joined(subtract, self, other)

    def __xor__(self, other: Integers) -> Query:
        return _joined(symmetric_difference, self, other)

    def __rsub__(self, other: Integers) -> Query:
        return _joined(subtract, other, self)

    __rand__, __ror__, __rxor__ = __and__, __or__, __xor__

    def parts(self, start: SupportsIndex = 0) -> Iterator[npt.NDArray[np.uint32]]:
        """The ids from `start` on, as arrays that follow one another, none of which is empty."""
        low, width, end = max(0, operator.index(start)), _LEAST, _run(_end(self._node))
        while low < end:
            found = _run(_within(self._node, low, low + width))
            if len(found):
                yield found
            low += width
            width = min(4 * width, _MOST) if len(found) < _FEW else max(width // 4, _LEAST) if len(found) > _MANY else width

    def __iter__(self) -> Iterator[int]:
        for part in self.parts():
            yield from part.tolist()

    def seek(self, target: SupportsIndex) -> Optional[int]:
        """The first id that is at least the target, or None."""
        for part in self.parts(target):
            return int(part[0])
        return None

    def __len__(self) -> int:
        return sum(map(len, self.parts()))

    def __bool__(self) -> bool:
        return self.seek(0) is not None

    def unpack(self) -> npt.NDArray[np.uint32]:
        """All ids, as an array."""
        return np.concatenate([np.empty(0, "u4"), *self.parts()])

    def pack(self) -> IdSet:
        """All ids, as a set. Error if there are more than 268,435,456, or if a part of the query has more."""
        return _run(_packed(self._node))

    def __array__(self, dtype: npt.DTypeLike = None, copy: Optional[bool] = None) -> np.ndarray:
        if copy is False:
            raise ValueError("the ids of a query are found anew")
        return fitted(self.unpack(), np.dtype("u4" if dtype is None else dtype))

    def __repr__(self) -> str:
        return f"<Query of {_shown(self._node, 2)}>"

    def __reduce__(self) -> Tuple[Any, ...]:
        return _query_of, (type(self), _postfix(self._node)), getattr(self, "__dict__", None)


def _joined(call: Callable[..., np.ndarray], one: Any, other: Any) -> Any:
    """A query of two operands. Those of a chain, as `a | b | c`, are operands of one call."""
    if not hasattr(one, "__iter__") or not hasattr(other, "__iter__"):
        return NotImplemented
    first, last, made = Query(one)._node, Query(other)._node, Query(())
    before = first[1] if not isinstance(first, IdSet) and first[0] is call else (first,)
    made._node = (call, (*before, last))
    return made


def _run(steps: _Steps) -> Any:
    """What a recursive call returns. A list has the calls that wait, so that a query may have any depth."""
    waiting, answer = [steps], None
    while waiting:
        try:
            waiting.append(waiting[-1].send(answer))
            answer = None
        except StopIteration as done:
            waiting.pop()
            answer = done.value
    return answer


def _end(node: _Node) -> _Steps:
    """A number above all ids of the node."""
    if isinstance(node, IdSet):
        return node.max() + 1 if node else 0
    call, operands = node
    ends = []
    for it in operands:
        ends.append(it.max() + 1 if isinstance(it, IdSet) and it else (yield _end(it)))
    return min(ends) if call is intersect else ends[0] if call is subtract else max(ends)


def _within(node: _Node, low: int, high: int) -> _Steps:
    """The ids of the node from `low` up to `high`."""
    if isinstance(node, IdSet):
        return node.range(low, high)
    call, operands = node
    if call is intersect:
        # The first operand is the only set that is cut to the range: the shortest, if there is no tree.
        operands = tuple(sorted(operands, key=lambda it: len(it) if isinstance(it, IdSet) else -1))
    is_cut, found = call in (intersect, subtract), []
    for it in operands:
        if is_cut and found and not found[0]:
            return found[0].unpack()
        if not isinstance(it, IdSet):
            found.append(IdSet._packed((yield _within(it, low, high))))
        else:
            found.append(it if is_cut and found else IdSet._packed(it.range(low, high)))
    return call(*found)


def _packed(node: _Node) -> _Steps:
    """The set of the node."""
    if isinstance(node, IdSet):
        return node
    call, operands = node
    sets = []
    for it in operands:
        sets.append(it if isinstance(it, IdSet) else (yield _packed(it)))
    return _CALLS[call](*sets)


def _postfix(node: _Node) -> List[Any]:
    """Each set of the node, and after its operands each call with their number."""
    steps: List[Any] = []
    waiting = [node]
    while waiting:
        it = waiting.pop()
        if isinstance(it, IdSet):
            steps.append(it)
        else:
            steps.append((it[0], len(it[1])))
            waiting.extend(it[1])
    return steps[::-1]


def _query_of(kind: Type[Query], steps: List[Any]) -> Query:
    """The query of the steps that `_postfix` returns."""
    made, waiting = kind(()), []
    for it in steps:
        first = len(waiting) - it[1] if isinstance(it, tuple) else len(waiting)
        operands = tuple(waiting[first:])
        waiting[first:] = [(it[0], operands) if operands else it]
    made._node = waiting[0]
    return made


def _shown(node: _Node, levels: int) -> str:
    """The first operands of the node, and of some levels below it."""
    if isinstance(node, IdSet):
        return f"{len(node)} ids"
    shown = [_shown(it, 0) if isinstance(it, IdSet) else f"({_shown(it, levels - 1)})" if levels else ".." for it in node[1][:4]]
    return f" {_SIGNS[node[0]]} ".join(shown) + " .." * (len(node[1]) > 4)
