"""AND, OR, NOT and XOR of any number of sets, to an array or to a count. If one of them is an IdSet64, the array has ids of uint64, and no other is an
IdSet."""

from __future__ import annotations

from typing import Any, Sequence, Tuple

import numpy.typing as npt

from .id_set import IdSet
from .id_set64 import IdSet64
from .ids import INTERSECT, SUBTRACT, UNITE, XOR
from .values import Integers


def intersect(*sets: Integers) -> npt.NDArray[Any]:
    """The ids that all sets have, as an array."""
    return combined(INTERSECT, sets)


def unite(*sets: Integers) -> npt.NDArray[Any]:
    """The ids that any set has, as an array, each once."""
    return combined(UNITE, sets)


def subtract(first: Integers, *others: Integers) -> npt.NDArray[Any]:
    """The ids that only the first set has, as an array."""
    return combined(SUBTRACT, (first, *others))


def symmetric_difference(*sets: Integers) -> npt.NDArray[Any]:
    """The ids that an odd number of the sets have, as an array: of two sets, those that one of them has."""
    *before, last = _sets(sets or ((),))
    return combined(XOR, (before[0].symmetric_difference(*before[1:]), last)) if before else last.unpack()


def intersect_len(*sets: Integers) -> int:
    """How many ids all sets have."""
    return counted(INTERSECT, sets)


def unite_len(*sets: Integers) -> int:
    """How many ids any set has."""
    return counted(UNITE, sets)


def subtract_len(first: Integers, *others: Integers) -> int:
    """How many ids only the first set has."""
    one, *rest = _sets((first, *others))
    return len(one) - intersect_len(one, *rest) if len(rest) == 1 else unite_len(one, *rest) - unite_len(*rest)


def symmetric_difference_len(*sets: Integers) -> int:
    """How many ids an odd number of the sets have."""
    *before, last = _sets(sets or ((),))
    if not before:
        return len(last)
    one = before[0].symmetric_difference(*before[1:])
    return len(one) + len(last) - 2 * intersect_len(one, last)


def combined(call: int, operands: Sequence[Integers]) -> npt.NDArray[Any]:
    """The ids of sets that are combined. For XOR these are two."""
    kind = _kind_of(operands)
    return kind._combined(call, tuple(map(kind._operand, operands)))


def counted(call: int, operands: Sequence[Integers]) -> int:
    """How many ids all sets have, or any."""
    kind = _kind_of(operands)
    return kind._counted(call, tuple(map(kind._operand, operands)))


def _sets(operands: Sequence[Integers]) -> Tuple[Any, ...]:
    return tuple(map(_kind_of(operands)._operand, operands))


def _kind_of(operands: Sequence[Integers]) -> Any:
    return IdSet64 if any(isinstance(it, IdSet64) for it in operands) else IdSet
