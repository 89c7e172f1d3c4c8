"""What sets of 32 and of 64 bits have in common."""

from __future__ import annotations

import hashlib
import pickle
from typing import Any, Callable, Generic, Iterator, List, Optional, Sequence, SupportsIndex, Tuple, Type, TypeVar

import numpy as np
import numpy.typing as npt

from . import _core, waiting
from .values import PART, Bytes, Integers, constant, index

INTERSECT, UNITE, SUBTRACT, XOR = range(4)
_FEW = 4096
Own = TypeVar("Own", bound="Ids[Any, Any]")
Id = TypeVar("Id", bound=np.generic)
Answer = TypeVar("Answer", bound="Ids[Any, Any]")


class Ids(_core.Packed, Generic[Id, Answer]):
    """A set of ids in packed bytes. A class below is also of a class of _core, which has the calls of the library for its ids. The operators return
    sets of the class `Answer`, also if they are called for a subclass of it."""

    __slots__ = ()
    __array_ufunc__ = None  # array & set must not be a bitwise AND of numbers

    # The name for repr, the format of an id for Arrow, the id that seek of many targets returns if there is none, and the class of _core that has ids
    # of the other size.
    _NAME: str
    _FORMAT: str
    _NO_ID: Any
    _OTHER: type

    # The set of an operand, or a TypeError if its ids have the other size; what sets have that are combined, as an array and as a set; and how many ids
    # all sets have, or any.
    _operand: Callable[[Integers], Answer]
    _combined: Callable[[int, Sequence[Answer]], npt.NDArray[Id]]
    _joined: Callable[[int, Sequence[Answer]], Answer]
    _counted: Callable[[int, Sequence[Answer]], int]

    @classmethod
    def open(cls: Type[Own], data: Bytes) -> Own:
        """Opens the bytes of a set, of any object with a buffer. It tests all of them, and raises Error with the first fault. Memory that
        nothing can write (bytes, a map that is read only) is held, and must not change; other memory is copied."""
        held = constant(data)
        return waiting.run(memoryview(held).nbytes, _core.set_open, cls, held)

    @classmethod
    def open_many(cls: Type[Own], data: Bytes, bounds: Integers) -> List[Own]:
        """The sets at data[bounds[i]:bounds[i + 1]], which all share the one buffer. Error, with the number of the set."""
        return _core.set_open_many(cls, constant(data), index(bounds))

    def __hash__(self) -> int:
        found = hashlib.blake2b(digest_size=8)
        for at in range(0, self.nbytes, PART):
            found.update(self.data[at : at + PART])
        return hash(found.digest())

    def __iter__(self) -> Iterator[int]:
        for start in range(0, len(self), _FEW):
            yield from self[start : start + _FEW].tolist()

    def __repr__(self) -> str:
        shown = ", ".join(map(str, self[:6].tolist())) + (", .." if len(self) > 6 else "")
        return f"<{self._NAME} of {len(self)} ids in {self.nbytes} bytes: [{shown}]>"

    def __array__(self, dtype: npt.DTypeLike = None, copy: Optional[bool] = None) -> np.ndarray:
        if copy is False:
            raise ValueError("the ids of a set are always copied")
        return self.unpack(dtype=dtype)

    def __arrow_c_schema__(self) -> object:
        return _core.arrow_schema(self._FORMAT, False)

    def __arrow_c_array__(self, requested_schema: object = None) -> Tuple[object, object]:
        """The ids, as an array of Arrow."""
        return self.__arrow_c_schema__(), _core.arrow_array(self.unpack(), None, 0)

    def __reduce_ex__(self, protocol: Any) -> Tuple[Any, ...]:
        # The attributes of an instance of a subclass are its state.
        return type(self).open, (pickle.PickleBuffer(self.data) if protocol >= 5 else self.tobytes(),), getattr(self, "__dict__", None)

    def min(self) -> int:
        """The least id. ValueError if there is none."""
        return self._end(0)

    def max(self) -> int:
        """The greatest id. ValueError if there is none."""
        return self._end(-1)

    def _end(self, at: int) -> int:
        if not len(self):
            raise ValueError("the set has no id")
        return self[at]

    def range(self, low: SupportsIndex, high: SupportsIndex) -> npt.NDArray[Id]:
        """The ids from low up to high, which is not one of them, as an array."""
        return self[self.rank(low) : self.rank(high)]

    def gather(self, positions: Integers) -> npt.NDArray[Id]:
        """The ids at positions in any order, as an array; those below 0 count from the end. IndexError if one is not in the set."""
        return self._gather(index(positions, len(self)))

    def _seek_many(self, values: Integers) -> Tuple[npt.NDArray[np.int64], npt.NDArray[Any]]:
        at = self._rank_many(values)
        ids, there = np.full(len(at), self._NO_ID), at < len(self)
        ids[there] = self[:][at[there]] if 16 * len(at) > len(self) else self._gather(at[there])
        return at, ids

    def __and__(self, other: Integers) -> Answer:
        """The ids of both."""
        return self._operated(INTERSECT, self, other)

    def __or__(self, other: Integers) -> Answer:
        """The ids of either. Error if there are more than 268,435,456."""
        return self._operated(UNITE, self, other)

    def __sub__(self, other: Integers) -> Answer:
        """The ids that only the first has."""
        return self._operated(SUBTRACT, self, other)

    def __xor__(self, other: Integers) -> Answer:
        """The ids that one of the two has. Error if there are more than 268,435,456."""
        return self._operated(XOR, self, other)

    def __rsub__(self, other: Integers) -> Answer:
        return self._operated(SUBTRACT, other, self)

    __rand__, __ror__, __rxor__ = __and__, __or__, __xor__

    def intersection(self, *others: Integers) -> Answer:
        """The ids that this set and all others have."""
        return self._of_all(INTERSECT, others)

    def union(self, *others: Integers) -> Answer:
        """The ids that this set or any other has. Error if there are more than 268,435,456."""
        return self._of_all(UNITE, others)

    def difference(self, *others: Integers) -> Answer:
        """The ids that only this set has."""
        return self._of_all(SUBTRACT, others)

    def symmetric_difference(self, *others: Integers) -> Answer:
        """The ids that an odd number of the sets have. Error if there are more than 268,435,456."""
        return self._of_all(XOR, others)

    def isdisjoint(self, other: Integers) -> bool:
        """Whether no id is in both."""
        return self._is_disjoint(self._operand(other))

    def issubset(self, other: Integers) -> bool:
        """Whether the other has all ids of this set, as `self <= other` says of two sets."""
        return self <= self._operand(other)

    def issuperset(self, other: Integers) -> bool:
        """Whether this set has all ids of the other, as `self >= other` says of two sets."""
        return self >= self._operand(other)

    def jaccard(self, other: Integers) -> float:
        """The share of the ids of either set that both have. It is 1 for two empty sets."""
        one = self._operand(other)
        both = self._counted(INTERSECT, (self, one))
        return both / (len(self) + len(one) - both) if both or self or one else 1.0

    def _of_all(self, call: int, others: Tuple[Integers, ...]) -> Answer:
        return self._joined(call, (self, *map(self._operand, others)))

    @classmethod
    def _operated(cls, call: int, one: Any, other: Any) -> Any:
        # A query joins what is on its left too. Ids of two sizes are not combined.
        if hasattr(other, "_node") or not all(hasattr(it, "__iter__") and not isinstance(it, cls._OTHER) for it in (one, other)):
            return NotImplemented
        return cls._joined(call, (cls._operand(one), cls._operand(other)))
