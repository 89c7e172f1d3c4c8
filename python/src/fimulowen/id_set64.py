"""Sets of ids of 64 bits."""

from __future__ import annotations

from typing import Optional, Sequence

import numpy as np
import numpy.typing as npt

from . import _core, waiting
from .ids import Ids
from .values import MOST, WIDE_IDS, Integers, as_kind, fitted, nearest, need_fit, room_for


class IdSet64(Ids[np.uint64, "IdSet64"], _core.WideSet):
    """A set of integers from 0 to 18446744073709551615, such as hashes, keys and times, in packed bytes. It does not change.

    `IdSet64(ids)` packs an array or an iterable of integers. They may be in any order, and one may be there twice; increasing ones take the least
    time, and are neither sorted nor copied if nothing can write them. TypeError or OverflowError, with the position and the value of the first
    that is no integer of 64 bits without a sign. Error if there are more than 268,435,456 ids.

        >>> ids = IdSet64([2**40, 7, 2**64 - 1])
        >>> ids, 7 in ids, ids.seek(8), ids[-1] == ids.max()
        (<IdSet64 of 3 ids in 25 bytes: [7, 1099511627776, 18446744073709551615]>, True, (1, 1099511627776), True)

    It is read, searched and combined as an IdSet is. An operand is an IdSet64 or another iterable, but no IdSet, which `IdSet64(ids)` converts:

        >>> (ids | [8, 9]) - range(8), ids.isdisjoint([8]), ids > IdSet64([7])
        (<IdSet64 of 4 ids in 33 bytes: [8, 9, 1099511627776, 18446744073709551615]>, True, True)

    More than two sets are combined by pairs, from the left."""

    __slots__ = ()
    _NAME, _FORMAT, _NO_ID, _OTHER = "IdSet64", "L", np.uint64(WIDE_IDS.greatest), _core.Set

    def __new__(cls, ids: Integers = ()) -> IdSet64:
        if isinstance(ids, IdSet64):
            return ids if type(ids) is cls else cls.open(ids.data)
        values = as_kind(ids, WIDE_IDS)
        made = waiting.run(len(values), _core.set_pack, cls, values) if len(values) <= MOST else None
        if made is None:
            values = waiting.run(len(values), np.unique, values)
            made = waiting.run(len(values), _core.set_pack, cls, values)
        return made

    def unpack(self, out: Optional[np.ndarray] = None, dtype: npt.DTypeLike = None) -> np.ndarray:
        """All ids, as an array of uint64, or of another type: OverflowError if an id does not fit it. They go to the front of `out` if there is
        one: an array in C order of uint64 or int64, with room for all. Returns the part of it that has them."""
        if out is None:
            return self[:] if dtype is None else fitted(self[:], np.dtype(dtype))
        need_fit([self[0], self[-1]] if len(self) else [], room_for(len(self), out, dtype).dtype)
        return out[: self._read(out)]

    def contains(self, ids: Integers) -> npt.NDArray[np.bool_]:
        """Whether the set has each of many integers, as an array."""
        near, is_other = nearest(ids)
        return self._contains(near) & ~is_other

    def _rank_many(self, values: Integers) -> npt.NDArray[np.int64]:
        near, is_other = nearest(values)
        return np.where(is_other & (near > 0), len(self), self._rank(near))

    @staticmethod
    def _operand(it: Integers) -> IdSet64:
        if isinstance(it, _core.Set) or hasattr(it, "_node"):
            raise TypeError(f"an IdSet64 expected, not {type(it).__name__}: IdSet64(ids) converts it")
        return it if isinstance(it, IdSet64) else IdSet64(it)

    @staticmethod
    def _combined(call: int, sets: Sequence[IdSet64]) -> npt.NDArray[np.uint64]:
        *before, last = sets
        if not before:
            return last.unpack()
        one = IdSet64._joined(call, before)
        return waiting.run(len(one) + len(last), _core.wide_combine, call, one, last)

    @staticmethod
    def _counted(call: int, sets: Sequence[IdSet64]) -> int:
        *before, last = sets
        if not before:
            return len(last)
        one = IdSet64._joined(call, before)
        return waiting.run(len(one) + len(last), _core.wide_count, call, one, last)

    @staticmethod
    def _joined(call: int, sets: Sequence[IdSet64]) -> IdSet64:
        one = IdSet64(sets[0])
        for it in sets[1:]:
            one = waiting.run(len(one) + len(it), _core.wide_join, IdSet64, call, one, it)
        return one
