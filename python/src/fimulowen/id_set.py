"""Sets of ids and their calls."""

from __future__ import annotations

import operator
from typing import Any, Iterable, List, NamedTuple, Optional, Sequence, SupportsIndex, Tuple, Union

import numpy as np
import numpy.typing as npt

from . import _core, waiting
from .errors import Error
from .ids import UNITE, Ids
from .values import IDS, MOST, PART, Bytes, Integers, as_array, as_kind, constant, fitted, index, room_for, targets, true_at

_MOST_GROUPS = 1 << 24
_READ = [np.dtype(it) for it in ("=u4", "=i8", "=u8")]
Mask = Iterable[Union[bool, np.bool_]]


class Description(NamedTuple):
    """What a set is like: how many ids, bytes and chunks it has, and how many chunks have a body of numbers, of blocks, and of runs. Only a set in
    chunks has chunks."""

    ids: int
    bytes: int
    chunks: int
    numbers: int
    blocks: int
    runs: int


class IdSet(Ids[np.uint32, "IdSet"], _core.Set):
    """A set of integers from 0 to 4294967295, its ids, in packed bytes. It does not change.

    `IdSet(ids)` packs an array or an iterable of integers. They may be in any order, and one may be there twice; increasing ones take the least
    time, and are neither sorted nor copied if nothing can write them. TypeError or OverflowError, with the position and the value of the first
    that is no integer from 0 to 4294967295. Error if there are more than 268,435,456 ids."""

    __slots__ = ()
    _NAME, _FORMAT, _NO_ID, _OTHER = "IdSet", "I", np.int64(-1), _core.WideSet

    def __new__(cls, ids: Integers = ()) -> IdSet:
        if hasattr(ids, "_node"):
            ids = ids.pack()  # a query
        if isinstance(ids, IdSet):
            return ids if type(ids) is cls else cls.open(ids.data)
        if isinstance(ids, range) and ids.step == 1 and 0 <= ids.start < ids.stop <= 1 << 32:
            return _core.set_range(cls, ids.start, ids.stop)
        return cls._packed(as_kind(ids, IDS))

    @classmethod
    def _packed(cls, ids: npt.NDArray[np.uint32]) -> IdSet:
        """The set of an array that nothing writes."""
        made = waiting.run(len(ids), _core.set_pack, cls, ids) if len(ids) <= MOST else None
        if made is not None:
            return made
        parts = [_core.set_pack(cls, np.unique(ids[at : at + PART])) for at in range(0, len(ids), PART)]
        return parts[0] if len(parts) == 1 else waiting.run(len(ids), _core.set_join, cls, UNITE, tuple(parts))

    @classmethod
    def from_roaring(cls, data: Bytes) -> IdSet:
        """The set of a bitmap in Roaring's portable format: what `serialize` of a `pyroaring.BitMap` returns, or its counterpart of another library.

            >>> list(IdSet.from_roaring(bytes.fromhex("3A300000 01000000 0000 0100 10000000 0300 0700")))
            [3, 7]

        It tests all bytes, and raises Error with the first fault, without its place. Error too if there are more than 268,435,456 ids."""
        held = constant(data)
        return waiting.run(memoryview(held).nbytes, _core.set_from_roaring, cls, held)

    def to_roaring(self) -> bytes:
        """The ids as a bitmap in Roaring's portable format, which `pyroaring.BitMap.deserialize` reads: the bytes that CRoaring writes after
        `run_optimize`.

            >>> IdSet([3, 7]).to_roaring().hex(" ", -4)
            '3a300000 01000000 00000100 10000000 03000700'
        """
        return waiting.run(len(self), self._to_roaring)

    @staticmethod
    def front_len(data: Bytes) -> int:
        """The length in bytes of the set at the front of a buffer, with any bytes after it. It is 0 if what says the length has a fault, or if the
        bytes end before the set does. It tests no more: `open` these bytes then."""
        return _core.set_front_len(constant(data))

    @staticmethod
    def pack_many(ids: Integers, bounds: Integers) -> Tuple[bytes, npt.NDArray[np.int64]]:
        """Packs the set of ids[bounds[i]:bounds[i + 1]] for each i. Returns the bytes of all sets, and the bounds of the sets in them. The ids
        of each set increase.

        IndexError if the bounds fall or lie outside of the ids. Error, with the number of the set, and the position in it of the first id that
        is not above the one before it."""
        return _core.set_pack_many(as_kind(ids, IDS), index(bounds))

    @classmethod
    def groups(cls, codes: Integers, count: Optional[SupportsIndex] = None) -> List[IdSet]:
        """A set for each category of a column: item i of the list has the positions whose code is i. A code of -1 stands for a missing value, and
        its position is in no set. Codes are what `pandas.factorize`, `series.cat.codes`, and `numpy.unique(.., return_inverse=True)` return.

            >>> names, codes = np.unique(["fr", "de", "fr"], return_inverse=True)
            >>> {name: list(ids) for name, ids in zip(names.tolist(), IdSet.groups(codes))}
            {'de': [1], 'fr': [0, 2]}

        There are `count` sets, or one for each code up to the greatest. All share one buffer. IndexError, with the position of the first code that is
        below -1 or not below `count`. Error if there are more than 16,777,216 sets."""
        every = index(codes)
        wanted = int(every.max(initial=-1)) + 1 if count is None else _count(count)
        if wanted > _MOST_GROUPS:
            raise Error(f"More than {_MOST_GROUPS:,} sets.", "TooLong")
        return cls.open_many(*_core.set_pack_many(*_core.set_group(every, wanted)))

    @classmethod
    def of_mask(cls, mask: Mask) -> IdSet:
        """The positions at which a mask is true: a boolean array, a series of pandas, or another iterable of bools.

            >>> list(IdSet.of_mask(np.array([31, 19, 44]) > 20))
            [0, 2]

        TypeError, with the position of the first value that is no bool. ValueError if one is masked."""
        return cls._packed(true_at(mask))

    def mask(self, count: SupportsIndex) -> npt.NDArray[np.bool_]:
        """A boolean array of `count` items, which is true at each id. IndexError if an id is not below the count."""
        return self._mask(_count(count))

    def complement(self, count: SupportsIndex) -> IdSet:
        """The integers from 0 up to `count`, which is not one of them, that the set lacks. Error if there are more than 268,435,456."""
        end = min(_count(count), 1 << 32)
        if end - self.rank(end) > MOST:
            raise Error("More than 268,435,456 values.", "TooLong")
        parts = [IdSet(range(at, min(at + MOST, end))) - self for at in range(0, end, MOST)]
        return IdSet._joined(UNITE, parts)

    def shift(self, by: SupportsIndex) -> IdSet:
        """The set that has `by` added to each id; it may be below 0. Ids that leave the range from 0 to 4294967295 are left out.

        >>> list(IdSet([1, 4, 4294967295]).shift(2))
        [3, 6]
        """
        far = 1 << 32
        return waiting.run(len(self), _core.set_shift, IdSet, self, max(-far, min(operator.index(by), far)))

    def unpack(self, out: Optional[np.ndarray] = None, dtype: npt.DTypeLike = None) -> np.ndarray:
        """All ids, as an array of uint32, or of another type: OverflowError if an id does not fit it. They go to the front of `out` if there is
        one: an array in C order of uint32, int64 or uint64, with room for all. Returns the part of it that has them."""
        wanted = np.dtype(np.uint32 if dtype is None else dtype)
        if out is None and wanted in (np.dtype("i8"), np.dtype("u8")):
            out = np.empty(len(self), wanted)
        elif out is None:
            return self[:] if dtype is None else fitted(self[:], wanted)
        return room_for(len(self), out, dtype)[: self._read(out)]

    def count_between(self, low: SupportsIndex, high: SupportsIndex) -> int:
        """How many ids are from low to high, both included."""
        first, last = max(operator.index(low), 0), min(operator.index(high), (1 << 32) - 1)
        return self._count_between(first, last) if first <= last else 0

    def describe(self) -> Description:
        """What the set is like.

        >>> IdSet(range(200)).describe()
        Description(ids=200, bytes=15, chunks=1, numbers=0, blocks=0, runs=1)
        """
        return Description(*self._describe())

    def contains(self, ids: Integers) -> npt.NDArray[np.bool_]:
        """Whether the set has each of many integers, as an array."""
        array = as_array(ids)
        is_read = array is not None and array.dtype in _READ and array.flags.c_contiguous and array.flags.aligned
        return self._contains(array if is_read else index(ids if array is None else array))

    def _rank_many(self, values: Integers) -> npt.NDArray[np.int64]:
        return self._rank(targets(values))

    def append(self, ids: Integers) -> IdSet:
        """A set with these ids too, which increase, and are all above the greatest id. It copies the packed bytes, and unpacks few of them. Error,
        with the position of the first id that is not above the one before it; `self | ids` accepts any."""
        more = as_kind(ids, IDS)
        return waiting.run(len(self) + len(more), _core.set_append, IdSet, self, more)

    @staticmethod
    def _operand(it: Integers) -> IdSet:
        if isinstance(it, _core.WideSet):
            raise TypeError("an IdSet expected, not IdSet64")
        return it if isinstance(it, IdSet) else IdSet(it)

    @staticmethod
    def _combined(call: int, sets: Sequence[IdSet]) -> npt.NDArray[np.uint32]:
        return waiting.run(sum(map(len, sets)), _core.set_combine, call, tuple(sets))

    @staticmethod
    def _counted(call: int, sets: Sequence[IdSet]) -> int:
        return waiting.run(sum(map(len, sets)), _core.set_count, call, tuple(sets))

    @staticmethod
    def _joined(call: int, sets: Sequence[IdSet]) -> IdSet:
        return waiting.run(sum(map(len, sets)), _core.set_join, IdSet, call, tuple(sets))


def _count(count: SupportsIndex) -> int:
    value = operator.index(count)
    if value < 0:
        raise ValueError("the count is below 0")
    return value
