"""Columns of integers of 64 bits, dates and times, and values that are missing. COLUMN.md has the bytes."""

from __future__ import annotations

import operator
import pickle
import struct
import zlib
from typing import Any, Iterable, Iterator, List, Literal, Optional, SupportsIndex, Tuple, Union, overload

import numpy as np
import numpy.typing as npt

from . import _core
from .column_values import STORED, UNITS, Numbers, integers_of
from .errors import Error
from .id_set import IdSet
from .limits import numbers_beside
from .values import Bytes, Integers, constant, index, need_fit, room_for

CHUNK = 1 << 16
_PART = 4096
_HEADER, _CRC = struct.Struct("<4sBBBBQII"), struct.Struct("<I")
_ROW = np.dtype([("least", "<u8"), ("greatest", "<u8"), ("sizes", "<u4", 3), ("crc", "<u4")])
_NAME, _VERSION, _KINDS = b"FCOL", 2, "iuMm"
_START = _HEADER.size + _CRC.size
_LIMITS = [(-(1 << 63), (1 << 63) - 1), (0, (1 << 64) - 1)]  # of the numbers with a sign, and without
_TEXTS = {
    "Short": "Bytes of the column are missing.",
    "Trailing": "Bytes are left over after the column.",
    "BadName": "The bytes are no column of this version.",
    "BadChecksum": "A checksum of the column is not right.",
    "BadShape": "The header of the column does not have its form.",
}
_ARROW = {"i": "l", "u": "L", "M": "ts{}:", "m": "tD{}"}
_ARROW_UNITS = {"s": "s", "ms": "m", "us": "u", "ns": "n"}
_SPARSE = 16  # from this step on the values of a slice are found one by one
# What can be packed: an array, a masked one, an array or series of pandas, or integers, dates or spans, and None.
Values = Union[np.ndarray, Iterable[Union[SupportsIndex, np.datetime64, np.timedelta64, None]]]


class Column(_core.Column):
    """Integers of 64 bits, with a sign or without, or dates or times of numpy, any of which may be missing. It does not change.

    `values` is an array, or any iterable of integers, or of dates or spans of numpy, and None. Missing are the values for which `missing` is
    true, None, NaT, NA of pandas, and what a masked array masks. TypeError or OverflowError, with the position of the first value that is none.
    """

    __slots__ = ("_dtype",)
    __array_ufunc__ = None  # array == column must not depend on whether values are missing

    def __new__(cls, values: Values = (), missing: Optional[Iterable[Any]] = None) -> Column:
        numbers = _numbers_of(values, missing)
        return _assembled(cls, numbers.dtype, len(numbers.array), _packed(numbers))

    @classmethod
    def open(cls, data: Bytes) -> Column:
        """Opens the bytes of a column, of any object with a buffer. It compares each checksum and tests each byte: Error has the first fault. It
        holds memory that is read only, which must not change, and copies other memory."""
        data = constant(data)
        view = memoryview(data).cast("B")
        dtype, count, table, start = _read_header(view)
        starts = [start, *(start + table["sizes"].sum(axis=1, dtype="u8").cumsum()).tolist()]
        for number, crc in enumerate(table["crc"].tolist()):
            _need(zlib.crc32(view[starts[number] : starts[number + 1]]) == crc, "BadChecksum", starts[number], number)
        try:
            made = _core.column_open(cls, view, count, dtype.kind != "u", False)
        except Error as why:
            raise Error(why.text, why.fault, part=why.number, byte=starts[why.number or 0]) from None
        made._dtype = dtype
        return made

    @property
    def dtype(self) -> np.dtype:
        """int64, uint64, or the type of the dates or times."""
        return self._dtype

    @property
    def kind(self) -> Literal["plain", "sorted"]:
        """Whether no value is below the one before it: "sorted", or else "plain". Missing values do not count."""
        return "sorted" if self._sorted else "plain"

    @property
    def missing(self) -> IdSet:
        """The positions of the values that are missing."""
        return IdSet(self._absent())

    def __reduce_ex__(self, protocol: Any) -> Tuple[Any, ...]:
        data = pickle.PickleBuffer(self.data) if protocol >= 5 else self.tobytes()
        return type(self).open, (data,), getattr(self, "__dict__", None)

    def __eq__(self, other: Any) -> bool:
        """Whether both have the same values of the same type, with the same ones missing. A column has one encoding: this compares the bytes."""
        return self._same(other) if isinstance(other, Column) else NotImplemented

    def __hash__(self) -> int:
        return hash(bytes(self.data[:_START]))  # it has the checksum of all checksums

    def __repr__(self) -> str:
        return f"<Column {self.dtype}, {self.kind}, {len(self)} values, {self._missing} missing, in {self.nbytes} bytes>"

    @overload
    def __getitem__(self, key: SupportsIndex) -> Any:
        ...

    @overload
    def __getitem__(self, key: slice) -> np.ndarray:
        ...

    def __getitem__(self, key: Union[SupportsIndex, slice]) -> Any:
        """The value at a position, or None if it is missing; or the values of a slice, as an array. A position below 0 counts from the end."""
        if not isinstance(key, slice):
            return self._scalar(self._get(key))
        start, stop, step = key.indices(len(self))
        count = len(range(start, stop, step))
        if count == 0:
            return self._range(0, 0)
        if abs(step) >= _SPARSE:
            return self.gather(np.arange(start, stop, step))
        first, last = sorted((start, start + (count - 1) * step))
        found = self._range(first, last + 1 - first)[::step]
        return found if abs(step) == 1 else found.copy()  # it holds what it shows

    def __iter__(self) -> Iterator[Any]:
        for start in range(0, len(self), _PART):
            numbers, mask = self._numbers(start, min(_PART, len(self) - start))
            values: List[Any] = numbers.tolist() if self._dtype.kind in "iu" else list(numbers.view(self._dtype))
            for at in np.flatnonzero(mask).tolist() if mask is not None else ():
                values[at] = None
            yield from values

    def __array__(self, dtype: npt.DTypeLike = None, copy: Optional[bool] = None) -> np.ndarray:
        if copy is False:
            raise ValueError("the values of a column are always copied")
        if self._missing and self._dtype.kind in "iu":
            raise ValueError("values are missing: unpack(fill=..) names one for them")
        return self.unpack(dtype=dtype)

    def __arrow_c_schema__(self) -> object:
        """The type of the column for Arrow, as a capsule."""
        unit = np.datetime_data(self._dtype)[0] if self._dtype.kind in "Mm" else "s"
        if unit not in _ARROW_UNITS:
            raise TypeError(f"Arrow has no type of 64 bits for {self._dtype}")
        return _core.arrow_schema(_ARROW[self._dtype.kind].format(_ARROW_UNITS[unit]), bool(self._missing))

    def __arrow_c_array__(self, requested_schema: Any = None) -> Tuple[object, object]:
        """The values as an array of Arrow: two capsules. The values are copied, and have a validity bitmap if some are missing."""
        numbers, mask = self._numbers(0, len(self))
        bits = None if mask is None else np.packbits(~mask, bitorder="little")
        return self.__arrow_c_schema__(), _core.arrow_array(numbers, bits, self._missing)

    def _scalar(self, value: Optional[int]) -> Any:
        """A number as a value of the column."""
        return value if value is None or self._dtype.kind in "iu" else np.array(value, "i8").view(self._dtype)[()]

    def _numbers(self, start: int, count: int, fill: int = 0) -> Tuple[np.ndarray, Optional[npt.NDArray[np.bool_]]]:
        """The values of a range as int64 or uint64, and which are missing, or None if none in the column is."""
        out = np.empty(count, STORED[self._dtype.kind])
        self._read(out, start, fill)
        if not self._missing:
            return out, None
        mask = np.zeros(count, bool)
        self._mark(mask, start)
        return out, mask

    def _range(self, start: int, count: int) -> np.ndarray:
        return self._shown(*self._numbers(start, count), None)

    def _shown(self, numbers: np.ndarray, mask: Optional[np.ndarray], fill: Any) -> np.ndarray:
        """Numbers as an array for a caller, who named a value for those that are missing, or None."""
        number = 0 if mask is None is fill else self._fill(fill)
        if mask is not None and (fill is not None or self._dtype.kind in "Mm"):
            numbers[mask] = number
        elif mask is not None:
            return np.ma.MaskedArray(numbers, mask)
        return numbers.view(self._dtype)

    def _fill(self, fill: Any) -> int:
        """The number that stands for missing values."""
        is_number = self._dtype.kind in "iu"
        if fill is None or not is_number and isinstance(fill, (np.datetime64, np.timedelta64)) and np.isnat(fill):
            return 0 if is_number else -(1 << 63)  # NaT
        value, below = (operator.index(fill),) * 2 if is_number else numbers_beside(fill, self._dtype)
        if value != below:
            raise ValueError(f"fill is between two values of {self._dtype}")
        need_fit([value], self._dtype)
        return value

    def unpack(self, out: Optional[np.ndarray] = None, dtype: npt.DTypeLike = None, fill: Any = None) -> np.ndarray:
        """All values, as an array of the type of the column, or of another one. They go to the front of `out` if there is one: the call returns
        the part of it that has them. OverflowError if a value or `fill` does not fit the type.

        Missing values are NaT, or `fill`, or the array is a masked one if there is no `fill`; an `out` needs it."""
        wanted = room_for(len(self), out, dtype).dtype if out is not None else np.dtype(self._dtype if dtype is None else dtype)
        self._need_fit(wanted, fill)
        if out is None and (fill is not None or self._dtype.kind in "Mm"):
            return self._unpack_to(np.empty(len(self), self._dtype), fill).astype(wanted, copy=False)
        if out is None:
            return self._shown(*self._numbers(0, len(self)), fill).astype(wanted, copy=False)
        if self._missing and fill is None and self._dtype.kind in "iu":
            raise ValueError("values are missing: fill names one for them")
        return self._unpack_to(out[: len(self)], fill)

    def _unpack_to(self, out: np.ndarray, fill: Any) -> np.ndarray:
        if out.dtype == self._dtype and out.flags.c_contiguous and out.flags.aligned:
            self._read(out.view(STORED[self._dtype.kind]), 0, self._fill(fill))
            return out
        for start in range(0, len(out), CHUNK):
            part = out[start : start + CHUNK]
            part[:] = self._shown(*self._numbers(start, len(part)), fill)
        return out

    def _need_fit(self, wanted: np.dtype, fill: Any) -> None:
        shown = [] if fill is None else [self._fill(fill)]
        if wanted == self._dtype:
            return
        shown += self._limits() or ()
        if wanted.kind in "Mm" and wanted.kind == self._dtype.kind and np.datetime_data(wanted)[0] != "generic":
            there = [it for it in map(self._scalar, shown) if not np.isnat(it)]
            shown = [numbers_beside(it, wanted)[1] for it in there]
        need_fit(shown, wanted)

    def gather(self, positions: Integers, fill: Any = None) -> np.ndarray:
        """The values at positions in any order, as an array. A position below 0 counts from the end. Missing values are as in `unpack`.
        IndexError if a position is not in the column."""
        at = index(positions, len(self))
        out, mask = np.empty(len(at), STORED[self._dtype.kind]), np.zeros(len(at), bool) if self._missing else None
        self._gather(at, out, mask)
        return self._shown(out, mask, fill)

    def _limit(self, value: Any, step: int) -> int:
        """A limit as a number. A date or time between two of the column becomes the next one in the direction of the step."""
        return operator.index(value) if self._dtype.kind in "iu" else numbers_beside(value, self._dtype)[step < 0]

    def _within(self, low: Any, high: Any) -> Optional[Tuple[int, int]]:
        """Limits that fit the type, or None if no value can be within them."""
        first, last = _LIMITS[self._dtype.kind == "u"]
        least, greatest = max(self._limit(low, 1), first), min(self._limit(high, -1), last)
        return (least, greatest) if least <= greatest else None

    def between(self, low: Any, high: Any) -> npt.NDArray[np.int64]:
        """The positions of the values from low to high, both included, in increasing order, without those that are missing. It unpacks no block
        whose bounds tell."""
        within = self._within(low, high)
        return self._between(*within) if within else np.empty(0, np.int64)

    def between_ids(self, low: Any, high: Any) -> IdSet:
        """The positions that `between` returns, as a set: to be combined with others. OverflowError if one is above 4294967295."""
        return IdSet(self.between(low, high))

    def count_between(self, low: Any, high: Any) -> int:
        """How many values are from low to high, both included."""
        within = self._within(low, high)
        return self._count_between(*within) if within else 0

    def seek(self, target: Any) -> Optional[Tuple[int, Any]]:
        """The position and the value of the first value that is at least the target, or None. Error if the column is not sorted."""
        wanted, (first, last) = self._limit(target, 1), _LIMITS[self._dtype.kind == "u"]
        found = self._seek(max(wanted, first)) if wanted <= last else self._seek(last) and None
        return found and (found[0], self._scalar(found[1]))

    def min(self) -> Any:
        """The least value. It unpacks nothing. ValueError if there is none."""
        return self._scalar(self._known_limits()[0])

    def max(self) -> Any:
        """The greatest value. It unpacks nothing. ValueError if there is none."""
        return self._scalar(self._known_limits()[1])

    def _known_limits(self) -> Tuple[int, int]:
        limits = self._limits()
        if limits is None:
            raise ValueError("the column has no value")
        return limits

    def bounds(self) -> np.ndarray:
        """The least and the greatest value of each chunk of 65,536 values, as an array of two columns. Both are 0 if all are missing."""
        table = _table(self.data, len(self))
        return np.stack([table["least"], table["greatest"]], axis=1).astype("=u8").view(self._dtype)

    def append(self, values: Values, missing: Optional[Iterable[Any]] = None) -> Column:
        """A new column of these values and more after them. Whole chunks are copied, and only the values after them packed."""
        whole, table = len(self) // CHUNK, _table(self.data, len(self))
        start = whole * CHUNK
        numbers, mask = self._numbers(start, len(self) - start)
        more = Numbers(numbers, mask, self._dtype).and_then(_numbers_of(values, missing))
        first = _START + _ROW.itemsize * len(table)
        end = first + int(table["sizes"][:whole].sum(dtype="u8"))
        old = [(table[:whole].tobytes(), self.data[first:end])] if whole else []
        return _assembled(type(self), self._dtype, start + len(more.array), old + _packed(more))


def _numbers_of(values: Values, missing: Optional[Iterable[Any]]) -> Numbers:
    if isinstance(values, Column):
        numbers, mask = values._numbers(0, len(values))
        values = np.ma.MaskedArray(numbers.view(values.dtype), np.ma.nomask if mask is None else mask)
    return integers_of(values, missing)


def _packed(numbers: Numbers) -> List[Tuple[bytes, Union[bytes, memoryview]]]:
    """The row and the bytes of each chunk."""
    parts = _core.column_pack(numbers.array, numbers.mask, numbers.dtype.kind != "u")
    return [(row + _CRC.pack(zlib.crc32(data)), data) for row, data in zip(parts[::2], parts[1::2])]


def _assembled(cls: Any, dtype: np.dtype, count: int, chunks: List[Tuple[bytes, Union[bytes, memoryview]]]) -> Any:
    table = b"".join(row for row, _ in chunks)
    unit = UNITS.index(np.datetime_data(dtype)[0]) + 1 if dtype.kind in "Mm" else 0
    header = _HEADER.pack(_NAME, _VERSION, _KINDS.index(dtype.kind), unit, 0, count, len(table) // _ROW.itemsize, zlib.crc32(table))
    data = b"".join([header, _CRC.pack(zlib.crc32(header)), table, *(it for _, it in chunks)])
    made = _core.column_open(cls, data, count, dtype.kind != "u", True)
    made._dtype = dtype
    return made


def _table(data: memoryview, count: int) -> np.ndarray:
    """The row of each chunk of so many values."""
    return np.frombuffer(data, _ROW, -(-count // CHUNK), _START) if count else np.empty(0, _ROW)


def _need(holds: bool, fault: str, byte: int, chunk: Optional[int] = None) -> None:
    if not holds:
        raise Error(_TEXTS[fault], fault, part=chunk, byte=byte)


def _dtype_of(kind: int, unit: int) -> Optional[np.dtype]:
    if kind < 2 and unit == 0:
        return STORED[_KINDS[kind]]
    return np.dtype(f"{_KINDS[kind]}8[{UNITS[unit - 1]}]") if kind in (2, 3) and 0 < unit <= len(UNITS) else None


def _read_header(data: memoryview) -> Tuple[np.dtype, int, np.ndarray, int]:
    """The type, the count, the table of the chunks, and where the first of them begins."""
    _need(len(data) >= _START, "Short", 0)
    name, version, kind, unit, zero, count, chunks, crc = _HEADER.unpack_from(data)
    _need((name, version) == (_NAME, _VERSION), "BadName", 0)
    _need(zlib.crc32(data[: _HEADER.size]) == _CRC.unpack_from(data, _HEADER.size)[0], "BadChecksum", 0)
    dtype = _dtype_of(kind, unit)
    _need(zero == 0 and chunks == -(-count // CHUNK), "BadShape", 0)
    if dtype is None:
        raise Error(_TEXTS["BadShape"], "BadShape", byte=5)
    end = _START + _ROW.itemsize * chunks
    _need(len(data) >= end, "Short", _START)
    _need(zlib.crc32(data[_START:end]) == crc, "BadChecksum", _START)
    table = _table(data, count)
    size = end + int(table["sizes"].sum(dtype="u8"))
    _need(len(data) >= size, "Short", end)
    _need(len(data) == size, "Trailing", size)
    return dtype, count, table, end
