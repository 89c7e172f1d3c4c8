"""The integers of what a caller packs as a column, and which of them are missing."""

from __future__ import annotations

from typing import Any, Iterable, List, NamedTuple, Optional, Tuple

import numpy as np
import numpy.typing as npt

from .values import array_of, has_array, integer, objects_of, refuse_bytes

# How the values of each kind of type are stored, and the units of dates and times by their number in the header.
STORED = {"i": np.dtype("i8"), "u": np.dtype("u8"), "M": np.dtype("i8"), "m": np.dtype("i8")}
UNITS = ["Y", "M", "W", "D", "h", "m", "s", "ms", "us", "ns", "ps", "fs", "as"]


class Numbers(NamedTuple):
    """New arrays of the values, as int64 or uint64, and of which are missing, or None; and the type that the values have."""

    array: np.ndarray
    mask: Optional[npt.NDArray[np.bool_]]
    dtype: np.dtype

    def and_then(self, more: Numbers) -> Numbers:
        """These values and more of them, which have to fit the type."""
        array = more.array
        there = array[~more.mask] if more.mask is not None and self.dtype != more.dtype else array
        if self.dtype != more.dtype and len(there):
            if {self.dtype.kind, more.dtype.kind} != {"i", "u"}:
                raise TypeError(f"a column of {self.dtype} cannot have values of {more.dtype}")
            wrong = there > 0x7FFFFFFFFFFFFFFF if self.dtype.kind == "i" else there < 0
            if wrong.any():
                raise OverflowError(f"{there[wrong][0]} does not fit {self.dtype}")
        masks = [np.zeros(len(it.array), bool) if it.mask is None else it.mask for it in (self, more)]
        mask = np.concatenate(masks) if self.mask is not None or more.mask is not None else None
        return Numbers(np.concatenate([self.array, array.astype(self.array.dtype)]), mask, self.dtype)


def integers_of(values: Any, missing: Optional[Iterable[Any]] = None) -> Numbers:
    """The integers of an array, or of another iterable, in new arrays."""
    array, mask = _array_of(values)
    if array.ndim != 1:
        raise (TypeError if array.ndim == 0 else ValueError)(f"one dimension expected, not {array.ndim}")
    if array.dtype == object:
        array, absent = _of_objects(array)
        mask = absent if mask is None else mask | absent
    dtype = _dtype_of(array)
    if array.dtype.kind in "Mm" and np.isnat(array).any():
        mask = np.isnat(array) if mask is None else mask | np.isnat(array)
    if missing is not None:
        named = _named(missing, array.shape)
        mask = named if mask is None else mask | named
    stored = STORED[dtype.kind]
    numbers = array.astype(dtype).view(stored) if dtype.kind in "Mm" else np.array(array if len(array) else [], stored)
    return Numbers(numbers, mask if mask is not None and mask.any() else None, dtype)


def _array_of(values: Any) -> Tuple[np.ndarray, Optional[np.ndarray]]:
    """The values as an array of any type, and which are missing if their type says it."""
    if isinstance(values, np.ma.MaskedArray):
        return np.ma.getdata(values), np.array(np.ma.getmaskarray(values))
    plain = getattr(getattr(values, "dtype", None), "numpy_dtype", None)
    if plain is not None and hasattr(values, "isna"):  # a type of pandas with a mask
        return values.to_numpy(plain, na_value=plain.type(0)), np.array(values.isna(), bool)
    refuse_bytes(values)
    array = np.asarray(values) if has_array(values) else None
    if array is not None and (array.dtype != object or array.ndim != 1):
        return array, None
    items = list(values if array is None else array)  # an iterator is read once
    first = next((it for it in items if it is not None), None)
    return objects_of(items) if isinstance(first, (np.datetime64, np.timedelta64)) else array_of(items), None


def _named(missing: Any, shape: Tuple[int, ...]) -> npt.NDArray[np.bool_]:
    """Which values a caller says are missing."""
    named = np.array(missing if has_array(missing) else list(missing))
    if named.dtype == object and named.ndim == 1:
        named = np.array(named.tolist())
    if named.dtype.kind not in "biu" and named.size:
        raise TypeError(f"missing is of bools, not of {named.dtype}")
    if named.shape != shape:
        raise ValueError("missing is not as long as the values")
    return named.astype(bool)


def _dtype_of(array: np.ndarray) -> np.dtype:
    """The type of a column of these values."""
    if array.dtype.kind in "Mm":
        unit, count = np.datetime_data(array.dtype)
        if unit not in UNITS or count != 1:
            raise TypeError(f"a column has no values of {array.dtype}: astype has a unit of one")
        return np.dtype(f"{array.dtype.kind}8[{unit}]")
    if array.dtype.kind not in "iu" and len(array):
        raise TypeError(f"integers expected, not {array.dtype}")
    return STORED["u" if array.dtype.kind == "u" and array.dtype.itemsize == 8 else "i"]


def _of_objects(objects: np.ndarray) -> Tuple[np.ndarray, np.ndarray]:
    """Integers, dates or spans that are objects, and which are None."""
    absent = np.array([it is None for it in objects], bool)
    if set(map(type, objects.tolist())) - {type(None)} in ({np.datetime64}, {np.timedelta64}):
        return _of_times(objects[~absent].tolist(), absent), absent
    numbers: List[int] = [0 if it is None else integer(it, at) for at, it in enumerate(objects)]
    is_wide = max(numbers, default=0) >= 1 << 63
    least, greatest = (0, (1 << 64) - 1) if is_wide else (-(1 << 63), (1 << 63) - 1)
    for at, it in enumerate(numbers):
        if not least <= it <= greatest:
            raise OverflowError(f"position {at}: {it} is not from {least} to {greatest}")
    return np.array(numbers, "u8" if is_wide else "i8"), absent


def _of_times(there: List[Any], absent: np.ndarray) -> np.ndarray:
    """Dates or spans, and NaT for those that are absent, in the finest of their units."""
    dtype = there[0].dtype
    is_alike = all(it.dtype == dtype for it in there)
    dtype = dtype if is_alike else np.result_type(*{it.dtype for it in there})
    array = np.full(len(absent), "NaT", dtype)
    array[~absent] = np.array(there, dtype)
    for at, it in () if is_alike else zip(np.flatnonzero(~absent), there):
        if array[at].astype(it.dtype) != it and not np.isnat(it):
            raise OverflowError(f"position {at}: {it} does not fit {dtype}")
    return array
