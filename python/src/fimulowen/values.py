"""Arrays from what a caller passes. Another thread cannot change them while the library reads them: each is a copy, or of memory that nothing
writes."""

from __future__ import annotations

import array
import mmap
import operator
import pickle
from itertools import islice
from typing import Any, Callable, Iterable, Iterator, NamedTuple, NoReturn, Optional, Sequence, SupportsIndex, Tuple, Union

import numpy as np
import numpy.typing as npt

from .errors import Error

# Integers that a caller passes, and bytes. An array of numpy is an iterable too.
Integers = Iterable[SupportsIndex]
Bytes = Union[bytes, bytearray, memoryview, mmap.mmap, np.ndarray, array.array, pickle.PickleBuffer]
KINDS = {"plain": 0, "sorted": 1, "strict": 2}
PART, MOST = 1 << 20, 1 << 28
_GREATEST, _LEAST, _WIDEST = 0xFFFFFFFF, -(1 << 63), (1 << 64) - 1


class Kind(NamedTuple):
    """Integers from 0 to the greatest of a type, and what the error for a greater one says."""

    dtype: np.dtype
    greatest: int
    hint: str = ""


_U32, IDS, WIDE_IDS = (
    Kind(np.dtype("=u4"), _GREATEST),
    Kind(np.dtype("=u4"), _GREATEST, ": IdSet64 has ids of 64 bits"),
    Kind(np.dtype("=u8"), _WIDEST),
)


def is_constant(data: Any) -> bool:
    """Whether no thread can write the memory of an object with a buffer, as of bytes or of a map that is read only. A view that is read only
    may be of memory that is not."""
    while True:
        if isinstance(data, np.ndarray):
            if data.flags.writeable or data.base is None:
                return False
            data = data.base
        else:
            view = memoryview(data)
            if not view.readonly or view.obj is None:
                return False
            if view.obj is data:
                return True
            data = view.obj


def constant(data: Any) -> Any:
    """The object, or a copy of its bytes if another thread can write them, or if they are not one after another."""
    return data if is_constant(data) and memoryview(data).c_contiguous else memoryview(data).tobytes()


def u32(values: Any) -> npt.NDArray[np.uint32]:
    """Integers from 0 to 4294967295 as an array of uint32."""
    return as_kind(values, _U32)


def as_kind(values: Any, kind: Kind) -> npt.NDArray[Any]:
    """Integers as an array of a kind. TypeError or OverflowError, with the position and the value of the first that is none of it. Only memory that
    nothing can write is not copied."""
    array = as_array(values)
    if isinstance(values, range) and len(values) > MOST:
        raise Error("More than 268,435,456 values.", "TooLong")
    if array is None:
        parts = [_of_kind(part, at, kind) for at, part in _parts(values)]
        return np.concatenate(parts) if parts else np.empty(0, kind.dtype)
    if array.dtype == kind.dtype and array.flags.c_contiguous and array.flags.aligned and is_constant(array):
        return array
    out = np.empty(len(array), kind.dtype)
    for at in range(0, len(array), PART):
        out[at : at + PART] = _of_kind(array[at : at + PART], at, kind)
    return out


def index(positions: Any, length: int = 0) -> npt.NDArray[np.int64]:
    """Positions or bounds as a new array of int64. The length is added to those below 0, which count from the end. One that does not fit becomes
    a number below 0, which is no position."""
    found = _wide(positions, _i64_of)
    if length:
        found[found < 0] += length
    return found


def targets(values: Any) -> npt.NDArray[np.int64]:
    """Integers to search for, as a new array of int64: one below 0 becomes 0, one above all ids 2^32."""
    return _wide(values, _clipped)


def nearest(values: Any) -> Tuple[npt.NDArray[np.uint64], npt.NDArray[np.bool_]]:
    """Integers to search for, as new arrays: the nearest one of 64 bits to each, and whether that is another number."""
    array = as_array(values)
    parts = [_nearest(part, at) for at, part in (_parts(values) if array is None else [(0, array)])]
    near, other = zip(*parts) if parts else ([np.empty(0, "=u8")], [np.empty(0, bool)])
    return np.concatenate(near), np.concatenate(other)


def _wide(values: Any, convert: Callable[[np.ndarray, int], npt.NDArray[np.int64]]) -> npt.NDArray[np.int64]:
    """Integers as a new array of int64, which the call makes of each part and its position."""
    array = as_array(values)
    return np.concatenate([np.empty(0, "=i8"), *(convert(part, at) for at, part in _parts(values))]) if array is None else convert(array, 0)


def true_at(mask: Any) -> npt.NDArray[np.uint32]:
    """The positions at which a mask is true. TypeError, with the position of the first value that is no bool, or ValueError if one is missing."""
    if isinstance(mask, np.ma.MaskedArray) and np.ma.is_masked(mask):
        raise ValueError("values are missing")
    array = np.asarray(mask) if has_array(mask) else objects_of(list(mask))
    if array.ndim != 1:
        raise (TypeError if array.ndim == 0 else ValueError)(f"one dimension expected, not {array.ndim}")
    if array.dtype != bool:
        wrong = [at for at, it in enumerate(array.tolist()) if not isinstance(it, (bool, np.bool_))]
        if wrong:
            raise TypeError(f"position {wrong[0]}: {array[wrong[0]]!r} is not a bool")
        array = array.astype(bool)
    return np.flatnonzero(array).astype("=u4")


def room_for(count: int, out: Any, dtype: npt.DTypeLike = None) -> np.ndarray:
    """The array to which a caller wants as many values written, whose type is tested where they are."""
    if not isinstance(out, np.ndarray):
        raise TypeError("out is an array of numpy")
    if dtype is not None and out.dtype != np.dtype(dtype):
        raise TypeError(f"out is of {out.dtype}, not {np.dtype(dtype)}")
    if out.ndim != 1:
        raise ValueError(f"out has {out.ndim} dimensions, and not one")
    if len(out) < count:
        raise ValueError(f"out has no room for {count} values")
    return out


def need_fit(numbers: Sequence[int], dtype: np.dtype) -> None:
    """OverflowError if another type lacks one of the integers. TypeError if it is none of numbers."""
    if dtype.kind in "SUV" and dtype.itemsize:
        raise TypeError(f"integers are no values of {dtype}")
    if not numbers or dtype.kind in "SUVO":
        return
    limits: Any = np.finfo(dtype) if dtype.kind in "fc" else np.iinfo(dtype if dtype.kind in "iu" else "i8")
    first, last = (0, 1) if dtype.kind == "b" else (int(limits.min) + (dtype.kind in "mM"), int(limits.max))  # the least date is NaT
    if min(numbers) < first or max(numbers) > last:
        raise OverflowError(f"the values from {min(numbers)} to {max(numbers)} do not fit {dtype}")


def fitted(ids: npt.NDArray[Any], dtype: np.dtype) -> np.ndarray:
    """Increasing ids as an array of another type. OverflowError if it lacks one."""
    need_fit([int(ids[0]), int(ids[-1])] if len(ids) else [], dtype)
    return ids.astype(dtype, copy=False)


def refuse_bytes(values: Any) -> None:
    """TypeError for texts, and for bytes, which may be those of a set or a column."""
    if isinstance(values, (str, bytes, bytearray, mmap.mmap)) or isinstance(values, memoryview) and values.format == "B":
        raise TypeError(f"integers expected, not {type(values).__name__}: packed bytes are opened by `open`")


def as_array(values: Any) -> Optional[np.ndarray]:
    """What has the interface of arrays as an array of integers of one dimension, or None if its values are objects, or it is another iterable."""
    refuse_bytes(values)
    if isinstance(values, np.ma.MaskedArray) and np.ma.is_masked(values):
        raise ValueError("values are missing")
    if not has_array(values):
        iter(values)
        return None
    array = np.asarray(values)
    if array.ndim != 1:
        raise (TypeError if array.ndim == 0 else ValueError)(f"one dimension expected, not {array.ndim}")
    if array.dtype.kind in "iu" or array.dtype == object:
        return array if array.dtype != object else None
    if len(array):
        _refuse(0, array[0])
    return np.empty(0, "=u4")


def has_array(values: Any) -> bool:
    """Whether it has the interface of arrays, or a buffer."""
    try:
        return hasattr(values, "__array__") or hasattr(values, "__array_interface__") or bool(memoryview(values).format)
    except TypeError:
        return False


def _parts(values: Any) -> Iterator[Tuple[int, np.ndarray]]:
    """The position and the values of each part of an iterable, as arrays of integers or objects."""
    at, rest = 0, iter(values)
    while True:
        part = values[at : at + PART] if isinstance(values, range) else list(islice(rest, PART))
        if not part:
            return
        yield at, array_of(part)
        at += len(part)


def array_of(part: Any) -> np.ndarray:
    """A range or a list as an array of integers, or of objects if numpy makes another one of it."""
    try:
        array = np.arange(part.start, part.stop, part.step) if isinstance(part, range) else np.array(part)
        if array.dtype.kind in "iu" and array.ndim == 1 and not _has_bool(part, array):
            return array
    except (OverflowError, ValueError):
        pass
    return objects_of(part)


def _has_bool(part: Any, array: np.ndarray) -> bool:
    """Whether one of the items is a bool, which is 0 or 1 in an array of integers."""
    some = () if isinstance(part, range) else part
    if len(some) > 1000:  # to look at each takes longer
        at = np.flatnonzero((array == 0) | (array == 1))
        some = some if 8 * len(at) > len(some) else list(map(some.__getitem__, at))
    return not {bool, np.bool_}.isdisjoint(set(map(type, some)))


def objects_of(part: Any) -> np.ndarray:
    """A list or a range as an array of objects."""
    array = np.empty(len(part), object)
    array[:] = part
    return array


def _of_kind(part: np.ndarray, at: int, kind: Kind) -> np.ndarray:
    """The values of a part as the type of a kind."""
    if part.dtype == object:
        return np.array([_fit(it, at + i, kind) for i, it in enumerate(part)], kind.dtype)
    if part.dtype != kind.dtype and part.size and not (part.min() >= 0 and part.max() <= kind.greatest):
        first = int(np.flatnonzero((part < 0) | (part > kind.greatest))[0])
        _refuse(at + first, part[first], kind)
    return part.astype(kind.dtype)


def _fit(it: Any, at: int, kind: Kind) -> int:
    value = integer(it, at)
    return value if 0 <= value <= kind.greatest else _refuse(at, it, kind)


def _nearest(part: np.ndarray, at: int) -> Tuple[npt.NDArray[np.uint64], npt.NDArray[np.bool_]]:
    if part.dtype == object:
        wide = [integer(it, at + i) for i, it in enumerate(part)]
        return np.array([min(max(it, 0), _WIDEST) for it in wide], "=u8"), np.array([not 0 <= it <= _WIDEST for it in wide], bool)
    near, below = part.astype("=u8"), part < 0
    near[below] = 0
    return near, below


def _i64_of(part: np.ndarray, at: int) -> np.ndarray:
    """The values of a part as int64, and the least one in place of one that does not fit."""
    if part.dtype == object:
        wide = [integer(it, at + i) for i, it in enumerate(part)]
        return np.array([it if _LEAST <= it < -_LEAST else _LEAST for it in wide], "=i8")
    return np.where(part >= -_LEAST, _LEAST, part.astype("=i8")) if part.dtype.kind == "u" else part.astype("=i8")


def _clipped(part: np.ndarray, at: int) -> npt.NDArray[np.int64]:
    """The values of a part as int64, from 0 to 2^32."""
    if part.dtype == object:
        return np.array([min(max(integer(it, at + i), 0), _GREATEST + 1) for i, it in enumerate(part)], "=i8")
    wide = np.minimum(part, np.uint64(_GREATEST + 1)) if part.dtype.kind == "u" else part
    return np.clip(wide.astype("=i8"), 0, _GREATEST + 1)


def integer(it: Any, at: int) -> int:
    """An integer of any size. TypeError with its position if it is none."""
    hint = ""
    if isinstance(it, (bool, np.bool_)):
        hint = ": IdSet.of_mask has the positions where a mask is true"
    else:
        try:
            return operator.index(it)
        except TypeError:
            pass
    raise TypeError(f"position {at}: {it!r} is not an integer{hint}")


def _refuse(at: int, it: Any, kind: Kind = _U32) -> NoReturn:
    hint = kind.hint if kind.greatest < integer(it, at) <= _WIDEST else ""
    raise OverflowError(f"position {at}: {it} is below 0 or above {kind.greatest}{hint}")
