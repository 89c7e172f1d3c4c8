"""Where the fault of a damaged set is: its part, its byte or its position. The C library says what is wrong; this reads the bytes again, in the
order of docs/FORMAT.md, up to the same fault. It only runs once bytes are refused."""

from __future__ import annotations

from typing import Any, Callable, Dict, List, Optional, Tuple

import numpy as np

MOST = 1 << 20  # bytes that are read again, in about a tenth of a second
_SHORT, MOST_IDS = 128, 1 << 28
ANY = ""  # the name of a fault that only the library knows


class Found(Exception):
    """A fault, with the part and the byte where it is, and the position of a value out of order."""

    def __init__(self, fault: str, byte: Optional[int], part: Optional[int] = None, position: Optional[int] = None):
        super().__init__(fault)
        self.fault, self.place = fault, {"byte": byte, "part": part, "position": position}


def place(data: bytes, fault: str, test: Callable[[Reader], None]) -> Dict[str, Any]:
    """Where the first fault of the bytes is that a test finds, as the arguments of Error. It is empty if they are many, which is slow to read here,
    or have another first fault."""
    if len(data) > MOST:
        return {}
    try:
        test(Reader(data))
    except Found as found:
        return found.place if found.fault in (fault, ANY) else {}
    return {}


def need(holds: Any, fault: str, byte: Optional[int], part: Optional[int] = None, position: Optional[int] = None) -> None:
    if not holds:
        raise Found(fault, byte, part, position)


def integers(rows: np.ndarray) -> np.ndarray:
    """The little-endian integers that the bytes of each row are."""
    return (rows.astype("u8") << (8 * np.arange(rows.shape[1], dtype="u8"))).sum(axis=1, dtype="u8")


class Reader:
    """The bytes as far as they are read: `at` is the next one."""

    def __init__(self, data: bytes):
        self.data, self.at = data, 0

    def left(self) -> int:
        return len(self.data) - self.at

    def rows(self, count: int, size: int) -> np.ndarray:
        """The next bytes, as `count` rows of `size`. They have to be there."""
        at, self.at = self.at, self.at + count * size
        return np.frombuffer(self.data, "u1", count * size, at).reshape(count, size)

    def byte(self, part: Optional[int] = None) -> int:
        need(self.left() > 0, "Short", self.at, part)
        self.at += 1
        return self.data[self.at - 1]

    def number(self, least: int = 0) -> int:
        """A number of one to five bytes, which is at least this one."""
        value, start = 0, self.at
        for j in range(5):
            need(start + j < len(self.data), "Short", start)
            value += self.data[start + j] % 128 << 7 * j
            if self.data[start + j] < 128:
                need((j == 0 or self.data[start + j] > 0) and least <= value < 2**32, "BadNumber", start)
                self.at = start + j + 1
                return value
        raise Found("BadNumber", start)

    def group(self, part: int, count: int) -> np.ndarray:
        """The codes of a group: its width, and `count` codes of as many bits."""
        at, width = self.at, self.byte(part)
        need(width <= 32, "BadWidth", at, part)
        size = (count * width + 7) // 8
        need(self.left() >= size, "Short", self.at, part)
        bits = np.unpackbits(self.rows(1, size)[0], bitorder="little")
        codes = bits[: count * width].reshape(count, width).astype("u8") << np.arange(width, dtype="u8")
        found = codes.sum(axis=1, dtype="u8")
        need(width == int(found.max()).bit_length(), "LooseWidth", at, part)
        need(not bits[count * width :].any(), "Padding", at + size, part)
        return found


def test(data: Reader) -> None:
    first = data.byte()
    if first >= _SHORT:
        _few(data, first - _SHORT)
    else:
        need(first in (5, 6), "BadVersion", 0)
        at = data.at
        count = data.number(_SHORT)
        need(count <= MOST_IDS, "TooLong", at)
        (_array if first == 6 else _chunks)(data, count)
    need(data.left() == 0, "Trailing", data.at)


def _few(data: Reader, count: int) -> None:
    ids: List[int] = [data.number()] if count else []
    while len(ids) < count:
        for code in data.group((len(ids) - 1) // 32, min(32, count - len(ids))).tolist():
            ids.append(ids[-1] + code + 1)
    for position, it in enumerate(ids):
        need(it < 2**32, "NotSorted", None, None, position)


def _array(data: Reader, count: int) -> None:
    at = data.at
    need(data.left() >= 4 * count, "Short", len(data.data))
    ids = integers(data.rows(count, 4))
    increasing(ids, at, 4, 0, None)
    need(len(np.unique(ids >> 16)) > count // 4, "LooseForm", at)


def increasing(numbers: np.ndarray, at: int, size: int, before: int, part: Optional[int]) -> None:
    for i in np.flatnonzero(numbers[1:] <= numbers[:-1])[:1].tolist():
        raise Found("NotSorted", at + size * (i + 1), part, before + i + 1)


def _chunks(data: Reader, count: int) -> None:
    parts(data, count, min(count // 4, 1 << 16), 2, 1 << 16, lambda counts: 2 * counts, _body)


def parts(
    data: Reader,
    count: int,
    most: int,
    key_size: int,
    most_ids: int,
    most_bytes: Callable[[np.ndarray], np.ndarray],
    test_body: Callable[[bytes, int, int, int, int], None],
) -> None:
    """The chunks of a set, or the words of a wide one, at most as many: their number, sizes, keys, ends, sums and bodies."""
    at = data.at
    number = data.number(1)
    need(number <= most, "BadNumber", at)
    sizes_at = data.at
    sizes = data.byte()
    end_size, sum_size = sizes % 16, sizes // 16
    need(1 <= end_size <= 4 and 1 <= sum_size <= 4, "BadSizes", sizes_at)
    need(data.left() >= number * (key_size + end_size + sum_size), "Short", len(data.data))
    at = data.at
    keys, ends, sums = (integers(data.rows(number, size)).astype("i8") for size in (key_size, end_size, sum_size))
    counts, lengths = np.diff(sums, prepend=0), np.diff(ends, prepend=0)
    bad_keys, bad_sums = np.diff(keys, prepend=-1) <= 0, (counts < 1) | (counts > most_ids)
    bad_sums[-1] |= int(sums[-1]) != count
    bad_ends = (lengths < 1) | (lengths > most_bytes(counts))
    for m in np.flatnonzero(bad_keys | bad_sums | bad_ends)[:1].tolist():
        need(not bad_keys[m], "BadKey", at + key_size * m, m)
        need(not bad_sums[m], "BadSum", at + (key_size + end_size) * number + sum_size * m, m)
        raise Found("BadOffset", at + key_size * number + end_size * m, m)
    least = [max(1, (int(it).bit_length() + 7) // 8) for it in (ends[-1], count)]
    need([end_size, sum_size] == least, "BadSizes", sizes_at)
    need(data.left() >= int(ends[-1]), "Short", len(data.data))
    for m, (ids, length) in enumerate(zip(counts.tolist(), lengths.tolist())):
        test_body(data.data[data.at : data.at + length], ids, m, data.at, int(sums[m]) - ids)
        data.at += length


def _body(body: bytes, count: int, m: int, at: int, before: int) -> None:
    """The body of chunk m, which has as many numbers, after so many ids."""
    if len(body) == 2 * count:
        numbers = integers(np.frombuffer(body, "u1").reshape(count, 2))
        increasing(numbers, at, 2, before, m)
        need(_blocks_size(numbers) >= 2 * count, "LooseBody", at, m)
    elif body[:2] == b"\x01\xff":
        boundaries = integers(np.frombuffer(body, "u1", len(body) // 2 * 2).reshape(-1, 2))[1:].astype("i8")
        gaps = np.diff(boundaries, append=1 << 16)
        need(len(body) % 2 == 0 and (gaps > 0).all() and gaps[::2].sum() == count, "BadBody", at, m)
        need(_are_runs(len(boundaries), count), "LooseBody", at, m)
    else:
        found = _boundaries(body, count)
        need(found, "BadBody", at, m)
        need(not _are_runs(found, count), "LooseBody", at, m)


def _are_runs(boundaries: int, count: int) -> bool:
    return boundaries <= min(64, count // 8)


def _size(count: int) -> int:
    """The bytes of a slice of as many numbers."""
    return count if count < 32 else 32 if count < 256 else 0


def _blocks_size(numbers: np.ndarray) -> int:
    counts = np.unique(numbers >> 8, return_counts=True)[1].tolist()
    return 1 + _size(len(counts)) + len(counts) + sum(map(_size, counts))


def _boundaries(body: bytes, count: int) -> int:
    """How many boundaries the numbers of blocks have; 0 if the body has not so many numbers in blocks."""
    high = body[0] + 1
    at = 1 + _size(high)
    counts = [it + 1 for it in body[at : at + high]]
    if len(counts) < high or sum(counts) != count or len(body) != at + high + sum(map(_size, counts)):
        return 0
    at, starts = at + high, [1]
    for it in counts:
        starts.append(at)
        at += _size(it)
    slices = [_bits(body[start : start + _size(it)], it) for start, it in zip(starts, [high, *counts])]
    if not all(slices):
        return 0
    found, after, last = 0, 0, 0  # `last` is 1 if the number before the next slice is there
    for it, bits in zip((it for it in range(256) if slices[0] >> it & 1), slices[1:]):
        if it > after:
            found, last = found + last, 0
        found += (bits ^ (bits << 1 | last) % (1 << 256)).bit_count()
        after, last = it + 1, bits >> 255
    return found + last * (after < 256)


def _bits(part: bytes, count: int) -> int:
    """The bits of a slice; 0 if it does not have so many bytes."""
    if count < 32:
        return sum(1 << it for it in part) if all(one < other for one, other in zip(part, part[1:])) else 0
    bits = int.from_bytes(part, "little") if count < 256 else (1 << 256) - 1
    return bits if bits.bit_count() == count else 0
