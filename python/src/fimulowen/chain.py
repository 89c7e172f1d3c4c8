"""Blocks end to end, without a header: the caller stores the widths, the kind, the number before the first value, and the lanes.

A block has 32 values for each of its 1, 4 or 8 lanes. One block is a chain of one."""

from __future__ import annotations

import operator
from typing import Literal, Optional, SupportsIndex, Tuple

import numpy as np
import numpy.typing as npt

from . import _core
from .values import KINDS, Bytes, Integers, u32

Kind = Literal["plain", "sorted", "strict"]
Lanes = Literal[1, 4, 8]
BLOCK_LEN = {1: 32, 4: 128, 8: 256}
"""How many values a block has, by its lanes."""


def pack(values: Integers, *, kind: Kind = "plain", initial: Optional[SupportsIndex] = None, lanes: Lanes = 4) -> Tuple[bytes, bytes]:
    """Packs whole blocks. Returns the width of each, a byte for each, and the bytes of all.

    `initial` is the number before the first value of a sorted or strict chain. It is 0 for sorted, and for strict None says that the first
    value may be 0. Error if the values are not whole blocks; values out of order are packed, in more bits."""
    return _core.chain_pack(u32(values), _kind(kind), lanes, _initial(kind, initial))


def unpack(
    widths: Bytes, data: Bytes, *, kind: Kind = "plain", initial: Optional[SupportsIndex] = None, lanes: Lanes = 4
) -> npt.NDArray[np.uint32]:
    """Unpacks the blocks of these widths, by the kind, initial number and lanes that they were packed with. `widths` and `data` are objects
    with a buffer. Any bytes are values, and bytes after the blocks are not read. Error if a width is above 32 or bytes are missing.
    """
    view = memoryview(widths)
    if view.itemsize != 1:
        raise TypeError(f"a byte for each width expected, not {view.itemsize}")
    return _core.chain_unpack(bytes(view), bytes(memoryview(data)), _kind(kind), lanes, _initial(kind, initial))


def _kind(kind: str) -> int:
    if kind not in KINDS:
        raise ValueError(f"kind is one of {', '.join(KINDS)}, not {kind!r}")
    return KINDS[kind]


def _initial(kind: str, initial: Optional[SupportsIndex]) -> int:
    if initial is None:
        return 0xFFFFFFFF if kind == "strict" else 0
    if kind == "plain":
        raise ValueError("a plain chain has no initial value")
    initial = operator.index(initial)
    if not 0 <= initial <= 0xFFFFFFFF:
        raise OverflowError("initial is below 0 or above 4294967295")
    return initial
