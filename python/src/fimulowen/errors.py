"""What is wrong with bytes or values that are refused."""

from __future__ import annotations

from typing import Optional


class Error(ValueError):
    """Bytes that are no set, column or blocks, or values that make none.

    fault       the name of the fault in docs/FORMAT.md: "BadWidth"; of blocks also "BadLength", if the values are not whole blocks
    position    of the first value that is out of order, from 0 on
    number      which one it is, of the sets or columns that were packed or opened by one call
    part        the number of the chunk, block or group that has the fault
    byte        the index of the byte at which the part with the fault begins

    Each but fault is None if it does not apply. Part and byte are not looked for in more than 2**20 bytes."""

    def __init__(
        self,
        text: str,
        fault: Optional[str] = None,
        position: Optional[int] = None,
        number: Optional[int] = None,
        part: Optional[int] = None,
        byte: Optional[int] = None,
    ):
        super().__init__(text, fault, position, number, part, byte)
        self.text, self.fault, self.position, self.number, self.part, self.byte = text, fault, position, number, part, byte

    def __str__(self) -> str:
        places = [f"{name} {getattr(self, name)}" for name in ("number", "part", "byte", "position") if getattr(self, name) is not None]
        return f"{self.text} ({', '.join([str(self.fault), *places])})"


def refused(text: str, fault: str, number: Optional[int], data: bytes, is_wide: bool) -> Error:
    """The error for bytes that do not open as a set, or as a wide one, with where it is in them."""
    from . import faults, wide_faults

    return Error(text, fault, number=number, **faults.place(data, fault, wide_faults.test if is_wide else faults.test))
