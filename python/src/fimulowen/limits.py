"""Dates, times and spans of any unit as numbers of the unit of a column. Integers of Python have room for those that no array has."""

from __future__ import annotations

import datetime
import re
from typing import Any, Tuple

import numpy as np

_SECOND = 10**18
_DAY = 86_400 * _SECOND
# A unit in attoseconds, or in months.
_SIZES = {"W": 7 * _DAY, "D": _DAY, "h": 3600 * _SECOND, "m": 60 * _SECOND, "s": _SECOND}
_SIZES |= {unit: 10 ** (15 - 3 * at) for at, unit in enumerate(["ms", "us", "ns", "ps", "fs", "as"])}
_MONTHS = {"Y": 12, "M": 1}
_CYCLE = 400 * 12, 146_097  # months and days, after which the calendar begins again
_EPOCH = datetime.date(1970, 1, 1).toordinal()


def numbers_beside(value: Any, dtype: np.dtype) -> Tuple[int, int]:
    """The least number of a type of dates or spans that is not before a value, and the greatest that is not after it. They may have more than 64
    bits. TypeError if the value is of another kind, and ValueError if it is NaT."""
    unit, count = np.datetime_data(dtype)
    amount, is_months = _amount(value, dtype.kind, unit)
    if dtype.kind == "M" and unit in _MONTHS:
        month = amount * _CYCLE[0] // (_CYCLE[1] * _DAY)
        month += (_start(month + 1) <= amount) - (_start(month) > amount)
        before, is_there = month // (_MONTHS[unit] * count), _start(month) == amount and month % (_MONTHS[unit] * count) == 0
    elif is_months != (unit in _MONTHS):
        raise TypeError(f"{value!r} has no number of {dtype}")
    else:
        before, rest = divmod(amount, (_MONTHS | _SIZES)[unit] * count)
        is_there = rest == 0
    return before + (not is_there), before


def _amount(value: Any, kind: str, unit: str) -> Tuple[int, bool]:
    """A date as attoseconds from 1970 on; a span as attoseconds, or as months, and whether it is. One without a unit is of this one."""
    value = getattr(value, "asm8", value)  # of pandas
    if isinstance(value, np.ndarray) and value.ndim == 0:
        value = value[()]
    if kind == "M" and isinstance(value, str):
        return _of_text(value), False
    if kind == "m" and isinstance(value, datetime.timedelta):
        return value // datetime.timedelta(microseconds=1) * _SIZES["us"], False
    if kind == "M" and isinstance(value, datetime.date):
        value = np.datetime64(value)
    if not isinstance(value, np.generic) or value.dtype.kind != kind:
        raise TypeError(f"a {'date' if kind == 'M' else 'span'} expected, not {type(value).__name__}")
    if np.isnat(value):
        raise ValueError(f"a {'date' if kind == 'M' else 'span'} expected, not NaT")
    given, count = np.datetime_data(value.dtype)
    number, given = int(value.view("i8")) * count, unit if given == "generic" else given
    if kind == "M" and given in _MONTHS:
        return _start(number * _MONTHS[given]), False
    return number * (_MONTHS | _SIZES)[given], given in _MONTHS


def _start(month: int) -> int:
    """The attosecond at which a month begins. Both are counted from the start of 1970."""
    cycles, within = divmod(month, _CYCLE[0])
    return (cycles * _CYCLE[1] + datetime.date(1970 + within // 12, within % 12 + 1, 1).toordinal() - _EPOCH) * _DAY


def _of_text(text: str) -> int:
    """The attosecond of a date as ISO 8601 writes it. numpy reads a year of few digits and whole seconds, which fit its types."""
    if len(text) < 19:
        return _amount(np.datetime64(text), "M", "s")[0]
    part, long = re.fullmatch(r"(.*:\d\d:\d\d)\.(\d+)(.*)", text), re.match(r"\s*([+-]?\d{6,})", text)
    fraction, whole, cycles = (part[2], part[1] + part[3], 0) if part else ("", text, 0)
    if long:
        cycles, within = divmod(int(long[1]) - 2000, 400)
        whole = f"{2000 + within}{whole[long.end():]}"
    found, _ = _amount(np.datetime64(whole), "M", "s")
    return found + cycles * _CYCLE[1] * _DAY + int(f"{fraction:0<18}"[:18])
