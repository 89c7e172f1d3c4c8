"""Where the fault of a damaged wide set is, as `faults` finds it in a set. The C library reads the bodies and the column in it again."""

from __future__ import annotations

import numpy as np

from . import _core
from .errors import Error
from .faults import ANY, MOST_IDS, Found, Reader, increasing, integers, need, parts


def test(data: Reader) -> None:
    form = data.byte()
    need(form in (8, 9), "BadVersion", 0)
    at = data.at
    count = data.number()
    need(count <= MOST_IDS, "TooLong", at)
    if form == 8:
        parts(data, count, count // 8, 4, 1 << 32, lambda counts: 9 * counts // 2 + 10, _body)
        need(data.left() == 0, "Trailing", data.at)
    else:
        _spread(data, count)


def _body(body: bytes, count: int, m: int, at: int, before: int) -> None:
    """The body of word m, which is the set of as many ids."""
    from .id_set import IdSet

    try:
        found = len(IdSet.open(body))
    except Error:
        found = -1
    need(found == count, "BadBody", at, m)


def _spread(data: Reader, count: int) -> None:
    at = data.at
    need(data.left() >= 4 * count, "Short", len(data.data))
    end = len(data.data) - 4 * count
    highs = _core.wide_high_words(data.data[at:end])
    if highs is None:
        raise Found(ANY, at)  # a fault of the column, or another kind
    need(len(highs) == count, "BadSum", at)
    data.at = end
    lows = integers(data.rows(count, 4))
    increasing(highs.astype("u8") << np.uint64(32) | lows, end, 4, 0, None)
    need(count == 0 or count < 8 * len(np.unique(highs)), "LooseForm", at)
