"""Bitmaps in Roaring's portable format, laid by docs/ROARING.md."""

import numpy as np


def bitmap(ids, as_runs):
    """The bytes of the bitmap of ids, each container as runs, or as an array or bits."""
    (keys, starts), bodies, counts = np.unique(ids >> 16, return_index=True), [], []
    for low in np.split((ids & 0xFFFF).astype("i8"), starts[1:])[: len(keys)]:
        if as_runs:
            firsts, lasts = low[np.diff(low, prepend=-2) > 1], low[np.diff(low, append=65537) > 1]
            body = np.append(len(firsts), np.stack([firsts, lasts - firsts], 1)).astype("<u2")
        elif len(low) <= 4096:
            body = low.astype("<u2")
        else:
            bits = np.zeros(65536, "?")
            bits[low] = True
            body = np.packbits(bits, bitorder="little")
        bodies.append(body.tobytes())
        counts.append(len(low) - 1)
    count, head = len(keys), b"\x3A\x30\0\0" + len(keys).to_bytes(4, "little")
    if as_runs:
        head = b"\x3B\x30" + (count - 1).to_bytes(2, "little") + ((1 << count) - 1).to_bytes((count + 7) // 8, "little")
    head += np.stack([keys, counts], 1).astype("<u2").tobytes()
    if not as_runs or count >= 4:
        starts = len(head) + 4 * count + np.cumsum([0, *map(len, bodies)])[:-1]
        head += starts.astype("<u4").tobytes()
    return head + b"".join(bodies)
