"""Ids of 64 bits of the kinds that users have, each increasing."""

import sys

import numpy as np
from fimulowen import IdSet, IdSet64

from tables import VECTORS

sys.path.append(str(VECTORS))
from wide_decoders import decode_wide_set  # noqa: E402, of docs/FORMAT.md

MOST = 2**64 - 1
EDGES = [0, 2**31, 2**32 - 1, 2**32, 2**33, 2**52, 2**63 - 1, 2**63, MOST]
# The milliseconds of a day of 2026, and its nanoseconds.
MILLISECONDS, NANOSECONDS = 1_796_000_000_000, 1_796_000_000_000_000_000


def hashes(random, count):
    return random.integers(0, MOST, count, "u8", endpoint=True)


def snowflakes(random, count):
    """The milliseconds since a start in 2010, the number of a machine, and a number that counts within the millisecond."""
    at = MILLISECONDS - 1_288_834_974_657 + random.integers(0, 50, count, "u8").cumsum(dtype="u8")
    return at << np.uint64(22) | random.integers(0, 4, count, "u8") << np.uint64(12) | random.integers(0, 3, count, "u8")


def serials(random, count):
    """The keys of a table from which some rows were removed."""
    return np.uint64(random.integers(1, 2 ** random.integers(1, 40))) + random.integers(1, 5, count, "u8").cumsum(dtype="u8")


def times(random, count):
    return np.uint64(NANOSECONDS) + random.integers(1, 10 ** random.integers(1, 12), count, "u8").cumsum(dtype="u8")


def edges(random, count):
    """Around the numbers at which words, signs and types end."""
    near = [EDGES[it] for it in random.integers(0, len(EDGES), count)]
    moved = [it + int(by) for it, by in zip(near, random.integers(-9, 10, count))]
    return np.array([it for it in moved if 0 <= it <= MOST], "u8")


def steps(random, count):
    """A range with a step, over one word or over many."""
    step = int(random.choice([1, 1, 3, 2**16, 2**29, 2**32, 2**40]))
    first = max(0, int(random.choice(EDGES)) - int(random.integers(0, count * step + 1)))
    return np.array([it for it in range(first, first + count * step, step) if it <= MOST], "u8")


def limits(random, count):
    """As many ids that the form changes, in words with one or with many of them: n is 8 * W, 8 * W - 1 or 8 * W + 1."""
    words = np.unique(random.integers(0, 2**32, count // 8 + 1, "u8"))
    wanted = 8 * len(words) + int(random.integers(-1, 2))
    ids = words << np.uint64(32)
    while len(ids) < wanted:
        more = random.choice(words, wanted - len(ids)) << np.uint64(32) | random.integers(
            0, 2 ** random.integers(4, 33), wanted - len(ids), "u8"
        )
        ids = np.union1d(ids, more)
    return ids[:wanted]


KINDS = [hashes, snowflakes, serials, times, edges, steps, limits]


def drawn(random, kind, count):
    return np.unique(kind(random, count)) if count else np.empty(0, "u8")


def form_of(ids):
    """Byte 0 of docs/FORMAT.md."""
    return 8 if len(ids) and len(ids) >= 8 * len(np.unique(ids >> np.uint64(32))) else 9


def full(word):
    """The wide set of the first 2^28 ids with a high word. It is short: a run in each chunk. The bytes are as docs/FORMAT.md says."""
    body = IdSet(range(2**28)).tobytes()
    head = bytes.fromhex("08 8080808001 01 42") + word.to_bytes(4, "little") + len(body).to_bytes(2, "little")
    return IdSet64.open(head + (2**28).to_bytes(4, "little") + body)
