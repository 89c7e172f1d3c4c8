"""The decoders of what docs/FORMAT.md says of 64 bits. They go after decoders.py, and return or raise as that says."""

from decoders import *


def words_at(at, count, text):
    words, at = number_at(at, text)
    need(1 <= words <= count // 8, "BadNumber")
    highs, counts, lens, at = directory_at(at, count, 4, words, 2**32, lambda k: 9 * k // 2 + 10, text)
    ids = []
    for m in range(words):
        ids += [2**32 * highs[m] + low for low in word_lows(m, counts[m], text[at : at + lens[m]])]
        at += lens[m]
    return ids, at


def word_lows(m, count, body):
    try:
        lows = decode_set(body)
    except ValueError:
        raise ValueError("BadBody", m) from None
    need(len(lows) == count, "BadBody", m)
    return lows


def spread_at(at, count, text):
    need(len(text) - at >= 4 * count, "Short")
    end = len(text) - 4 * count
    kind, highs = decode_column(text[at:end])
    need(kind == 1, "BadKind", 0)
    need(len(highs) == count, "BadSum", 0)
    lows, end = shorts_at(end, 4, count, text)
    ids = [2**32 * high + low for high, low in zip(highs, lows)]
    for p in range(1, count):
        need(ids[p - 1] < ids[p], "NotSorted", p)
    need(count == 0 or count < 8 * len({*highs}), "LooseForm")
    return ids, end


def decode_wide_set(text):
    need(len(text) > 0, "Short")
    need(text[0] in (8, 9), "BadVersion", text[0])
    n, at = number_at(1, text)
    need(n <= 2**28, "TooLong", n)
    ids, end = (words_at if text[0] == 8 else spread_at)(at, n, text)
    need(end == len(text), "Trailing")
    return ids
