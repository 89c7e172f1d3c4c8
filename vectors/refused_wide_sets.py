"""Bytes that no wide set has. Faults are by hand from the order of docs/FORMAT.md, or follow from how the bytes were changed. Only the faults of
texts with drawn bytes are found by wide_decoders.py."""

from columns import column_text
from id_sets import EVEN, array_of, few_of, set_text, sums_of
from parts import CUT_NUMBERS, MOST, NO_NUMBERS, number, with_another_byte
from refused_columns import refused_columns
from refused_id_sets import each_once, fault_of, refused_id_sets
from wide_decoders import decode_wide_set
from wide_sets import WORKED, in_high_words, in_words, spread_out, spread_words, wide_set_text

# Bytes worked by hand.
WORKED_REFUSALS = {
    "Short": ["", "09", "0985", "0901", "0808", "080801", "08080111", "08080111 01000000 07 08", "090105 000000", "090161 00 050000"],
    "BadVersion(5)": ["05"],
    "BadNumber": ["098500", "080802", "080700"],
    "TooLong(268435457)": ["098180808001"],
    "BadKind(0)": ["090141 05 05000000"],
    "BadSum(0)": ["090160 05000000", "090162 0000 05000000", "08080111 01000000 07 07"],
    "NotSorted(1)": ["090262 0000 05000000 05000000"],
    "LooseForm": ["090868 0000 00000000 01000000 02000000 03000000 04000000 05000000 06000000 07000000"],
    "BadSizes(16)": ["08080110"],
    "BadSizes(18)": ["08080112 01000000 0700 08"],
    "BadOffset(0)": ["08080111 01000000 00 08"],
    "BadBody(0)": ["08080111 01000000 07 08 87 80E497D002 00"],
    "Trailing": ["08080111 01000000 07 08 88 80E497D002 00 00"],
    "BadKey(1)": ["08100211 00000000 00000000 03 05 0F 10 8F0000 8100"],
}
FEW = few_of([*range(10)])  # three bytes


def worked_refusals():
    for fault, texts in WORKED_REFUSALS.items():
        for text in texts:
            yield fault, bytes.fromhex(text)


def refused_fronts():
    """Each byte 0, and each form of a count that is no number."""
    for byte in range(256):
        if byte not in (8, 9):
            yield f"BadVersion({byte})", bytes([byte])
            yield f"BadVersion({byte})", bytes([byte]) + number(8) + bytes(8)
    for front in [bytes([8]), bytes([9]), bytes([8]) + number(8), bytes([8]) + number(2**20)]:
        for given in CUT_NUMBERS:
            yield "Short", front + bytes.fromhex(given)
        for given in NO_NUMBERS:
            yield "BadNumber", front + bytes.fromhex(given)
    for form in [8, 9]:
        for count in [MOST + 1, 2**31, 2**32 - 1]:
            yield f"TooLong({count})", bytes([form]) + number(count)
            yield f"TooLong({count})", bytes([form]) + number(count) + number(0)
        for count in [8, 1000, MOST]:
            yield "Short", bytes([form]) + number(count)
            yield "Short", bytes([form]) + number(count) + number(1)


def refused_spread():
    """A spread set with a fault before its column, and with a column that has one, or other values."""
    for count in [1, 7, 100]:
        for size in [0, 1, 4 * count - 1]:
            yield "Short", bytes([9]) + number(count) + bytes(size)
        yield "Short", bytes([9]) + number(count) + bytes(4 * count)  # a column of no byte
    lows = spread_words(5)
    for fault, column in refused_columns()[::7]:
        yield fault, spread_out(5, column, lows)
        yield fault, spread_out(0, column, [])
    for values in [[], [1], [4, 3, 2], 3 * [7], [*range(200)]]:
        yield "BadKind(0)", spread_out(len(values), column_text(0, values), spread_words(max(1, len(values)))[: len(values)])
        yield "BadKind(0)", spread_out(5, column_text(0, values), lows)  # before BadSum
    for count in [0, 1, 4, 6, 7, 31, 128, 200]:
        yield "BadSum(0)", spread_out(5, column_text(1, [*range(count)]), 5 * [0])
        yield "BadSum(0)", spread_out(5, column_text(1, count * [8]), 5 * [0])  # before NotSorted
    for count in [1, 2, 200]:
        yield "BadSum(0)", spread_out(0, column_text(1, [*range(count)]), [])
    for position in [1, 2, 127, 128, 199]:
        highs, lows = [it // 7 for it in range(200)], [*range(1000, 1200)]
        same = highs[position] == highs[position - 1]
        highs = highs if same else [it - (at >= position) for at, it in enumerate(highs)]
        for low in [lows[position - 1], lows[position - 1] - 1, 0]:
            changed = [*lows[:position], low, *lows[position + 1 :]]
            yield f"NotSorted({position})", spread_out(200, column_text(1, highs), changed)
    yield "NotSorted(3)", spread_out(9, column_text(1, 9 * [1]), [0, 1, 2, 2, *range(3, 8)])  # before LooseForm
    for words in [1, 2, 16, 17]:
        for count in [8 * words, 8 * words + 1, 20 * words]:
            highs = sorted(2**31 + at % words for at in range(count))
            yield "LooseForm", spread_out(count, column_text(1, highs), [*range(count)])


def refused_directories():
    """Words with a fault before the bodies."""
    front = bytes([8]) + number(16)
    for count, words in [(0, 0), (0, 1), (7, 1), (8, 0), (8, 2), (15, 2), (1000, 126), (MOST, MOST // 8 + 1), (MOST, 2**32 - 1)]:
        yield "BadNumber", bytes([8]) + number(count) + number(words)
        yield "BadNumber", bytes([8]) + number(count) + number(words) + bytes(9 * words if words < 1000 else 9)
    for count, words in [(8, 1), (16, 2), (1000, 125), (MOST, MOST // 8)]:
        yield "Short", bytes([8]) + number(count) + number(words)
    for sizes in range(256):
        right = sizes % 16 in range(1, 5) and sizes // 16 in range(1, 5)
        yield "Short" if right else f"BadSizes({sizes})", front + bytes([1, sizes])
        if right:  # a byte is missing, before BadSum
            yield "Short", front + bytes([1, sizes]) + bytes(3 + sizes % 16 + sizes // 16)
            if sizes != 17:
                yield f"BadSizes({sizes})", in_words(10, [0], [3], [10], [], sizes)  # before Short
                yield f"BadSizes({sizes})", in_words(10, [0], [3], [10], [FEW, b"\0"], sizes)
    for highs, m in [
        ([0, 0], 1),
        ([1, 0], 1),
        ([2**32 - 1, 2**32 - 1], 1),
        ([256, 1], 1),
        ([0, 2**32 - 1, 2**24], 2),
        ([0, 5, 5], 2),
    ]:
        ends, sums = ([size * (at + 1) for at in range(len(highs))] for size in [3, 10])
        yield f"BadKey({m})", in_words(sums[-1], highs, ends, sums, [FEW] * len(highs))
        yield f"BadKey({m})", in_words(sums[-1] + 1, highs, [*ends[:-1], 0], sums, [])  # before BadSum, BadOffset and Short
    for count, sums, m in [
        (8, [0], 0),
        (8, [7], 0),
        (8, [9], 0),
        (16, [8, 15], 1),
        (16, [8, 17], 1),
        (16, [0, 16], 0),
        (16, [16, 16], 1),
        (16, [17, 16], 1),
        (24, [16, 15, 24], 1),
        (24, [16, 16, 24], 1),
        (MOST, [MOST - 1], 0),
        (MOST, [2**32 - 1], 0),
    ]:
        keys, sizes = [*range(len(sums))], 0x11 if max(sums) < 256 else 0x44
        yield f"BadSum({m})", in_words(count, keys, [3 * key + 3 for key in keys], sums, [], sizes)
        ends = [3 * key + 3 for key in keys[:m]] + [0] * (len(keys) - m)
        yield f"BadSum({m})", in_words(count, keys, ends, sums, [], sizes)  # before BadOffset
    yield "BadOffset(0)", in_words(16, [0, 0], [0, 3], [8, 16], [])  # word by word, before BadKey(1)
    yield "BadSum(0)", in_words(16, [0, 0], [3, 6], [0, 16], [])
    for k, ends, m in [
        (8, [0], 0),
        (8, [47], 0),
        (9, [51], 0),
        (8, [2**32 - 1], 0),
        (8, [3, 3], 1),
        (8, [3, 2], 1),
        (8, [3, 50], 1),
        (9, [50, 101], 1),
    ]:
        sums = [k * (at + 1) for at in range(len(ends))]
        yield f"BadOffset({m})", in_words(sums[-1], [*range(len(ends))], ends, sums, [])
        yield f"BadOffset({m})", in_words(sums[-1], [*range(len(ends))], ends, sums, [], 0x44)  # before BadSizes
    for end in [1, 3, 46]:  # at most 9 * k / 2 + 10 bytes
        yield "Short", in_words(8, [0], [end], [8], [bytes(end - 1)])  # before BadBody


def refused_bodies():
    """Words with a body that is no set, or a set of another count: alone, the first and the last of two."""
    bodies = [
        (8, FEW),
        (9, FEW),
        (11, FEW),
        (10, FEW + b"\0"),
        (10, FEW[:-1]),
        (10, b"\0"),
        (10, b"\x08" + FEW),
        (10, wide_set_text([*range(10)])),
    ]
    bodies += [(10, bytes([138, 0, 2, 0, 0, 1])), (10, column_text(1, [*range(10)])), (100, array_of([2**20 * m for m in range(100)]))]
    bodies += [
        (128, set_text([*range(129)])),
        (128, set_text(EVEN)[:-1]),
        (128, array_of([4096 * m for m in range(128)])),
        (129, set_text(EVEN)),
    ]
    for fault, body in [it for it in refused_id_sets() if 0 < len(it[1]) < 60][::23]:
        bodies.append(({128: 12}.get(body[0], max(8, body[0] - 128) if body[0] > 128 else 128), body))
    for count, body in bodies:
        if len(body) <= 9 * count // 2 + 10:
            yield "BadBody(0)", in_words(count, [9], [len(body)], [count], [body])
            yield "BadBody(0)", in_words(count, [9], [len(body)], [count], [body, b"\0"])  # before Trailing
            if count >= 8:
                ends, sums = sums_of([3, len(body)]), sums_of([10, count])
                yield "BadBody(1)", in_words(sums[-1], [9, 10], ends, sums, [FEW, body])
                ends, sums = sums_of([len(body), 3]), sums_of([count, 10])
                yield "BadBody(0)", in_words(sums[-1], [9, 10], ends, sums, [body, FEW])
    yield "BadBody(0)", in_words(20, [0, 1], [4, 6], [10, 20], [FEW, FEW])  # an end between two bodies
    yield "BadBody(1)", in_words(30, [0, 1, 2], [3, 7, 9], [10, 20, 30], [FEW, FEW, FEW])


def cut_sets():
    """Sets without their last bytes, and words with a byte more."""
    for ids in [
        *(ids for ids, _ in WORKED),
        in_high_words((7, range(300)), (9, [4])),
        in_high_words((7, EVEN), (8, EVEN), (2**32 - 1, EVEN)),
    ]:
        text = wide_set_text(ids)
        if text[0] == 8:
            for byte in [0, 1, 255]:
                yield "Trailing", text + bytes([byte])
            for end in range(len(text)):
                yield "Short", text[:end]
    yield "Short", wide_set_text([5])[:-1]


def drawn_texts():
    """Texts of wide sets, each 32 times with another of the first 60 bytes."""
    bases = [ids for ids, _ in WORKED[3:]] + [in_high_words((0, range(20)), (1, EVEN), (2**32 - 1, [*range(0, 2**20, 2**14)]))]
    bases += [
        in_high_words(*((3 * m, range(m, m + 9)) for m in range(9))),
        in_high_words(*((2**25 * m, [m, 2**31]) for m in range(70))),
    ]
    bases += [in_high_words(*((m, range(m % 7 + 1)) for m in range(40))), [*range(2**64 - 7, 2**64)]]
    return with_another_byte(map(wide_set_text, bases), 32, 60)


def damaged_wide_sets():
    """The drawn texts with their fault, or with their ids."""
    for text in {text: None for text in drawn_texts()}:
        yield text, *fault_of(decode_wide_set, text)


def refused_wide_sets():
    """Each text with its fault, once."""
    return each_once([worked_refusals, refused_fronts, refused_spread, refused_directories, refused_bodies, cut_sets], damaged_wide_sets)
