"""Bytes that no column has. Faults are by hand from the order of docs/FORMAT.md, or follow from how the bytes were changed. Only the faults of
texts with drawn bytes are found by decoders.py."""

from columns import WORKED, blocks_text, column_text, header
from decoders import decode_column
from parts import CUT_NUMBERS, MOST, NO_NUMBERS, body_of, group, number, with_another_byte
from refused_id_sets import each_once, fault_of

# Bytes worked by hand.
WORKED_REFUSALS = {
    "Short": ["", "61", "41", "4200", "420302", "5F8001", "5F80011121"],
    "BadVersion(63)": ["3F"],
    "BadVersion(128)": ["80"],
    "BadNumber": ["5F1E", "5F9E00"],
    "TooLong(268435457)": ["5F8180808001"],
    "BadSizes(16)": ["5F800110"],
    "BadOffset(0)": ["5F8001112100"],
    "Trailing": ["420201 0100"],
    "NotSorted(1)": ["63FFFFFFFF0F 0203"],
    "NotSorted(0)": ["7F8001 00 11 01 01 01" + 15 * "00", "7F8001 FFFFFFFF0F 11 01 00 01" + 15 * "00"],
}


def worked_refusals():
    for fault, texts in WORKED_REFUSALS.items():
        for text in texts:
            yield fault, bytes.fromhex(text)


def refused_fronts():
    """Each byte 0, and each form of a count and a first value that is no number."""
    for byte in range(256):
        if not 64 <= byte < 128:
            yield f"BadVersion({byte})", bytes([byte])
            yield f"BadVersion({byte})", bytes([byte]) + number(128) + bytes(8)
        elif byte not in (64, 96):
            yield "Short", bytes([byte])
    for byte in (64, 96):
        for more in (0, 1, 255):
            yield "Trailing", bytes([byte, more])
    fronts = [bytes([95]), bytes([127]), bytes([97]), bytes([126]), bytes([127]) + number(31), bytes([127]) + number(1000)]
    for front in [*fronts, bytes([65]), bytes([94]), bytes([95]) + number(127)]:
        for given in CUT_NUMBERS:
            yield "Short", front + bytes.fromhex(given)
        for given in NO_NUMBERS:
            yield "BadNumber", front + bytes.fromhex(given)
    for byte in (95, 127):
        for count in [0, 1, 29, 30]:
            yield "BadNumber", bytes([byte]) + number(count) + bytes(600)
        for count in [MOST + 1, 2**31, 2**32 - 1]:
            yield f"TooLong({count})", bytes([byte]) + number(count)
            yield f"TooLong({count})", bytes([byte]) + number(count) + b"\x80"  # before Short
    yield "Short", bytes([95]) + number(MOST)
    yield "Short", bytes([127]) + number(MOST) + number(7)


def refused_sizes():
    """Bytes with a fault in the byte of the sizes, in the ends, or in what these say of the bodies."""
    for kind in (0, 1):
        front = header(kind, 128, 7)
        for byte in range(256):
            right = byte % 16 in range(1, 5) and byte // 16 in range(1, 5)
            yield "Short" if right else f"BadSizes({byte})", front + bytes([byte])
        for byte in [0, 16, 1, 81, 21]:
            yield f"BadSizes({byte})", front + bytes([byte]) + bytes(8)
    for e in range(1, 5):
        for z in range(1, 5):
            yield "Short", header(0, 128, 0) + bytes([e + 16 * z]) + bytes([33, *bytes(e + z - 2)])  # before BadOffset: a byte is missing
    for end in [33, 34, 64, 128, 255]:
        yield "BadOffset(0)", header(0, 128, 0) + bytes([17, end, 0])
    for ends, m in [
        ([1, 0], 1),
        ([32, 31], 1),
        ([32, 65], 1),
        ([33, 33], 0),
        ([0, 33], 1),
        ([5, 5, 4], 2),
        ([5, 4, 5], 1),
        ([5, 255, 5], 1),
    ]:
        for sizes in (17, 34):  # before BadSizes, and Short
            short = b"".join(end.to_bytes(sizes % 16, "little") for end in ends) + bytes(sizes // 16 * len(ends))
            for count in (128 * len(ends), 128 * len(ends) + 1):
                yield f"BadOffset({m})", header(0, count, 0) + bytes([sizes]) + short
    for end in [2**8 + 1, 2**16 + 1, 2**24 + 1, 2**31, 2**32 - 1]:
        yield "BadOffset(0)", header(1, 128, 0) + bytes([20]) + end.to_bytes(4, "little") + bytes(1)
        yield "BadOffset(1)", header(1, 256, 0) + bytes([20]) + (1).to_bytes(4, "little") + end.to_bytes(4, "little") + bytes(2)
    for ends, marks, sizes in [
        ([0], [5], 18),
        ([0], [5], 33),
        ([0], [255], 33),
        ([0], [2**16 - 1], 49),
        ([0], [2**24 - 1], 65),
        ([2], [2**8], 36),
        ([0, 32], [2**16, 255], 66),
        ([0, 0], [300, 0], 49),
        ([1, 1], [0, 255], 33),
    ]:
        for more in (0, 16 * ends[-1], 16 * ends[-1] + 1):  # all else is right, or loose
            text = header(0, 128 * len(ends), 0) + bytes([sizes])
            text += b"".join(end.to_bytes(sizes % 16, "little") for end in ends)
            yield f"BadSizes({sizes})", text + b"".join(mark.to_bytes(sizes // 16, "little") for mark in marks) + bytes(more)
    ends = [*range(32, 256, 32), 255]
    yield "BadSizes(18)", header(0, 1024, 0) + bytes([18]) + b"".join(end.to_bytes(2, "little") for end in ends) + bytes(8)
    yield "Short", header(0, 1024, 0) + bytes([17, *ends]) + bytes(8) + bytes(16 * 255 - 1)


def one_block(kind, first, width, mark, codes, tail=b"", count=128):
    """A column of a block with these parts, and a tail."""
    return header(kind, count, first) + blocks_text([(width, mark, body_of(4, width, codes))]) + tail


def refused_blocks():
    """Blocks of a width or with a mark that is not theirs."""
    for width in range(1, 33):
        for place in [0, 1, 2, 3, 4, 126, 127]:  # the greatest code needs one bit less
            codes = [2 ** (width - 1) - 1 if it == place else 0 for it in range(128)]
            yield f"LooseWidth(0, {width})", one_block(0, 0, width, 0, codes)
            yield f"LooseWidth(0, {width})", one_block(1, 0, width, 1, codes)  # before BadLast
    codes = [*range(128)]
    values = [sum(codes[: m + 1]) for m in range(128)]
    for mark in [0, 127, values[-1] - 1, values[-1] + 1, 2**32 - 1]:
        yield "BadLast(0)", one_block(1, 0, 7, mark, codes)
        yield "BadLast(0)", one_block(1, 9, 7, mark, codes)  # before NotSorted
    for place in [0, 1, 2, 3, 4, 64, 127]:  # no code is 0
        yield "BadLast(0)", one_block(0, 0, 3, 5, [7 if it == place else 1 for it in range(128)])
        yield "BadLast(0)", one_block(0, 0, 32, 2**32 - 1, [2 if it == place else 2**31 for it in range(128)])  # the least wraps
        yield "BadLast(0)", one_block(0, 0, 4, 2**32 - 5, [10 if it == place else 0 for it in range(128)])  # one value wraps
    two = header(1, 256, 0)
    yield "BadLast(1)", two + blocks_text([(0, 0, b""), (1, 5, body_of(4, 1, 128 * [1]))])
    yield "LooseWidth(1, 1)", two + blocks_text([(0, 0, b""), (1, 0, body_of(4, 1, 128 * [0]))])
    yield "BadLast(0)", two + blocks_text([(0, 1, b""), (1, 0, body_of(4, 1, 128 * [0]))])  # block by block
    yield "BadLast(1)", two + blocks_text([(0, 0, b""), (0, 7, b"")])
    yield "BadLast(1)", header(1, 257, 0) + blocks_text([(0, 0, b""), (0, 7, b"")])  # before Short
    for first, codes, position in [
        (0, [1, *(127 * [0])], 0),
        (7, [2**32 - 7, *(127 * [0])], 0),
        (2**32 - 1, [1, *(127 * [0])], 0),
        (2**31, [0, 2**31, *(126 * [0])], 1),
        (5, [*(127 * [0]), 2**32 - 1], 127),
        (5, [*(64 * [0]), 2**32 - 1, 1, *(62 * [0])], 64),
    ]:
        last = (first + sum(codes)) % 2**32
        width = max(codes).bit_length()
        yield f"NotSorted({position})", one_block(1, first, width, last, codes)
        yield f"NotSorted({position})", one_block(1, first, width, last, codes, b"\x00", 129)
        yield "Short", one_block(1, first, width, last, codes, b"", 129)  # before NotSorted: the group is missing
        yield f"NotSorted({position})", one_block(1, first, width, last, codes, b"\x01\x01\x00", 129)  # before Trailing
    zeros = [(0, 2**32 - 1, b"")]
    yield "NotSorted(128)", header(1, 129, 2**32 - 1) + blocks_text(zeros) + b"\x01\x01"
    back = [(0, 9, b""), (32, 9, body_of(4, 32, [2**32 - 1, 1, *(126 * [0])]))]
    yield "NotSorted(128)", header(1, 256, 9) + blocks_text(back)


def refused_tails():
    """Tails with a fault: in a group, in the least value of a plain one, or in the order of a sorted one."""
    for front, block, count in [  # and how many codes
        (bytes([66, 0]), 0, 2),
        (bytes([98, 0]), 0, 1),
        (header(0, 128 + 2, 0) + blocks_text([(0, 0, b"")]) + b"\x00", 1, 2),
        (header(1, 128 + 1, 0) + blocks_text([(0, 0, b"")]), 1, 1),
    ]:
        for width in [33, 34, 64, 255]:
            yield f"BadWidth({block}, {width})", front + bytes([width])
        for width in range(1, 33):
            size = (count * width + 7) // 8
            yield f"LooseWidth({block}, {width})", front + bytes([width]) + (2 ** (width - 1) - 1).to_bytes(size, "little")
            yield "Short", front + bytes([width]) + bytes(size - 1)  # before LooseWidth
    for kind in (0, 1):
        front = header(kind, 34 + kind, 0) + (b"" if kind else b"\x00")
        yield "BadWidth(1, 77)", front + bytes([0, 77])
        yield "LooseWidth(1, 2)", front + bytes([0, 2, 5])
        yield "LooseWidth(0, 1)", front + bytes([1]) + bytes(4) + bytes([2, 22])  # group by group
        yield "Padding", front + bytes([0, 2, 6 + 16])
        yield "Short", front + bytes([0])
    yield "Padding", bytes([98, 5, 1, 3])
    yield "Padding", bytes([66, 5, 1, 6])
    yield "Padding", bytes([66, 5, 1, 7])  # before BadLast
    for codes in [[1, 1], [3, 2], [1, 2**32 - 1], [2**31, 2**31], 33 * [1], [*range(1, 128)]]:
        groups = b"".join(group(codes[at : at + 32]) for at in range(0, len(codes), 32))
        for more in (b"", b"\x00"):  # before Trailing
            yield "BadLast(0)", header(0, len(codes), 0) + number(5) + groups + more
            yield "BadLast(1)", header(0, 128 + len(codes), 0) + blocks_text([(0, 3, b"")]) + number(5) + groups + more
    wrapped = group([0, 2**32 - 5])
    yield "BadLast(0)", header(0, 2, 0) + number(5) + wrapped  # 5, and 5 + 2^32 - 5
    for first, codes, position in [
        (2**32 - 1, [1], 1),
        (2**32 - 2, [1, 1], 2),
        (1, [2**32 - 1], 1),
        (0, [2**31, 2**31, 0], 2),
        (5, [2**32 - 1, 7, 0], 1),
        (2**32 - 33, [*(32 * [1]), 1], 33),
        (2**32 - 126, 126 * [1], 126),
    ]:
        groups = b"".join(group(codes[at : at + 32]) for at in range(0, len(codes), 32))
        for more in (b"", b"\x00"):  # before Trailing
            yield f"NotSorted({position})", header(1, len(codes) + 1, first) + groups + more


def cut_columns():
    """Columns without their last bytes, and with a byte more."""
    for kind, values, text in WORKED:
        if values:
            for end in range(1, len(bytes.fromhex(text))):
                yield "Short", bytes.fromhex(text)[:end]
        for byte in [0, 1, 255]:
            yield "Trailing", bytes.fromhex(text) + bytes([byte])


def drawn_texts():
    """Texts of columns, each 32 times with another byte."""
    return with_another_byte([column_text(kind, values) for kind, values, _ in WORKED if len(values) > 1], 32)


def damaged_columns():
    """The drawn texts with their fault, or with their kind and values."""
    for text in {text: None for text in drawn_texts()}:
        yield text, *fault_of(decode_column, text)


def refused_columns():
    """Each text with its fault, once."""
    return each_once([worked_refusals, refused_fronts, refused_sizes, refused_blocks, refused_tails, cut_columns], damaged_columns)
