"""Bytes that no set has. Faults are by hand from the order of docs/FORMAT.md, or follow from how the bytes were changed. Only the faults of
texts with drawn bytes are found by decoders.py."""

from decoders import decode_set
from id_sets import EVEN, WORKED, array_of, blocks_of, chunked, few_of, in_runs, pairs_of, placed, set_text, spread
from parts import CUT_NUMBERS, MOST, NO_NUMBERS, group, number, with_another_byte

# Bytes worked by hand.
WORKED_REFUSALS = {
    "Short": ["", "05", "06", "068001", "81", "8185", "8285", "0580"],
    "BadVersion(0)": ["00"],
    "BadVersion(127)": ["7F"],
    "BadNumber": ["818500", "057F", "067F", "05FF00", "05800100"],
    "TooLong(268435457)": ["058180808001"],
    "Padding": ["820501 21"],
    "Trailing": ["820500 01"],
    "NotSorted(1)": ["82FFFFFFFF0F 00"],
    "BadSizes(16)": ["0580010110"],
    "BadSizes(129)": ["058001018101"],
}
# What stands at an offset of the set of 0, 2 .. 254 in place of a byte.
CHANGED = [
    (3, "02", "BadOffset(0)"),
    (3, "21", "BadNumber"),
    (4, "12", "BadSum(0)"),
    (7, "22", "BadBody(0)"),
    (7, "00", "BadOffset(0)"),
    (8, "81", "BadSum(0)"),
    (8, "7F", "BadSum(0)"),
    (9, "01", "BadBody(0)"),
    (11, "7E", "BadBody(0)"),
    (12, "FE", "BadBody(0)"),
    (43, "01", "BadBody(0)"),
]
# The same of the set of 0 to 127.
CHANGED_RUNS = [
    (7, "02", "BadBody(0)"),
    (7, "04", "BadBody(0)"),
    (7, "05", "BadBody(0)"),
    (7, "07", "Short"),
    (9, "00", "BadBody(0)"),
    (10, "FE", "BadBody(0)"),
    (11, "01", "BadBody(0)"),
    (12, "01", "BadBody(0)"),
    (13, "00", "BadBody(0)"),
    (13, "7F", "BadBody(0)"),
    (13, "81", "BadBody(0)"),
    (14, "01", "BadBody(0)"),
]
# Sets in one chunk: how many ids, the end, the sum, and the body.
WORKED_BODIES = [
    ("LooseBody(0)", "8001", "11", "23", "80", "00 00 7F" + 16 * "FF" + 16 * "00"),  # 0 to 127 as blocks
    ("LooseBody(0)", "808004", "32", "0101", "000001", 257 * "FF"),  # 0 to 65535 as blocks
    ("BadBody(0)", "808004", "31", "04", "000001", "01FF 0100"),  # one number less
    ("BadBody(0)", "808004", "31", "02", "000001", "01FF"),  # no boundary
    ("BadBody(0)", "AC4D", "21", "06", "AC26", "01FF 1027 6400"),  # boundaries exchanged
    ("BadBody(0)", "AC4D", "21", "06", "AC26", "01FF 6400 0F27"),  # one number less
    ("BadBody(0)", "AC4D", "21", "06", "AC26", "01FF 6400 1127"),
    ("BadBody(0)", "AC4D", "21", "05", "AC26", "01FF 6400 10"),
    ("BadBody(0)", "AC4D", "21", "05", "AC26", "01FF 6400 10 27"),  # before Trailing
    ("BadBody(0)", "AC4D", "21", "07", "AC26", "01FF 6400 1027 00"),
    ("BadBody(0)", "AC4D", "21", "08", "AC26", "01FF 6400 1027 1027"),  # a run of no number
    ("BadBody(0)", "AC4D", "21", "0A", "AC26", "01FF 6400 E803 E803 1027"),
    ("BadBody(0)", "8001", "11", "16", "80", "01FF" + "".join(f"{16 * i:02x}00 {16 * i + 8:02x}00" for i in range(5))),  # 40 numbers
    ("LooseBody(0)", "8001", "11", "42", "80", "01FF" + "".join(f"{16 * i:02x}00 {16 * i + 8:02x}00" for i in range(16))),
    ("BadBody(0)", "808004", "31", "06", "000001", "01FF 0000 0000"),
    ("BadBody(0)", "8002", "21", "06", "0001", "01FF 00FF 0000"),  # the end of a chunk as a boundary
    ("LooseBody(0)", "8002", "21", "03", "0001", "00 00 FF"),  # 0 to 255 as blocks
]
BITS = bytes([0, 0, 127]) + 32 * b"\x55"  # the body of 0, 2 .. 254
RUN = bytes([1, 255, 0, 0, 0, 1])  # the body of 0 to 255


def worked_refusals():
    for fault, texts in WORKED_REFUSALS.items():
        for text in texts:
            yield fault, bytes.fromhex(text)
    for place, changed in [(8, CHANGED_RUNS), (9, CHANGED)]:
        text = bytes.fromhex(WORKED[place][1])
        for offset, byte, fault in changed:
            yield fault, text[:offset] + bytes.fromhex(byte) + text[offset + 1 :]
    for fault, count, sizes, end, total, body in WORKED_BODIES:
        yield fault, bytes.fromhex(f"05 {count} 01 {sizes} 0000 {end} {total} {body}")
    evens = [2 * i for i in range(128)]
    yield "LooseBody(0)", chunked(128, [0], [256], [128], [pairs_of(evens)])
    yield "LooseForm", array_of([16384 * i for i in range(128)])


def refused_fronts():
    """Each byte 0, and each form of a count and a first id that is no number."""
    for byte in range(128):
        yield "Short" if byte in (5, 6) else f"BadVersion({byte})", bytes([byte])
        if byte not in (5, 6):
            yield f"BadVersion({byte})", bytes([byte]) + number(128) + bytes(8)
    for byte in range(129, 256):
        yield "Short", bytes([byte])
    yield "Trailing", bytes([128, 0])
    for front in [bytes([5]), bytes([6]), bytes([129]), bytes([255]), bytes([5]) + number(128), bytes([5]) + number(2**20)]:
        for given in CUT_NUMBERS:
            yield "Short", front + bytes.fromhex(given)
        for given in NO_NUMBERS:
            yield "BadNumber", front + bytes.fromhex(given)
    for form in [5, 6]:
        for count in [0, 1, 64, 127]:
            yield "BadNumber", bytes([form]) + number(count) + bytes(600)
        for count in [MOST + 1, 2**31, 2**32 - 1]:
            yield f"TooLong({count})", bytes([form]) + number(count)
            yield f"TooLong({count})", bytes([form]) + number(count) + number(0)
        for count in [128, 1000, MOST]:
            yield "Short", bytes([form]) + number(count)


def refused_few():
    """Sets below 128 ids with a fault in a group."""
    for width in [33, 34, 64, 128, 255]:
        yield f"BadWidth(0, {width})", bytes([130, 0, width])
        yield f"BadWidth(1, {width})", bytes([128 + 34, 0, 0, width])
        yield f"BadWidth(3, {width})", bytes([255, 0, 0, 0, 0, width])
    for width in range(1, 33):
        size = (width + 7) // 8
        yield f"LooseWidth(0, {width})", bytes([130, 0, width]) + (2**width // 2 - 1).to_bytes(size, "little")
        yield "Short", bytes([130, 0, width]) + bytes(size - 1)  # before LooseWidth
        if width % 8:
            one = (2 ** (width - 1)).to_bytes(size, "little")
            for bit in {width % 8, 7}:
                yield "Padding", bytes([130, 0, width]) + one[:-1] + bytes([one[-1] | 1 << bit])
            yield f"LooseWidth(0, {width})", bytes([130, 0, width]) + bytes(size - 1) + b"\x80"  # before Padding
    yield "LooseWidth(0, 1)", bytes([128 + 33, 0, 1]) + bytes(4)
    yield "LooseWidth(1, 2)", bytes([128 + 35, 0, 0, 2, 5])
    yield "Padding", bytes([128 + 35, 0, 0, 2, 6 + 16])
    yield "LooseWidth(0, 1)", bytes([128 + 35, 0, 1]) + bytes(4) + bytes([2, 22])  # group by group
    yield "Short", bytes([128 + 34, 0, 0])
    for count, first, codes, position in [
        (2, 2**32 - 1, [0], 1),
        (3, 2**32 - 2, [0, 0], 2),
        (2, 1, [2**32 - 1], 1),
        (4, 0, [2**31, 2**31 - 3, 0], 3),
        (4, 5, [2**32 - 1, 7, 0], 1),
        (33, 2**32 - 33, 31 * [0] + [1], 32),
        (34, 2**32 - 33, 33 * [0], 33),
        (127, 2**32 - 126, 126 * [0], 126),
    ]:
        groups = b"".join(group(codes[at : at + 32]) for at in range(0, len(codes), 32))
        yield f"NotSorted({position})", bytes([128 + count]) + number(first) + groups
        yield f"NotSorted({position})", bytes([128 + count]) + number(first) + groups + bytes(1)  # before Trailing


def refused_arrays():
    far = [65536 * i for i in range(128)]
    for position in [1, 2, 64, 127]:
        for change in [far[position - 1], far[position - 1] - 1 if position > 1 else 0]:
            text = array_of([*far[:position], change, *far[position + 1 :]])
            yield f"NotSorted({position})", text
            yield f"NotSorted({position})", text + bytes(1)  # before Trailing
    for count, chunks in [(128, 32), (128, 1), (132, 33), (133, 33), (300, 75)]:
        ids = sorted(65536 * (m % chunks) + m for m in range(count))
        yield "LooseForm", array_of(ids)
        yield "LooseForm", array_of(ids) + bytes(1)
        yield "Short", array_of(ids)[:-1]
        yield f"NotSorted({count - 1})", array_of([*ids[:-1], ids[-2]])  # before LooseForm
    yield "NotSorted(1)", array_of([2**32 - 1, *far[1:]])


def refused_directories():
    """Chunks with a fault before the bodies."""
    front = bytes([5]) + number(128)
    for count, chunks in [(128, 0), (128, 33), (131, 33), (128, 128), (1000, 251), (MOST, 65537), (MOST, 2**32 - 1)]:
        yield "BadNumber", bytes([5]) + number(count) + number(chunks)
    for count, chunks in [(128, 1), (128, 32), (132, 33), (1000, 250), (MOST, 65536)]:
        yield "Short", bytes([5]) + number(count) + number(chunks)
    for sizes in range(256):
        right = sizes % 16 in range(1, 5) and sizes // 16 in range(1, 5)
        yield "Short" if right else f"BadSizes({sizes})", front + bytes([1, sizes])
        if right:  # a byte is missing, before BadSum
            yield "Short", front + bytes([1, sizes]) + bytes(1 + sizes % 16 + sizes // 16)
            if sizes != 17:
                yield f"BadSizes({sizes})", chunked(128, [0], [35], [128], [], sizes)  # before Short
                yield f"BadSizes({sizes})", chunked(128, [0], [35], [128], [BITS, b"\0"], sizes)
    for sizes in [0x33, 0x22, 0x24]:
        yield f"BadSizes({sizes})", chunked(256, [0], [6], [256], [RUN], sizes)
    two = [BITS, RUN]
    for keys, m in [([0, 0], 1), ([1, 0], 1), ([65535, 65535], 1), ([256, 1], 1), ([0, 65535, 65534], 2), ([0, 5, 5], 2), ([7, 6, 6], 1)]:
        counts, lens = [128, 256, 256][: len(keys)], [35, 6, 6][: len(keys)]
        ends, sums = ([sum(them[: m + 1]) for m in range(len(keys))] for them in [lens, counts])
        yield f"BadKey({m})", chunked(sums[-1], keys, ends, sums, two + two[1:] * (len(keys) - 2))
        yield f"BadKey({m})", chunked(sums[-1] + 1, keys, [*ends[:-1], 0], sums, [])  # before BadSum, BadOffset and Short
    for count, sums, m in [
        (128, [0], 0),
        (128, [127], 0),
        (128, [129], 0),
        (256, [128, 128], 1),
        (256, [128, 127], 1),
        (256, [0, 256], 0),
        (256, [257, 256], 1),
        (256, [128, 255], 1),
        (256, [128, 257], 1),
        (65537, [65537], 0),
        (65536 + 65537, [65536, 65536 + 65537], 1),
        (300, [100, 100, 300], 1),
        (300, [100, 99, 300], 1),
        (2**32 - 1 >> 4, [2**32 - 1], 0),
    ]:
        keys = [*range(len(sums))]
        sizes = 0x14 if max(sums) < 256 > count else 0x44
        yield f"BadSum({m})", chunked(count, keys, [35 * key + 35 for key in keys], sums, [], sizes)
        yield f"BadSum({m})", chunked(
            count, keys, [35 * key + 35 for key in keys[:m]] + [0] * (len(keys) - m), sums, [], sizes
        )  # before BadOffset
    yield "BadOffset(0)", chunked(256, [0, 0], [0, 3], [128, 256], [])  # chunk by chunk, before BadKey(1)
    yield "BadSum(0)", chunked(256, [0, 0], [6, 6], [0, 256], [])
    for ends, m in [
        ([0], 0),
        ([257], 0),
        ([258], 0),
        ([2**16], 0),
        ([2**24 + 35], 0),
        ([2**32 - 1], 0),
        ([35, 35], 1),
        ([35, 34], 1),
        ([35, 292], 1),
    ]:
        counts = [128 * m + 128 for m in range(len(ends))]
        keys = [*range(len(ends))]
        yield f"BadOffset({m})", chunked(counts[-1], keys, ends, counts, [])
        yield f"BadOffset({m})", chunked(counts[-1], keys, ends, counts, [], 0x44)  # before BadSizes
    for end in [1, 34, 36, 255, 256]:
        yield "Short", chunked(128, [0], [end], [128], [bytes(end - 1)])  # before BadBody and NotSorted


def runs_of(boundaries):
    return bytes([1, 255]) + pairs_of(boundaries)


def edges_of(t, k):
    """The boundaries of in_runs(t, k)."""
    numbers = {*in_runs(t, k)}
    return sorted((numbers ^ {it + 1 for it in numbers}) - {65536})


def refused_runs():
    """Runs with a fault, and other bodies that should be runs: the fault, how many numbers, and the body."""
    for count, body in [(1, "01"), (2, "01FF"), (3, "01FF"), (3, "01FF 00"), (128, "01FF"), (128, "01FF 00"), (128, "01FF 0000 80")]:
        yield "BadBody", count, bytes.fromhex(body)
    yield "BadBody", 128, bytes.fromhex("01FF 0000 8000 00")
    for count, found in [
        (3, [0]),
        (128, [0]),
        (128, [65407]),
        (128, [65409]),
        (128, [65535]),
        (128, [0, 127]),
        (128, [0, 129]),
        (128, [1, 128]),
        (128, [128, 0]),
        (128, [5, 5]),
        (128, [0, 128, 65535]),
        (128, [0, 64, 64, 128]),
        (128, [64, 64, 100, 228]),
        (128, [0, 128, 200, 200]),
        (128, [0, 100, 50, 78]),
        (128, [128, 0, 65280]),
        (128, [300, 428, 100, 100]),
        (127, [0, 127, 65535]),
        (65535, [0]),
        (65535, [0, 65534]),
        (65536, [0, 65535]),
        (65536, [1]),
        (65536, [0, 65535, 65535]),
    ]:
        yield "BadBody", count, runs_of(found)
    for t in [1, 2, 3, 4, 15, 16, 17, 31, 32, 33, 63, 64]:
        for k in [8 * t - 1, 4 * t]:
            yield "LooseBody", k, runs_of(edges_of(t, k))
        for change in [-1, 1]:
            yield "BadBody", 8 * t - 1 + change, runs_of(edges_of(t, 8 * t - 1))
        for k in [8 * t, 8 * t + 1, 300 * t]:
            yield "LooseBody", k, blocks_of(in_runs(t, k))
        yield "LooseBody", 8 * t, pairs_of(in_runs(t, 8 * t))
    for t in [65, 66, 67, 128, 129]:
        for k in [8 * t - 1, 8 * t, 300 * t]:
            yield "LooseBody", k, runs_of(edges_of(t, k))
            yield "BadBody", k - 1, runs_of(edges_of(t, k))
    yield "LooseBody", 8192, blocks_of(placed(*((2 * i, range(256)) for i in range(32))))  # half as long as runs
    yield "LooseBody", 257, blocks_of(range(257))  # as long as runs
    yield "LooseBody", 65535, blocks_of(range(65535))
    yield "LooseBody", 32768, blocks_of(range(32768))


def refused_bodies():
    """Chunks with a fault in a body: alone, and as the last of three."""
    blocks = [  # of k numbers, which are no blocks
        (128, BITS[:-1]),
        (128, BITS + b"\0"),
        (128, b"\0"),
        (128, b"\xff"),
        (128, bytes([0, 0])),
        (128, bytes([0, 0, 128]) + BITS[3:]),  # a count of 129
        (128, bytes([0, 0, 126]) + BITS[3:]),
        (128, bytes([0, 0, 127]) + bytes(32)),
        (128, BITS[:-1] + b"\x15"),
        (128, BITS[:-1] + b"\x57"),
        (128, bytes([0, 0, 255])),
        (256, bytes([0, 0, 255, 0])),
        (256, bytes([0, 0, 255]) + 32 * b"\xff"),
        (256, bytes([0, 0])),
        (255, bytes([0, 0, 254]) + 32 * b"\xff"),
        (160, bytes([1, 0, 0, 127, 31]) + BITS[3:] + 4 * b"\xff" + bytes(28)),  # high bytes that do not increase
        (160, bytes([1, 1, 0, 127, 31]) + BITS[3:] + 4 * b"\xff" + bytes(28)),
        (129, bytes([1, 0, 1, 127, 0]) + BITS[3:]),
        (130, bytes([1, 0, 1, 127, 1]) + BITS[3:] + bytes([7, 7])),  # low bytes that do not increase
        (130, bytes([1, 0, 1, 127, 1]) + BITS[3:] + bytes([7, 6])),
        (131, bytes([1, 0, 1, 127, 2]) + BITS[3:] + bytes([7, 9, 8])),
        (159, bytes([1, 0, 1, 127, 30]) + BITS[3:] + bytes([*range(30), 29])),
        (256 * 256, bytes([255]) + 256 * b"\xff" + b"\0"),
        (256 * 256 - 1, bytes([255]) + 256 * b"\xff"),
        (3 * 32, bytes([31]) + bytes(32) + 32 * b"\2" + 32 * bytes([1, 2, 3])),  # high bytes as bits
        (3 * 32, bytes([31]) + 3 * b"\xff" + b"\x7f" + bytes(28) + 32 * b"\2" + 32 * bytes([1, 2, 3])),
        (3 * 32, bytes([31]) + 4 * b"\xff" + b"\1" + bytes(27) + 32 * b"\2" + 32 * bytes([1, 2, 3])),
        (3 * 31, bytes([30]) + bytes([*range(30), 29]) + 31 * b"\2" + 31 * bytes([1, 2, 3])),
    ]
    numbers = [  # in numbers of two bytes
        ("NotSorted", 1, [0, 0, *range(1, 127)]),
        ("NotSorted", 1, [5, 4, *range(6, 132)]),
        ("NotSorted", 127, [*range(127), 126]),
        ("NotSorted", 64, [256 * i for i in range(64)] + [256 * 63 + 1 - 2] + [256 * i for i in range(65, 128)]),
        ("LooseBody", 0, [*range(128)]),
        ("LooseBody", 0, placed(*((high, [high]) for high in range(19)), (255, spread(128)))),
        ("LooseBody", 0, placed(*((high, [0, 255]) for high in range(64)))),
        ("LooseBody", 0, placed(*((high, [0, 255]) for high in range(34)))),  # by one byte, also those below
        *(("LooseBody", 0, placed(*((high, [high]) for high in range(r)), (255, spread(r + 4)))) for r in [0, 4, 27]),
        ("LooseBody", 0, placed(*((high, [0, 1, 2]) for high in range(100)))),
        ("LooseBody", 0, [*range(1000)]),
        ("NotSorted", 1, [65281, 65281]),
        ("NotSorted", 1, [65281, 256]),
        ("NotSorted", 2, [65281, 65282, 65282]),
    ]
    faults = [("BadBody", 0, count, body) for count, body in blocks]
    faults += [(name, position, len(given), pairs_of(given)) for name, position, given in numbers]
    faults += [(name, 0, count, body) for name, count, body in refused_runs()]
    for name, position, count, body in faults:
        number_of_ids, end = count + 384, 41 + len(body)
        place = 384 + position if name == "NotSorted" else 2
        others = [BITS, RUN]
        for after in [b"", b"\0"]:  # before Trailing
            if count >= 128:
                yield f"{name}({position})", chunked(count, [9], [len(body)], [count], [body, after])
            yield f"{name}({place})", chunked(
                number_of_ids, [0, 8, 65535], [35, 41, end], [128, 384, number_of_ids], [*others, body, after]
            )
    twice = pairs_of([0, 0, *range(1, 127)])
    yield "LooseBody(0)", chunked(256, [0, 1], [256, 512], [128, 256], [pairs_of(range(128)), twice])  # body by body
    yield "NotSorted(1)", chunked(256, [0, 1], [256, 512], [128, 256], [twice, pairs_of(range(128))])
    few, many = runs_of(edges_of(16, 127)), runs_of([1, 128])
    yield "LooseBody(0)", chunked(255, [0, 1], [34, 40], [127, 255], [few, many])
    yield "BadBody(0)", chunked(255, [0, 1], [6, 40], [128, 255], [many, few])


def cut_sets():
    """Sets without their last bytes, and with a byte more."""
    short = [ids for ids, text in WORKED if len(bytes.fromhex(text)) < 120 and ids]
    for ids in [*short, [*range(128)] + EVEN, [3, *EVEN[:100]], [65536 * i for i in range(128)]]:
        text = set_text(ids)
        for end in range(1, len(text)) if len(text) < 120 else [len(text) // 2, len(text) - 1]:
            yield "Short", text[:end]
        for byte in [0, 1, 255]:
            yield "Trailing", text + bytes([byte])


def fault_of(decode, text):
    """The fault of a text and nothing, or nothing and what it encodes."""
    try:
        return None, decode(text)
    except ValueError as refusal:
        name, *details = refusal.args
        return f"{name}({', '.join(map(str, details))})" if details else name, None


def drawn_texts():
    """Texts of sets, each 32 times with another byte."""
    bases = [few_of([7, 9, 10, 300]), few_of([*range(0, 69, 2)]), few_of([x * x for x in range(60)])]
    bases += [set_text([*range(0, 255, 2)]), set_text([*range(0, 62, 2), *range(256, 449, 2)])]
    bases += [set_text([*them]) for them in [range(128), range(65536), range(100, 10000), range(65530, 65658)]]
    bases += [set_text([*range(31), *range(256, 353)]), set_text(in_runs(3, 200) + EVEN + [2**17 + it for it in in_runs(6, 48)])]
    bases += [set_text(in_runs(64, 512)), chunked(520, [0], [132], [520], [runs_of(edges_of(65, 520))])]
    bases += [set_text([16384 * i for i in range(128)]), set_text([*range(3), *EVEN]), set_text([512 * i + 3 for i in range(128)])]
    return with_another_byte(bases, 32)


def damaged_sets():
    """The drawn texts with their fault, or with their ids."""
    for text in {text: None for text in drawn_texts()}:
        yield text, *fault_of(decode_set, text)


def each_once(parts, damaged):
    """Each text of the parts with its fault, once, and then the damaged texts that have a fault."""
    found = {}
    for part in parts:
        for fault, text in part():
            assert found.setdefault(text, fault) == fault, (part, fault, found[text], text.hex())
    for text, fault, _ in damaged():
        if fault:
            found.setdefault(text, fault)
    return [(fault, text) for text, fault in found.items()]


def refused_id_sets():
    """Each text with its fault, once."""
    parts = [worked_refusals, refused_fronts, refused_few, refused_arrays, refused_directories, refused_bodies, cut_sets]
    return each_once(parts, damaged_sets)
