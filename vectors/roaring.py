"""Bitmaps in Roaring's portable format, and bytes that are none. Worked bitmaps are as CRoaring 0.2.66 writes them; others are laid by docs/ROARING.md,
each container in a form that is given. Only the faults of texts with drawn bytes are found by decoders.py."""

from decoders import decode_roaring
from parts import drawn

NO_RUNS, RUNS = b"\x3A\x30\x00\x00", b"\x3B\x30"
# By the ids of a bitmap, what CRoaring writes.
WORKED = {
    (): "3A300000 00000000",
    (5,): "3A300000 01000000 0000 0000 10000000 0500",
    (3, 7, 65536): "3A300000 02000000 0000 0100 0100 0000 18000000 1C000000 0300 0700 0000",
    (*range(10),): "3B30 0000 01 0000 0900 0100 0000 0900",
    (*range(10), 131077): "3B30 0100 01 0000 0900 0200 0000 0100 0000 0900 0500",
    (*range(65528, 65536),): "3B30 0000 01 0000 0700 0100 F8FF 0700",
    (1, 2): "3A300000 01000000 0000 0100 10000000 0100 0200",
    (1, 2, 3): "3B30 0000 01 0000 0200 0100 0100 0200",
    (1, 2, 5, 6): "3A300000 01000000 0000 0300 10000000 0100 0200 0500 0600",
    (1, 2, 5, 6, 7): "3B30 0000 01 0000 0400 0200 0100 0100 0500 0200",
    (*range(65536),): "3B30 0000 01 0000 FFFF 0100 0000 FFFF",
}
# By their fault, bytes that are no bitmap.
WORKED_REFUSALS = {
    "Short": ["", "3A", "3A3000", "3B3000", "3A300000", "3A300000000000", "3B300000", "3B300000 01 000009", "3B300000 01 00000900 01"],
    "BadVersion(58)": ["3A300100 00000000", "3A310000 00000000", "3A300001"],
    "BadVersion(60)": ["3C300000 00000000"],
    "BadVersion(0)": ["00000000"],
    "BadNumber": ["3A300000 01000100", "3A300000 FFFFFFFF"],
    "BadBody(0)": ["3B300000 01 0000FFFF 0000", "3B300000 01 00000000 0000", "3B300000 01 00000800 0100 F8FF0800"],
    "Trailing": ["3A300000 00000000 00"],
}


def pairs_of(numbers):
    return b"".join(it.to_bytes(2, "little") for it in numbers)


def as_array(numbers):
    return pairs_of(numbers), False


def as_bits(numbers):
    return sum(1 << it for it in numbers).to_bytes(8192, "little"), False


def as_runs(numbers):
    runs = []
    for it in numbers:
        if runs and runs[-1][1] + 1 == it:
            runs[-1][1] = it
        else:
            runs.append([it, it])
    return pairs_of([len(runs), *(it for first, last in runs for it in (first, last - first))]), True


def by_count(numbers):
    return as_array(numbers) if len(numbers) <= 4096 else as_bits(numbers)


def bitmap(keys, counts, bodies):
    """The bytes of containers: the key of each, how many numbers it states, and its bytes, and whether it is runs."""
    count, flags = len(keys), sum(is_run << m for m, (_, is_run) in enumerate(bodies))
    head = NO_RUNS + count.to_bytes(4, "little")
    if flags:
        head = RUNS + (count - 1).to_bytes(2, "little") + flags.to_bytes((count + 7) // 8, "little")
    head += pairs_of([it for entry in zip(keys, counts) for it in (entry[0], entry[1] - 1)])
    if not flags or count >= 4:
        at = len(head) + 4 * count
        for body, _ in bodies:
            head, at = head + at.to_bytes(4, "little"), at + len(body)
    return head + b"".join(body for body, _ in bodies)


def made():
    """Numbers of one container, in each form that they may have."""
    lists = [[0], [65535], [0, 65535], [*range(0, 8192, 2)], [*range(4096)], [*range(4097)], [*range(1, 65536)]]
    lists += [[it for it in range(20000) if it % 8 < 3], [*range(65536)], [255, 256, 511, 512, 767], [*range(100, 200), *range(201, 300)]]
    for numbers in lists:
        yield [numbers], [by_count]
        if len(as_runs(numbers)[0]) < 20_000:
            yield [numbers], [as_runs]
    few, many, long = [1, 2, 3], [*range(0, 65536, 2)], [*range(500, 60000)]
    yield [few, many, long], [as_runs, by_count, as_runs]
    yield [few, many, long, few], [as_runs, by_count, as_runs, by_count]
    yield 9 * [few], [*8 * [by_count], as_runs]
    yield 33 * [[7]], 33 * [by_count]
    yield 40 * [few], 40 * [as_runs]


def bitmaps():
    """The bytes of bitmaps, with the ids of each."""
    for ids, text in WORKED.items():
        yield bytes.fromhex(text), [*ids]
    for lists, forms in made():
        for step in [1, 65535 // len(lists)] if len(lists) > 1 else [1]:
            keys = [step * m for m in range(len(lists))]
            ids = [65536 * key + it for key, numbers in zip(keys, lists) for it in numbers]
            yield bitmap(keys, map(len, lists), [form(numbers) for form, numbers in zip(forms, lists)]), ids


def refused_containers():
    """A bitmap of one container that states a number of ids, with bytes that have another."""
    for count in [9, 11]:
        yield "BadBody(0)", bitmap([0], [count], [as_runs([*range(10)])])
    for count in [4097, 32767, 32769, 65536]:
        yield "BadBody(0)", bitmap([0], [count], [as_bits([*range(0, 65536, 2)])])
    for runs in [[0, 3, 3, 5], [0, 3, 4, 5], [0, 9, 0, 9], [5, 4, 0, 4], [65535, 1], [65527, 9], [0, 65535, 65535, 0]]:
        count = sum(runs[1::2]) + len(runs) // 2
        yield "BadBody(0)", bitmap([0], [min(count, 65536)], [(pairs_of([len(runs) // 2, *runs]), True)])
    for numbers in [[5, 5], [6, 5], [0, 1, 2, 1], [*range(20), 0]]:
        at = next(p for p in range(1, len(numbers)) if numbers[p] <= numbers[p - 1])
        yield f"NotSorted({at})", bitmap([0], [len(numbers)], [as_array(numbers)])
        yield f"NotSorted({at + 7})", bitmap([3, 4], [7, len(numbers)], [as_runs([*range(7)]), as_array(numbers)])
    for keys, m in [([1, 1], 1), ([2, 1], 1), ([0, 1, 1], 2), ([0, 65535, 0], 2)]:
        yield f"BadKey({m})", bitmap(keys, len(keys) * [1], len(keys) * [as_array([4])])


def changed_bitmaps():
    """Bitmaps of several containers that are cut, go on, or have another offset."""
    for forms in [4 * [by_count], [by_count, as_runs, by_count, as_runs], [as_runs, by_count, by_count]]:
        lists = [[1, 2, 3], [5], [*range(100)], [9, 10]][: len(forms)]
        text = bitmap(range(len(lists)), map(len, lists), [form(numbers) for form, numbers in zip(forms, lists)])
        yield "Trailing", text + b"\x00"
        for size in {*range(0, 60), len(text) - 1, len(text) - 2}:
            yield "Short", text[:size]
        if len(forms) == 4:
            offsets = (8 if forms[1] is by_count else 5) + 16
            for m in range(4):
                at = offsets + 4 * m
                for byte in [at, at + 1, at + 3]:
                    yield f"BadOffset({m})", text[:byte] + bytes([text[byte] ^ 1]) + text[byte + 1 :]


def damaged_bitmaps():
    """Bitmaps with a byte changed by the rule of docs/VECTORS.md: the bytes, and the fault or the ids."""
    numbers = drawn(4000)
    for index, (text, _) in enumerate(bitmaps()):
        for x, y in list(zip(numbers[0::2], numbers[1::2]))[16 * index : 16 * index + 16] if 8 < len(text) < 1000 else []:
            at = x % min(len(text), 80)
            changed = text[:at] + bytes([y >> 24]) + text[at + 1 :]
            try:
                yield changed, None, decode_roaring(changed)
            except ValueError as fault:
                name, *details = fault.args
                yield changed, f"{name}({', '.join(map(str, details))})" if details else name, None


def refused_bitmaps():
    """Each fault, with bytes that have it."""
    for fault, texts in WORKED_REFUSALS.items():
        for text in texts:
            yield fault, bytes.fromhex(text)
    yield from refused_containers()
    yield from changed_bitmaps()
    yield from ((fault, text) for text, fault, _ in damaged_bitmaps() if fault)
