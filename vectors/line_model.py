"""A line program: an answer for each line of docs/LINES.md, by vectors/decoders.py and model.py.

`scripts/test/vectors.py` runs this file after those, and again with each mistake of vectors/mistakes/lines.txt.
"""

LANES = {"1x": 1, "4x": 4, "4s": 4, "8x": 8, "8s": 8}
NAMES = ["plain", "sorted", "strict"]
FAULTS = "Short BadVersion BadKind WrongLanes TooLong BadWidth LooseWidth BadOffset BadLast NotSorted Trailing".split()


def packer_of(word):
    need(word in LANES, 1)
    return LANES[word]


def decimal_of(word, most):
    need(word != "" and all(letter in "0123456789" for letter in word), 1)
    need(word == "0" or word[0] != "0", 1)
    need(int(word) <= most, 1)
    return int(word)


def kind_of(word):
    name, *start = word.split(":")
    need(name in NAMES and len(start) == (name != "plain"), 1)
    if name == "plain":
        return 0, 0
    if word == "strict:none":
        return 2, 2**32 - 1
    return NAMES.index(name), decimal_of(start[0], 2**32 - 1)


def list_kind_of(word):
    need(word in NAMES, 1)
    return NAMES.index(word)


def values_of(word):
    values = []
    for item in word.split(",") if word != "-" else []:
        value, *count = item.split("*")
        need(len(count) < 2 and count != ["0"], 1)
        times = decimal_of(count[0], 65536) if count else 1
        values += [decimal_of(value, 2**32 - 1)] * times
        need(len(values) <= 65536, 1)
    return values


def bytes_of(word):
    if word == "-":
        return b""
    need(word != "" and len(word) % 2 == 0 and all(letter in "0123456789abcdefABCDEF" for letter in word), 1)
    return bytes.fromhex(word)


def spell(found):
    if isinstance(found, bytes):
        return found.hex() or "-"
    return ",".join(map(str, found)) or "-" if isinstance(found, list) else str(found)


def width_answer(packer, kind, values):
    need(len(values) == 32 * packer, 2)
    return width_of(codes_of(*kind, values))


def decoded(packer, text):
    kind, values = (decode2 if text[:1] == b"\2" else decode)(packer, text)
    return f"{NAMES[kind]} {spell(values)}"


def sought(packer, target, text):
    kind, values = decode2(packer, text)
    need(kind != 0, "BadKind")
    found = seek(packer, values, target)
    return f"{found[0]} {found[1]}" if found else "none"


def small_of(word):
    return decimal_of(word, 255)


def target_of(word):
    return decimal_of(word, 2**32 - 1)


COMMANDS = {
    "size": (lambda packer, width: 4 * packer * width, small_of),
    "width": (width_answer, kind_of, values_of),
    "pack": (lambda packer, kind, width, values: pack(packer, *kind, width, values), kind_of, small_of, values_of),
    "unpack": (lambda packer, kind, width, body: unpack(packer, *kind, width, body), kind_of, small_of, bytes_of),
    "enc": (encode, list_kind_of, values_of),
    "upgrade": (upgrade, bytes_of),
    "dec": (decoded, bytes_of),
    "seek": (sought, target_of, bytes_of),
}


def answered(line):
    need(len(line) <= 65536, 6)
    command, *fields = line.split(" ")
    need(command in COMMANDS, 1)
    call, *readers = COMMANDS[command]
    need(len(fields) == 1 + len(readers), 1)
    return call(*[read(field) for read, field in zip([packer_of, *readers], fields)])


def answer(line):
    try:
        return spell(answered(line))
    except ValueError as refusal:
        number = refusal.args[0]
        return f"refused {number if number in range(7) else 21 + FAULTS.index(number)}"
