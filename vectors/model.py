"""Blocks, chains and lists written by docs/FORMAT.md, and what a reader calls on top of its decoders. It goes after vectors/decoders.py."""


def start_of(kind, spelled):
    return {"-": 0, "none": 2**32 - 1}[spelled] if spelled in ("-", "none") else int(spelled)


def codes_of(kind, start, values):
    codes = []
    for value in values:
        codes.append([value, value - start, value - start - 1][kind] % 2**32)
        start = value
    return codes


def width_of(codes):
    return max(codes).bit_length()


def body_of(lanes, width, codes):
    words = [0] * (lanes * width)
    for lane in range(lanes):
        bits = sum(code << i * width for i, code in enumerate(codes[lane::lanes]))
        for i in range(width):
            words[lanes * i + lane] = bits >> 32 * i & 2**32 - 1
    return b"".join(word.to_bytes(4, "little") for word in words)


def pack(lanes, kind, start, width, values):
    need(len(values) == 32 * lanes, 2)
    need(width <= 32, 3)
    codes = codes_of(kind, start, values)
    need(all(code >> width == 0 for code in codes), 4)
    return body_of(lanes, width, codes)


def unpack(lanes, kind, start, width, body):
    need(width <= 32, 3)
    need(len(body) == 4 * lanes * width, 5)
    return block_values(kind, start, block_codes(lanes, width, body))


def parts_of(lanes, kind, values):
    size, start, parts = 32 * lanes, [0, 0, 2**32 - 1][kind], []
    for at in range(0, len(values) // size * size, size):
        codes = codes_of(kind, start, values[at : at + size])
        start = values[at + size - 1]
        parts.append((width_of(codes), start, body_of(lanes, width_of(codes), codes)))
    return parts, b"".join(value.to_bytes(4, "little") for value in values[len(parts) * size :])


def header_of(version, lanes, kind, values):
    return bytes([version, kind, lanes]) + len(values).to_bytes(4, "little")


def encode(lanes, kind, values):
    parts, tail = parts_of(lanes, kind, values)
    return header_of(1, lanes, kind, values) + b"".join(bytes([width]) + body for width, _, body in parts) + tail


def entries_of(parts):
    entries, offset = b"", 0
    for width, last, _ in parts:
        entries += bytes([width]) + offset.to_bytes(4, "little") + last.to_bytes(4, "little")
        offset += width
    return entries


def text2(lanes, kind, values):
    parts, tail = parts_of(lanes, kind, values)
    return header_of(2, lanes, kind, values) + entries_of(parts) + b"".join(body for _, _, body in parts) + tail


def convert(lanes, kind, values):
    for p in range(1, len(values)):
        need(kind == 0 or values[p] >= values[p - 1] + kind - 1, "NotSorted", p)
    return text2(lanes, kind, values)


def number_of(value):
    septets = [value >> shift & 127 for shift in range(0, max(1, value.bit_length()), 7)]
    return bytes([*(septet + 128 for septet in septets[:-1]), septets[-1]])


def group_of(codes):
    width = width_of(codes)
    return bytes([width]) + sum(code << k * width for k, code in enumerate(codes)).to_bytes((len(codes) * width + 7) // 8, "little")


def tail_of(blocks, start, kind, tail):
    first = b""
    if blocks == 0 and tail:
        first, start, tail = number_of(tail[0]), tail[0], tail[1:]
    codes = codes_of(kind, start, tail)
    return first + b"".join(group_of(codes[at : at + 32]) for at in range(0, len(codes), 32))


def shorts_of(numbers):
    size = max(1, (max(numbers).bit_length() + 7) // 8)
    return size, b"".join(number.to_bytes(size, "little") for number in numbers)


def encode2(lanes, kind, values):
    falls = [p for p in range(1, len(values)) if kind and values[p] < values[p - 1] + (kind == 2)]
    need(not falls, "NotSorted", *falls[:1])
    return text2(lanes, kind, values)


def upgrade(lanes, text):
    return convert(lanes, *decode(lanes, text))


def opened(lanes, text):
    kind, values = decode2(lanes, text)
    need(kind != 0, "BadKind", 0)
    return values


def seek(lanes, values, target):
    block, size = 0, 32 * lanes
    while block < len(values) // size and values[block * size + size - 1] < target:
        block += 1
    for position in range(block * size, len(values)):
        if values[position] >= target:
            return position, values[position]
    return None


def intersect(lanes, values, other_lanes, others):
    shared, target = [], 0
    for value in values:
        if value >= target:
            found = seek(other_lanes, others, value)
            if found is None:
                break
            if found[1] == value:
                shared.append(value)
            target = max(value + 1, found[1])
    return shared
