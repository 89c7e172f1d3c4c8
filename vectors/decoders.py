"""The decoders of docs/FORMAT.md. Each returns what the bytes encode, or raises a ValueError of the first fault and its numbers.

`vectors/model.py` and the files that go with it have the writers. scripts/test/vectors.py runs all, and again with each mistake of
vectors/mistakes/.
"""


def need(holds, *fault):
    if not holds:
        raise ValueError(*fault)


# Blocks. `kind` is 0 plain, 1 sorted, 2 strict.


def block_codes(lanes, width, body):
    codes = [0] * (32 * lanes)
    for k in range(32 * lanes):
        for j in range(width):
            p = (k // lanes) * width + j
            index = 4 * (lanes * (p // 32) + k % lanes) + p % 32 // 8
            codes[k] |= (body[index] >> p % 8 & 1) << j
    return codes


def block_values(kind, start, codes):
    values = []
    for code in codes:
        start = [code, start + code, start + code + 1][kind] % 2**32
        values.append(start)
    return values


# Packed lists of version 1: the kind and the values.


def header(version, lanes, text):
    need(len(text) >= 7, "Short")
    need(text[0] == version, "BadVersion", text[0])
    kind, count = text[1], int.from_bytes(text[3:7], "little")
    need(kind <= 2, "BadKind", kind)
    need(text[2] == lanes, "WrongLanes", text[2])
    need(count <= 268_435_456, "TooLong", count)
    return kind, count // (32 * lanes), count % (32 * lanes)


def decode(lanes, text):
    kind, blocks, tail = header(1, lanes, text)
    need(len(text) - 7 >= blocks + 4 * tail, "Short")
    at, start, values = 7, [0, 0, 2**32 - 1][kind], []
    for m in range(blocks):
        need(at < len(text), "Short")
        width = text[at]
        need(width <= 32, "BadWidth", m, width)
        body = text[at + 1 : at + 1 + 4 * lanes * width]
        need(len(body) == 4 * lanes * width, "Short")
        codes = block_codes(lanes, width, body)
        need(width == max(codes).bit_length(), "LooseWidth", m, width)
        values += block_values(kind, start, codes)
        at, start = at + 1 + len(body), values[-1]
    need(len(text) - at >= 4 * tail, "Short")
    need(len(text) - at <= 4 * tail, "Trailing")
    for i in range(at, len(text), 4):
        values.append(int.from_bytes(text[i : i + 4], "little"))
    return kind, values


# Packed lists of version 2.


def blocks_at(at, lanes, kind, blocks, tail_len, text):
    need(len(text) - at >= 9 * blocks + tail_len, "Short")
    entries, total = [], 0
    for m in range(blocks):
        entry = text[at + 9 * m : at + 9 + 9 * m]
        width, last = entry[0], int.from_bytes(entry[5:], "little")
        need(width <= 32, "BadWidth", m, width)
        need(int.from_bytes(entry[1:5], "little") == total, "BadOffset", m)
        entries.append((width, last))
        total += width
    at += 9 * blocks
    need(len(text) - at >= 4 * lanes * total + tail_len, "Short")
    start, values = [0, 0, 2**32 - 1][kind], []
    for m, (width, last) in enumerate(entries):
        codes = block_codes(lanes, width, text[at : at + 4 * lanes * width])
        need(width == max(codes).bit_length(), "LooseWidth", m, width)
        values += block_values(kind, start, codes)
        need(values[-1] == last, "BadLast", m)
        at, start = at + 4 * lanes * width, last
    return values, start, at


def decode2(lanes, text):
    kind, blocks, tail = header(2, lanes, text)
    values, _, at = blocks_at(7, lanes, kind, blocks, 4 * tail, text)
    end = at + 4 * tail
    for i in range(at, end, 4):
        values.append(int.from_bytes(text[i : i + 4], "little"))
    for p in range(1, len(values)):
        need(kind == 0 or values[p] - values[p - 1] >= kind - 1, "NotSorted", p)
    need(len(text) == end, "Trailing")
    return kind, values


# Varints, groups of codes, and integers of one to four bytes: what sets and columns are made of.


def number_at(at, text):
    value = 0
    for j in range(5):
        need(at + j < len(text), "Short")
        value += text[at + j] % 128 << 7 * j
        if text[at + j] < 128:
            need(j == 0 or text[at + j] > 0, "BadNumber")
            need(value < 2**32, "BadNumber")
            return value, at + j + 1
    raise ValueError("BadNumber")


def group_at(at, block, count, text):
    need(at < len(text), "Short")
    width = text[at]
    need(width <= 32, "BadWidth", block, width)
    size = (count * width + 7) // 8
    part = text[at + 1 : at + 1 + size]
    need(len(part) == size, "Short")
    codes = block_codes(1, width, part + bytes(4 * width - size))
    need(width == max(codes[:count]).bit_length(), "LooseWidth", block, width)
    need(max(codes[count:], default=0) == 0, "Padding")
    return codes[:count], at + 1 + size


def least_bytes(value):
    return max(1, (value.bit_length() + 7) // 8)


def shorts_at(at, size, count, text):
    end = at + size * count
    return [int.from_bytes(text[i : i + size], "little") for i in range(at, end, size)], end


def ends_and_marks_at(at, blocks, text):
    need(at < len(text), "Short")
    sizes, e, z = text[at], text[at] % 16, text[at] // 16
    need(1 <= e <= 4 and 1 <= z <= 4, "BadSizes", sizes)
    need(len(text) - at - 1 >= blocks * (e + z), "Short")
    ends, at = shorts_at(at + 1, e, blocks, text)
    marks, at = shorts_at(at, z, blocks, text)
    for m in range(blocks):
        before = ends[m - 1] if m > 0 else 0
        need(before <= ends[m] <= before + 32, "BadOffset", m)
    need(e == least_bytes(ends[-1]) and z == least_bytes(max(marks)), "BadSizes", sizes)
    return ends, marks, at


# Id sets: the ids.


def few_at(count, text):
    if count == 0:
        return [], 1
    first, at = number_at(1, text)
    ids, codes = [first], []
    while len(codes) < count - 1:
        group, at = group_at(at, len(codes) // 32, min(32, count - 1 - len(codes)), text)
        codes += group
    for p, code in enumerate(codes, 1):
        ids.append(ids[-1] + code + 1)
        need(ids[p] < 2**32, "NotSorted", p)
    return ids, at


def array_at(at, count, text):
    need(len(text) - at >= 4 * count, "Short")
    ids, at = shorts_at(at, 4, count, text)
    for p in range(1, count):
        need(ids[p - 1] < ids[p], "NotSorted", p)
    need(count < 4 * len({i // 65_536 for i in ids}), "LooseForm")
    return ids, at


def need_rising(position, numbers):
    """Requires that each number of a chunk is above the one before. The first one has this position among the ids."""
    for p in range(1, len(numbers)):
        need(numbers[p - 1] < numbers[p], "NotSorted", position + p)


def slice_len(c):
    return c if c < 32 else 32 if c < 256 else 0


def slice_at(m, at, c, body):
    part, numbers = body[at : at + slice_len(c)], [*range(256)]
    need(len(part) == slice_len(c), "BadBody", m)
    if c < 32:
        numbers = [*part]
    elif c < 256:
        numbers = [i for i in range(256) if part[i // 8] >> i % 8 & 1]
    need(len(numbers) == c and numbers == sorted({*numbers}), "BadBody", m)
    return numbers, at + len(part)


def blocks_numbers(m, count, body):
    highs, at = slice_at(m, 1, body[0] + 1, body)
    counts = [byte + 1 for byte in body[at : at + len(highs)]]
    need(len(counts) == len(highs) and sum(counts) == count, "BadBody", m)
    at, numbers = at + len(counts), []
    for high, c in zip(highs, counts):
        lows, at = slice_at(m, at, c, body)
        numbers += [256 * high + low for low in lows]
    need(at == len(body), "BadBody", m)
    return numbers


def are_runs(count, t):
    return t <= 64 and 8 * t <= count


def runs_numbers(m, count, body):
    need(len(body) % 2 == 0 and len(body) > 2, "BadBody", m)
    found, _ = shorts_at(2, 2, len(body) // 2 - 1, body)
    need(found == sorted({*found}), "BadBody", m)
    ends = found[1::2] + [65_536] * (len(found) % 2)
    need(sum(ends) - sum(found[0::2]) == count, "BadBody", m)
    need(are_runs(count, len(found)), "LooseBody", m)
    return [number for first, end in zip(found[0::2], ends) for number in range(first, end)]


def body_numbers(m, position, count, body):
    if len(body) == 2 * count:
        numbers, _ = shorts_at(0, 2, count, body)
        need_rising(position, numbers)
        highs = [number // 256 for number in numbers]
        r = len({*highs})
        blocks_len = 1 + slice_len(r) + r + sum(slice_len(highs.count(high)) for high in {*highs})
        need(blocks_len >= 2 * count, "LooseBody", m)
    elif body[:2] == bytes([1, 255]):
        return runs_numbers(m, count, body)
    else:
        numbers = blocks_numbers(m, count, body)
    t = len(({*numbers} ^ {number + 1 for number in numbers}) - {65_536})
    need(not are_runs(count, t), "LooseBody", m)
    return numbers


def directory_at(at, count, key_len, chunks, most, longest, text):
    """The keys, counts and lengths of bodies, each of at most so many numbers, and in at most as many bytes as `longest` says."""
    need(len(text) > at, "Short")
    z, e = divmod(text[at], 16)
    need(e in (1, 2, 3, 4) and z in (1, 2, 3, 4), "BadSizes", text[at])
    need(len(text) - at - 1 >= chunks * (key_len + e + z), "Short")
    sizes, (keys, at) = text[at], shorts_at(at + 1, key_len, chunks, text)
    ends, at = shorts_at(at, e, chunks, text)
    sums, at = shorts_at(at, z, chunks, text)
    counts = [after - before for before, after in zip([0, *sums], sums)]
    lens = [after - before for before, after in zip([0, *ends], ends)]
    for m in range(chunks):
        need(m == 0 or keys[m - 1] < keys[m], "BadKey", m)
        need(1 <= counts[m] <= most, "BadSum", m)
        need(m < chunks - 1 or sums[m] == count, "BadSum", m)
        need(1 <= lens[m] <= longest(counts[m]), "BadOffset", m)
    need(e == least_bytes(ends[-1]) and z == least_bytes(count), "BadSizes", sizes)
    need(len(text) - at >= ends[-1], "Short")
    return keys, counts, lens, at


def chunks_at(at, count, text):
    chunks, at = number_at(at, text)
    need(1 <= chunks <= min(count // 4, 65_536), "BadNumber")
    keys, counts, lens, at = directory_at(at, count, 2, chunks, 65_536, lambda k: 2 * k, text)
    ids = []
    for m in range(chunks):
        numbers = body_numbers(m, len(ids), counts[m], text[at : at + lens[m]])
        ids += [65_536 * keys[m] + number for number in numbers]
        at += lens[m]
    return ids, at


def decode_set(text):
    need(len(text) > 0, "Short")
    need(text[0] in (5, 6) or text[0] >= 128, "BadVersion", text[0])
    if text[0] >= 128:
        ids, end = few_at(text[0] - 128, text)
    else:
        n, at = number_at(1, text)
        need(n >= 128, "BadNumber")
        need(n <= 2**28, "TooLong", n)
        ids, end = (chunks_at if text[0] == 5 else array_at)(at, n, text)
    need(end == len(text), "Trailing")
    return ids


# Roaring's portable format: the ids.


def roaring_head(text):
    need(len(text) >= 4, "Short")
    runs = text[:2] == b"\x3B\x30"
    need(runs or text[:4] == b"\x3A\x30\x00\x00", "BadVersion", text[0])
    need(runs or len(text) >= 8, "Short")
    count = 1 + int.from_bytes(text[2:4], "little") if runs else int.from_bytes(text[4:8], "little")
    need(count <= 65_536, "BadNumber")
    flags = 4 if runs else 8
    entries = flags + ((count + 7) // 8 if runs else 0)
    offsets = entries + 4 * count
    end = offsets + (4 * count if not runs or count >= 4 else 0)
    need(len(text) >= end, "Short")
    found, _ = shorts_at(entries, 2, 2 * count, text)
    are_runs = [runs and text[flags + m // 8] >> m % 8 & 1 == 1 for m in range(count)]
    return list(zip(found[0::2], found[1::2], are_runs)), shorts_at(offsets, 4, (end - offsets) // 4, text)[0], end


def roaring_numbers(m, position, count, is_run, body):
    if is_run:
        pairs, _ = shorts_at(2, 2, len(body) // 2 - 1, body)
        numbers, end = [], -1
        for first, more in zip(pairs[0::2], pairs[1::2]):
            need(first > end and first + more < 65_536, "BadBody", m)
            numbers += range(first, first + more + 1)
            end = first + more + 1
    elif count <= 4096:
        numbers, _ = shorts_at(0, 2, count, body)
        need_rising(position, numbers)
    else:
        numbers = [8 * i + bit for i, byte in enumerate(body) for bit in range(8) if byte >> bit & 1]
    need(len(numbers) == count, "BadBody", m)
    return numbers


def decode_roaring(text):
    entries, offsets, at = roaring_head(text)
    ids = []
    for m, (key, less, is_run) in enumerate(entries):
        need(m == 0 or entries[m - 1][0] < key, "BadKey", m)
        need(not offsets or offsets[m] == at, "BadOffset", m)
        size = 8192 if less >= 4096 else 2 * (less + 1)
        if is_run:
            need(len(text) - at >= 2, "Short")
            size = 2 + 4 * int.from_bytes(text[at : at + 2], "little")
        need(len(text) - at >= size, "Short")
        ids += [65_536 * key + number for number in roaring_numbers(m, len(ids), less + 1, is_run, text[at : at + size])]
        at += size
    need(len(text) == at, "Trailing")
    return ids


# Columns: the kind and the values.


def column_block(m, kind, start, mark, width, body):
    codes = block_codes(4, width, body)
    need(width == max(codes).bit_length(), "LooseWidth", m, width)
    values = block_values(1, start, codes) if kind else [(mark + code) % 2**32 for code in codes]
    need((values[-1] if kind else min(values)) == mark, "BadLast", m)
    return values


def column_blocks_at(at, kind, first, blocks, text):
    ends, marks, at = ends_and_marks_at(at, blocks, text)
    need(len(text) - at >= 16 * ends[-1], "Short")
    values = []
    for m in range(blocks):
        width = ends[m] - (ends[m - 1] if m else 0)
        values += column_block(m, kind, marks[m - 1] if m else first, marks[m], width, text[at : at + 16 * width])
        at += 16 * width
    return values, at


def column_tail_at(at, kind, first, values, count, text):
    block, tail, codes = count // 128, count % 128, []
    base, at = number_at(at, text) if tail and not kind else ((values[-1] if values else first), at)
    left_out = tail == 1 if not kind else tail > 0 and block == 0
    while len(codes) < tail - left_out:
        group, at = group_at(at, block + len(codes) // 32, min(32, tail - left_out - len(codes)), text)
        codes += group
    codes = [0] * left_out + codes
    found = block_values(1, base, codes) if kind else [(base + code) % 2**32 for code in codes]
    need(kind or not tail or min(found) == base, "BadLast", block)
    return found, at


def decode_column(text):
    need(len(text) > 0, "Short")
    need(64 <= text[0] < 128, "BadVersion", text[0])
    kind, size, at, first = text[0] // 32 % 2, text[0] % 32, 1, 0
    if size == 31:
        size, at = number_at(1, text)
        need(size >= 31, "BadNumber")
        need(size <= 2**28, "TooLong", size)
    if kind and size:
        first, at = number_at(at, text)
    values = []
    if size >= 128:
        values, at = column_blocks_at(at, kind, first, size // 128, text)
    tail, at = column_tail_at(at, kind, first, values, size, text)
    values += tail
    for p in range(size if kind else 0):
        need(values[p - 1] <= values[p] if p else values[0] == first, "NotSorted", p)
    need(len(text) == at, "Trailing")
    return kind, values


# Wide columns: the values, None for a missing one.


def wide_parts_at(at, count, text):
    need(at < len(text), "Short")
    chunks, sizes, (w, e) = (count + 65_535) // 65_536, text[at], divmod(text[at], 16)
    need(1 <= e <= 4 and 1 <= w <= 8, "BadSizes", sizes)
    need(len(text) - at - 1 >= 2 * w * chunks + e * (2 * chunks + 1), "Short")
    bounds, at = shorts_at(at + 1, w, 2 * chunks, text)
    ends, at = shorts_at(at, e, 2 * chunks + 1, text)
    starts = [0, *ends[:-1]]
    for j, (start, end) in enumerate(zip(starts, ends)):
        need(start <= end, "BadOffset", j)
    need(e == least_bytes(ends[-1]) and w == least_bytes(max(bounds, default=0)), "BadSizes", sizes)
    need(len(text) - at >= ends[-1], "Short")
    need(len(text) - at <= ends[-1], "Trailing")
    return bounds, [text[at + start : at + end] for start, end in zip(starts, ends)]


def wide_part(j, decode, text):
    try:
        return decode(text)
    except ValueError:
        raise ValueError("BadBody", j) from None


def wide_numbers(j, count, text):
    """The numbers of part j, a column, and whether its kind is that of their order."""
    kind, found = wide_part(j, decode_column, text)
    need(len(found) == count, "BadBody", j)
    return found, (kind == 1) == (found == sorted(found))


def wide_chunk(m, bounds, low, high, there):
    """The values of chunk m. `there` says of each position whether it has one."""
    lows, right = wide_numbers(2 * m + 1, len(there), low)
    highs, right_too = len(there) * [0], True
    if bounds[1] - bounds[0] >= 2**32:
        highs, right_too = wide_numbers(2 * m + 2, len(there), high)
    else:
        need(high == b"", "BadBody", 2 * m + 2)
    found = [bounds[0] + a + 2**32 * b for a, b in zip(lows, highs)]
    values = [value for value, has in zip(found, there) if has] or [0]
    need(right and right_too and bounds == [min(values), max(values)], "LooseBody", m)
    before = values[0]
    for value, has in zip(found, there):
        before = value if has else before
        need(value == before, "LooseBody", m)
    return [value if has else None for value, has in zip(found, there)]


def decode_wide_column(text):
    need(len(text) > 0, "Short")
    need(text[0] in (10, 11), "BadVersion", text[0])
    n, at = number_at(1, text)
    need(n <= 2**28, "TooLong", n)
    bounds, parts = wide_parts_at(at, n, text)
    missing = {*wide_part(0, decode_set, parts[0])}
    need(max(missing, default=-1) < n, "BadBody", 0)
    values = []
    for m in range(len(bounds) // 2):
        there = [p not in missing for p in range(65_536 * m, min(n, 65_536 * m + 65_536))]
        values += wide_chunk(m, bounds[2 * m : 2 * m + 2], parts[2 * m + 1], parts[2 * m + 2], there)
    there = [value for value in values if value is not None]
    need((text[0] == 11) == (there == sorted(there)), "LooseForm")
    return values
