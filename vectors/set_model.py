"""The writer of the id sets of docs/FORMAT.md. It goes with vectors/model.py, after decoders.py."""


def slice_bytes(lows):
    if len(lows) < 32:
        return bytes(lows)
    bits = bytearray(32 if len(lows) < 256 else 0)
    for low in lows if bits else []:
        bits[low // 8] += 1 << low % 8
    return bytes(bits)


def blocks_bytes(numbers):
    lows = {}
    for value in numbers:
        lows.setdefault(value // 256, []).append(value % 256)
    front = bytes([len(lows) - 1]) + slice_bytes([*lows])
    return front + bytes(len(it) - 1 for it in lows.values()) + b"".join(slice_bytes(it) for it in lows.values())


def boundaries(numbers):
    found, end = [], -1
    for value in [*numbers, 65_536]:
        if value != end:
            found += [value] if end < 0 else [end, value]
        end = value + 1
    return [it for it in found if it < 65_536]


def body_bytes(numbers):
    pairs, blocks = b"".join(it.to_bytes(2, "little") for it in numbers), blocks_bytes(numbers)
    found = boundaries(numbers)
    if len(found) <= 64 and 8 * len(found) <= len(numbers):
        return bytes([1, 255]) + b"".join(it.to_bytes(2, "little") for it in found)
    return blocks if len(blocks) < len(pairs) else pairs


def directory_bytes(form, key_len, count, chunks, bytes_of):
    end, total, ends, sums, bodies = 0, 0, [], [], b""
    for numbers in chunks.values():
        body = bytes_of(numbers)
        end += len(body)
        total += len(numbers)
        ends.append(end)
        sums.append(total)
        bodies += body
    (e, ends), (z, sums) = shorts_of(ends), shorts_of(sums)
    keys = b"".join(key.to_bytes(key_len, "little") for key in chunks)
    return bytes([form]) + number_of(count) + number_of(len(chunks)) + bytes([e + 16 * z]) + keys + ends + sums + bodies


def encode_set(ids):
    need(len(ids) <= 2**28, "TooLong", len(ids))
    for p in range(1, len(ids)):
        need(ids[p - 1] < ids[p], "NotSorted", p)
    if len(ids) < 128:
        return bytes([128 + len(ids)]) + tail_of(0, 0, 2, ids)
    chunks = {}
    for value in ids:
        chunks.setdefault(value >> 16, []).append(value & 65_535)
    if len(ids) < 4 * len(chunks):
        return bytes([6]) + number_of(len(ids)) + b"".join(value.to_bytes(4, "little") for value in ids)
    return directory_bytes(5, 2, len(ids), chunks, body_bytes)


# Roaring's portable format, each container in its shortest form.


def roaring_container(numbers):
    """The bytes of a container, and whether it is runs."""
    kept = {*numbers}
    firsts = [number for number in numbers if number - 1 not in kept]
    lasts = [number for number in numbers if number + 1 not in kept]
    if 2 + 4 * len(firsts) < (2 + 2 * len(numbers) if len(numbers) <= 4096 else 8192):
        pairs = [it for first, last in zip(firsts, lasts) for it in (first, last - first)]
        return b"".join(it.to_bytes(2, "little") for it in [len(firsts), *pairs]), True
    if len(numbers) <= 4096:
        return b"".join(it.to_bytes(2, "little") for it in numbers), False
    bits = bytearray(8192)
    for number in numbers:
        bits[number // 8] += 1 << number % 8
    return bytes(bits), False


def encode_roaring(ids):
    keys = sorted({value >> 16 for value in ids})
    numbers = {key: [] for key in keys}
    for value in ids:
        numbers[value >> 16].append(value % 65_536)
    containers = [roaring_container(numbers[key]) for key in keys]
    flags = sum(is_run << m for m, (_, is_run) in enumerate(containers))
    head = b"\x3A\x30\x00\x00" + len(keys).to_bytes(4, "little")
    if flags:
        head = b"\x3B\x30" + (len(keys) - 1).to_bytes(2, "little") + flags.to_bytes((len(keys) + 7) // 8, "little")
    head += b"".join(it.to_bytes(2, "little") for key in keys for it in (key, len(numbers[key]) - 1))
    if not flags or len(keys) >= 4:
        at = len(head) + 4 * len(keys)
        for body, _ in containers:
            head, at = head + at.to_bytes(4, "little"), at + len(body)
    return head + b"".join(body for body, _ in containers)
