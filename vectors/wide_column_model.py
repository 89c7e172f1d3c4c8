"""The writer of the wide columns of docs/FORMAT.md. It goes with vectors/column_model.py and set_model.py, after decoders.py."""


def wide_filled(values):
    """The values, each missing one as the one before it, or as the first that is there."""
    before, found = next((value for value in values if value is not None), 0), []
    for value in values:
        before = before if value is None else value
        found.append(before)
    return found


def wide_column_part(numbers):
    return encode_column(int(all(a <= b for a, b in zip(numbers, numbers[1:]))), numbers)


def wide_chunk_parts(values):
    """The bounds of a chunk, and its parts."""
    found = wide_filled(values)
    least, greatest = min(found), max(found)
    low = wide_column_part([(value - least) % 2**32 for value in found])
    return [least, greatest], [low, wide_column_part([value - least >> 32 for value in found]) if greatest - least >> 32 else b""]


def wide_shorts_of(values):
    size = max(1, (max(values, default=0).bit_length() + 7) // 8)
    return size, b"".join(value.to_bytes(size, "little") for value in values)


def encode_wide_column(values):
    need(len(values) <= 2**28, "TooLong", len(values))
    there = [value for value in values if value is not None]
    bounds, parts = [], [encode_set([p for p, value in enumerate(values) if value is None])]
    for at in range(0, len(values), 65_536):
        more, bodies = wide_chunk_parts(values[at : at + 65_536])
        bounds += more
        parts += bodies
    (w, bounds), (e, ends) = wide_shorts_of(bounds), wide_shorts_of([sum(map(len, parts[: j + 1])) for j in range(len(parts))])
    form = 11 if all(a <= b for a, b in zip(there, there[1:])) else 10
    return bytes([form]) + number_of(len(values)) + bytes([e + 16 * w]) + bounds + ends + b"".join(parts)
