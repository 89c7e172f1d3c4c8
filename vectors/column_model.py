"""The writer of the columns of docs/FORMAT.md. It goes with vectors/model.py, after decoders.py."""


def column_codes(kind, before, values):
    """The codes of values of a plain column, or of those of a sorted one after a value, and what a plain column stores before them."""
    if kind == 0:
        mark = min(values)
        return [value - mark for value in values], mark
    return codes_of(1, before, values), values[-1]


def column_groups(codes):
    return b"".join(group_of(codes[at : at + 32]) for at in range(0, len(codes), 32))


def column_tail(kind, blocks, before, values):
    if not values:
        return b""
    codes, least = column_codes(kind, before, values)
    if kind == 0:
        return number_of(least) + column_groups(codes if len(codes) > 1 else [])
    return column_groups(codes if blocks else codes[1:])


def encode_column(kind, values):
    count = len(values)
    need(count <= 2**28, "TooLong", count)
    for p in range(1, count):
        need(kind == 0 or values[p - 1] <= values[p], "NotSorted", p)
    before, end, ends, marks, bodies = values[0] if values else 0, 0, [], [], b""
    text = bytes([64 + 32 * kind + min(count, 31)]) + (number_of(count) if count >= 31 else b"")
    text += number_of(before) if kind and count else b""
    for m in range(count // 128):
        codes, mark = column_codes(kind, before, values[128 * m : 128 * m + 128])
        width = width_of(codes)
        end, before = end + width, mark
        ends.append(end)
        marks.append(mark)
        bodies += body_of(4, width, codes)
    if marks:
        (e, ends), (z, short) = shorts_of(ends), shorts_of(marks)
        text += bytes([e + 16 * z]) + ends + short + bodies
    return text + column_tail(kind, len(marks), before, values[128 * len(marks) :])
