"""The writer of the wide sets of docs/FORMAT.md. It goes with vectors/model.py, after set_model.py and column_model.py."""


def encode_wide_set(ids):
    need(len(ids) <= 2**28, "TooLong", len(ids))
    for p in range(1, len(ids)):
        need(ids[p - 1] < ids[p], "NotSorted", p)
    words = {}
    for value in ids:
        words.setdefault(value >> 32, []).append(value % 2**32)
    if ids and len(ids) >= 8 * len(words):
        return directory_bytes(8, 4, len(ids), words, encode_set)
    column = encode_column(1, [value >> 32 for value in ids])
    return bytes([9]) + number_of(len(ids)) + column + b"".join((value % 2**32).to_bytes(4, "little") for value in ids)
