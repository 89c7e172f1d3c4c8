"""Bytes that are no column: damaged ones, and forged ones with right checksums."""

import struct
import zlib

import numpy as np
import pytest
from fimulowen import Column, Error, IdSet
from fimulowen.column import CHUNK

from test_column import RANDOM, assembled, by_hand, column_text, set_text


def refused(data):
    with pytest.raises(Error) as raised:
        Column.open(data)
    return raised.value


def test_damaged():
    """Each changed, missing or added byte is found."""
    column = Column(np.arange(-300, 70_000) * 5, np.arange(70_300) % 50 == 0)
    data, faults = column.tobytes(), set()
    for at in sorted({*range(100), *RANDOM.integers(0, len(data), 300).tolist()}):
        for bad in (data[:at], data[:at] + bytes([data[at] ^ 1 << at % 8]) + data[at + 1 :], data[:at] + b"\0" + data[at:]):
            faults.add(refused(bad).fault)
    faults.add(refused(data + b"\0").fault)
    assert faults == {"Short", "BadName", "BadChecksum", "Trailing"}
    bad = bytearray(data)
    bad[-1] ^= 1
    found = refused(bad)
    sizes = np.frombuffer(data, "<u4", 3, 28 + 16).sum()
    assert (found.fault, found.part, found.byte, found.number) == ("BadChecksum", 1, 28 + 64 + sizes, None)
    for empty in (b"", np.empty(0, "u1"), b"FCOL"):
        assert refused(empty).fault == "Short"


def forged(greatest, count, parts, least=0, sizes=None, **more):
    """One chunk with right checksums."""
    row = struct.pack("<qq", least, greatest) + struct.pack("<3II", *(sizes or map(len, parts)), zlib.crc32(b"".join(parts)))
    return assembled(count, [row], parts, **more)


ONE, LOW, HIGH = set_text([1]), column_text(1, [0, 0, 9]), column_text(1, [5, 5, 5])


def test_forged_shapes():
    assert list(Column.open(forged(9, 3, [ONE, LOW, b""]))) == [0, None, 9]
    for bad in [
        forged(9, 2, [b"", LOW, b""]),
        forged(9, 4, [b"", LOW, b""]),
        forged(9, 3, [b"", LOW, column_text(1, [0, 1])]),
        forged(9, 3, [ONE, b"", HIGH]),
        forged(9, 3, [set_text([3]), LOW, b""]),
        forged(9, 3, [set_text([]), LOW, b""]),
        forged(9, 3, [b"", LOW, b""], kind=4),
        forged(9, 3, [b"", LOW, b""], kind=2),
        forged(9, 3, [b"", LOW, b""], kind=2, unit=14),
        forged(9, 3, [b"", LOW, b""], unit=1),
        forged(9, 3, [b"", LOW, b""], zero=1),
        forged(9, 3 + CHUNK, [b"", LOW, b""]),
        forged(9, 1 << 63, [b"", LOW, b""]),
    ]:
        assert refused(bad).fault == "BadShape"
    assert refused(forged(9, 3, [b"", LOW, b""], version=1)).fault == "BadName"
    found = refused(forged(9, 3, [b"", LOW[:-1], b""]))
    assert (found.fault, found.part, found.byte) == ("Short", 0, 60)
    assert refused(forged(9, 3, [b"\x82\x00", LOW, b""])).fault == "Short"


def test_only_form():
    """A column has one encoding: bytes with the same values in another form are refused."""
    plain = [7, 3, 12, 0]
    assert Column.open(forged(12, 4, [b"", column_text(0, plain), b""])) == Column(plain)
    for bad in [
        forged(10, 3, [b"", LOW, b""]),  # bounds that are not the values'
        forged(8, 3, [b"", LOW, b""]),
        forged(8, 3, [b"", LOW, b""], least=9),
        forged(9, 3, [b"", column_text(1, [1, 1, 9]), b""]),
        forged(13, 4, [b"", column_text(0, plain), b""]),
        forged(11, 4, [b"", column_text(0, plain), b""]),
        forged(12, 4, [b"", column_text(0, [7, 3, 12, 1]), b""]),
        forged(9, 3, [b"", column_text(0, [0, 0, 9]), b""]),  # plain, though in order
        forged(9, 3, [b"", LOW, column_text(1, [0, 0, 0])]),  # wide, though narrow
        forged(2**32, 2, [b"", column_text(1, [0, 0]), column_text(0, [0, 1])]),
        forged((5 << 32) + 9, 3, [b"", LOW, HIGH]),
        forged(9, 3, [ONE, column_text(1, [1, 1, 9]), b""]),
        forged((1 << 32) + 1, 2, [b"", column_text(1, [1, 1]), column_text(1, [0, 1])]),
        forged((1 << 32) + 9, 3, [b"", column_text(0, [5, 3, 9]), column_text(1, [0, 0, 1])]),
        forged(-1, 2, [b"", column_text(1, [0, 7]), HIGH[:0]], least=2**63 - 4),
        forged(9, 3, [ONE, column_text(1, [0, 5, 9]), b""]),  # numbers of missing values
        forged(9, 3, [set_text([0]), column_text(1, [0, 5, 9]), b""]),
        forged(9, 3, [set_text([2]), column_text(1, [0, 5, 9]), b""]),
        forged(5, 2, [set_text([0, 1]), column_text(1, [0, 0]), b""], least=5),
    ]:
        assert refused(bad).fault == "LooseForm"
    assert list(Column.open(forged(0, 2, [set_text([0, 1]), column_text(1, [0, 0]), b""]))) == [None, None]


@pytest.mark.parametrize("wide", [1, 2**33])
@pytest.mark.parametrize("at", [0, 1, 4095, 4096, 4097, 8191, 8192, 9999])
def test_only_form_in_pieces(wide, at):
    """A wrong number for a missing value, and a bound that is one too high, at each edge of the pieces that are read."""
    values = (RANDOM.integers(1, 1000, 10_000) * wide).tolist()
    values[5000], values[6000] = 0, 1000 * wide
    missing = [it in (at, 3000) for it in range(10_000)]
    assert Column.open(Column(np.array(values), missing).tobytes())[at] is None
    whole = Column(np.array(values))
    rows, filled = whole.tobytes()[28:60], values[at]
    parts = [whole.tobytes()[60:][: struct.unpack_from("<I", rows, 20)[0]], whole.tobytes()[60 + struct.unpack_from("<I", rows, 20)[0] :]]
    before = values[at - 1] if at else values[1]
    absent = set_text([at])
    found = refused(forged(1000 * wide, 10_000, [absent, *parts])) if filled != before else None
    assert found is None or found.fault == "LooseForm"
    assert refused(forged(1000 * wide + 1, 10_000, [b"", *parts])).fault == "LooseForm"
    assert refused(forged(1000 * wide - 1, 10_000, [b"", *parts])).fault == "LooseForm"


def test_by_hand_is_read():
    for values in [[5], [2**40, 0, -(2**40)], [-(2**63), 2**63 - 1]]:
        assert list(Column.open(by_hand(values))) == values and IdSet([0]) == Column([None]).missing


def with_checksums(data, at, byte):
    """The bytes of one chunk with another byte, and right checksums."""
    data = bytearray(data)
    data[at] = byte
    data[56:60] = struct.pack("<I", zlib.crc32(data[60:]))
    data[20:24] = struct.pack("<I", zlib.crc32(data[28:60]))
    data[24:28] = struct.pack("<I", zlib.crc32(data[:24]))
    return bytes(data)


@pytest.mark.parametrize("name", range(6))
def test_what_opens_is_written_so(name):
    """Bytes with other bytes and right checksums are refused, or are those of the column that they open as."""
    values = [
        [5, 7, 7, 9],
        RANDOM.integers(-40, 40, 150).tolist(),
        np.sort(RANDOM.integers(0, 900, 200)).tolist(),
        (RANDOM.integers(-40, 40, 140) << 33).tolist(),
        np.sort(RANDOM.integers(0, 1 << 40, 30)).tolist(),
        [3] * 40,
    ][name]
    opened = 0
    for missing in None, RANDOM.random(len(values)) < 0.2:
        data = Column(np.array(values), missing).tobytes()
        for at in [5, 6, 8, 16, *range(28, 56), *range(60, len(data))]:
            for byte in {*RANDOM.integers(0, 256, 3).tolist(), data[at] ^ 1, data[at] ^ 128}:
                bad = with_checksums(data, at, byte)
                try:
                    column = Column.open(bad)
                except Error:
                    continue
                again = column.unpack(fill=0)
                assert Column(again, np.isin(np.arange(len(column)), column.missing.unpack())).tobytes() == bad
                opened += 1
    assert opened > 0
