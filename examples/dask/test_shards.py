"""Shards and queries without Dask: their bytes, damage, and how text is split into words."""
import gc
import os
import re
import struct
import time
import zlib

import pytest

import queries
import shards
from shards import ShardError


def test_parsed():
    for text, query in {
        "Bees": "bees",
        "a b": ("and", "a", "b"),
        "a b | c": ("or", ("and", "a", "b"), "c"),
        "a (b | c) -d -(e f)": ("not", ("and", "a", ("or", "b", "c")), "d", ("and", "e", "f")),
        "-a b": ("not", "b", "a"),
        "a-b c": ("and", ("and", "a", "b"), "c"),
        "import AND numpy": ("and", "import", "and", "numpy"),
    }.items():
        assert queries.parsed(text) == query
    for text in "", "-a", "a |", "a)", "(a", "a & b", "a - - b", "a -", "a --b", "a -)", "a - (b)", "(" * 3000:
        with pytest.raises(ValueError, match="the query"):
            queries.parsed(text)


@pytest.mark.parametrize("text", ["well-known", "don't", "x-y", "3.5", "na\u00efve", "user@example.com", "c++", "Stra\u00dfe"])
def test_queries_are_split_as_documents_are(text):
    words = sorted(shards.postings_of([text])[1])
    found = queries.parsed(text)
    assert sorted(found[1:] if isinstance(found, tuple) else [found]) == words and (found[0] == "and" or found == words[0])
    assert queries.parsed(f"a -{text}") == ("not", "a", found) and queries.parsed(f"({text})|a") == ("or", found, "a")


def test_words():
    lines = ["Bees, bees!\n", "\n", "caf\u00e9 B_1 it's", ""]
    count, found = shards.postings_of(lines)
    assert count == 4 and {name: list(it) for name, it in found.items()} == {
        "bees": [0],
        "caf\u00e9": [2],
        "b_1": [2],
        "it": [2],
        "s": [2],
    }


def test_bytes(tmp_path):
    """A shard by hand, from the table of the page."""
    (tmp_path / "lines").write_bytes(b"b a\nb")
    sizes = shards.write_lines(tmp_path / "lines", f"{tmp_path}/shard")
    a, b = b"\x81\x00", b"\x82\x00\x00"  # the set of 0, and of 0 and 1
    rows = struct.pack("<6I", 1, len(a), zlib.crc32(a), 2, len(a + b), zlib.crc32(b))
    table = b"shard2\0\0" + struct.pack("<2Q", 2, 2) + rows + b"ab"
    assert (tmp_path / "shard").read_bytes() == table + a + b
    assert sizes == {"documents": 2, "postings": 3, "bytes": len(table + a + b), "crc": zlib.crc32(table)}
    (tmp_path / "lines").write_bytes(b"")
    sizes = shards.write_lines(tmp_path / "lines", f"{tmp_path}/shard")
    assert len(shards.Shard(f"{tmp_path}/shard", sizes["crc"]).ids("a")) == 0 and sizes["documents"] == 0


def test_each_bit(tmp_path):
    """Each flipped bit of a shard is found, and the word is named if it is in a set."""
    path, crc = f"{tmp_path}/shard", shards.write(f"{tmp_path}/shard", 900, {"a": [0], "bee": range(0, 900, 3), "c": [5, 899]})["crc"]
    with open(path, "rb") as file:
        whole = file.read()
    shard = shards.Shard(path, crc)
    ends = [shard.sets + int(it) for it in shard.rows["set"]]
    for bit in range(8 * len(whole)):
        data = bytearray(whole)
        data[bit // 8] ^= 1 << bit % 8
        (tmp_path / "damaged").write_bytes(data)
        os.replace(tmp_path / "damaged", path)
        named = None if bit // 8 < shard.sets else ["a", "bee", "c"][sum(end <= bit // 8 for end in ends)]
        with pytest.raises(ShardError) as error:
            damaged = shards.Shard(path, crc)
            for it in "a", "bee", "c":
                damaged.ids(it)
        assert error.value.args[:2] == (path, named)


def test_caches_are_bounded(tmp_path):
    """A process keeps 1,000 shards, and of each 100,000 sets."""
    names = [f"w{it}" for it in range(100_100)]
    crc = shards.write(f"{tmp_path}/0", 1, {it: [0] for it in names})["crc"]
    assert shards.answers(f"{tmp_path}/0", crc, names, True) == [1] * len(names)
    assert shards.opened(f"{tmp_path}/0", crc).ids.cache_info().currsize == 100_000
    crc = shards.write(f"{tmp_path}/1", 1, {"a": [0]})["crc"]
    for it in range(2, 1101):
        os.link(f"{tmp_path}/1", f"{tmp_path}/{it}")
        assert shards.answers(f"{tmp_path}/{it}", crc, ["a"], True) == [1]
    for _ in range(100):  # a call does nothing if another thread collects at the time
        gc.collect()
        with open("/proc/self/maps", encoding="utf-8") as maps:
            mapped = len({line.split()[-1] for line in maps if f"{tmp_path}/" in line})
        if mapped <= 1000:
            break
        time.sleep(0.1)
    assert mapped == 1000
    shards.opened.cache_clear()


def test_stored_before_it_is_named(tmp_path, monkeypatch):
    """The bytes of a shard are stored before it gets its name, and its name before the call ends."""
    seen, fsync, replace = [], os.fsync, os.replace

    def stored(descriptor):
        seen.append(os.readlink(f"/proc/self/fd/{descriptor}"))
        fsync(descriptor)

    def named(part, path):
        seen.append(f"{path} of {os.path.getsize(part)} bytes")
        replace(part, path)

    monkeypatch.setattr(os, "fsync", stored)
    monkeypatch.setattr(os, "replace", named)
    size = shards.write(f"{tmp_path}/it", 3, {"a": [0, 2]})["bytes"]
    assert re.fullmatch(rf"{re.escape(str(tmp_path))}/it\..*\.part", seen[0]) and seen[1:] == [
        f"{tmp_path}/it of {size} bytes",
        str(tmp_path),
    ]
