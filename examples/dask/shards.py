"""A shard: the words of some documents, each with the id set of its documents, in one file that is mapped and read in place. README.md has the
bytes of the file. Nothing here is about Dask.

The documents of a shard count from 0 on. An index adds the id of the first to them, so that ids may have more than 32 bits.
"""
import array
import bisect
import collections
import contextlib
import functools
import mmap
import os
import re
import struct
import uuid
import zlib

import fimulowen
import numpy as np

WORD = re.compile(r"\w+")
# The first bytes, the number of documents and the number of words. After it there is a row for each word, then the words, then the sets.
HEAD = struct.Struct("<8sQQ")
MARK = b"shard2\0\0"
# Where a word and its set end, from the first word and the first set on, and the CRC-32 of the set.
ROWS = np.dtype([("word", "<u4"), ("set", "<u4"), ("crc", "<u4")])
NONE = fimulowen.IdSet()
CALLS = {"and": fimulowen.IdSet.intersection, "or": fimulowen.IdSet.union, "not": fimulowen.IdSet.difference}
COUNTS = {"and": fimulowen.intersect_len, "or": fimulowen.unite_len, "not": fimulowen.subtract_len}


class ShardError(Exception):
    """A shard does not answer. `file` says which, `word` whose set was read, or None, and `fault` what is wrong."""

    def __init__(self, file, word, fault):
        super().__init__(file, word, fault)
        self.file, self.word, self.fault = file, word, fault

    def __str__(self):
        return f"{self.file}: {'' if self.word is None else f'the set of {self.word!r}: '}{self.fault}"


def postings_of(lines):
    """How many lines there are, and by word the numbers of the lines that have it, in increasing order."""
    found, count = collections.defaultdict(lambda: array.array("I")), 0
    for line in lines:
        for word in set(WORD.findall(line.lower())):
            found[word].append(count)
        count += 1
    return count, found


@contextlib.contextmanager
def replacing(path):
    """A new file, which gets its name when it is whole and stored: nobody may write to a file that a worker has mapped."""
    part = f"{path}.{uuid.uuid4()}.part"
    with open(part, "wb") as file:
        yield file
        file.flush()
        os.fsync(file.fileno())
    os.replace(part, path)
    folder = os.open(os.path.dirname(path), os.O_RDONLY)
    try:
        os.fsync(folder)  # the name
    finally:
        os.close(folder)


def write(path, documents, postings):
    """Writes a shard. Returns what an index keeps of it: sizes, and the CRC-32 of all bytes before the sets."""
    words = sorted(postings)
    bounds = np.cumsum([0, *(len(postings[it]) for it in words)])
    values = np.concatenate([np.empty(0, "u4"), *(np.asarray(postings[it], "u4") for it in words)])
    sets, ends = fimulowen.IdSet.pack_many(values, bounds)
    text, view = [it.encode() for it in words], memoryview(sets)
    if max(len(sets), sum(map(len, text))) > 0xFFFFFFFF:
        raise ValueError(f"{path} would have 4 GiB of sets or more: take more shards")
    rows = np.empty(len(words), ROWS)
    rows["word"], rows["set"] = np.cumsum([len(it) for it in text]), ends[1:]
    rows["crc"] = [zlib.crc32(view[start:end]) for start, end in zip(ends.tolist(), ends[1:].tolist())]
    table = HEAD.pack(MARK, documents, len(words)) + rows.tobytes() + b"".join(text)
    with replacing(path) as file:
        file.write(table)
        file.write(sets)
    return {"documents": documents, "postings": len(values), "bytes": len(table) + len(sets), "crc": zlib.crc32(table)}


def write_lines(source, path):
    """One task of a build: writes a shard of a text file in UTF-8. Each line is a document."""
    with open(source, encoding="utf-8", errors="replace", newline="\n") as lines:
        return write(path, *postings_of(lines))


class Shard:
    """A shard that is open. `crc` is what `write` returned: a file of other documents, or with damage before its sets, is refused."""

    def __init__(self, path, crc):
        self.path = path
        try:
            with open(path, "rb") as file:
                self.map = mmap.mmap(file.fileno(), 0, access=mmap.ACCESS_READ)
            _, self.documents, count = HEAD.unpack_from(self.map)
            self.rows = np.frombuffer(self.map, ROWS, count, HEAD.size)
        except (OSError, ValueError, OverflowError, struct.error) as why:
            raise ShardError(path, None, str(why)) from None
        self.words = HEAD.size + self.rows.nbytes
        self.sets = self.words + (int(self.rows["word"][-1]) if count else 0)
        if zlib.crc32(memoryview(self.map)[: self.sets]) != crc:
            raise ShardError(path, None, "it is damaged, or not the shard that the index has")
        self.ids = functools.lru_cache(maxsize=100_000)(self.ids)

    def bytes_of(self, column, at):
        """The bytes of a word or of a set, by its number."""
        first, ends = (self.words if column == "word" else self.sets), self.rows[column]
        return memoryview(self.map)[first + (int(ends[at - 1]) if at else 0) : first + int(ends[at])]

    def ids(self, word):
        """The documents that have a word. Their set is tested here, and cached."""
        key = word.encode()
        at = bisect.bisect_left(range(len(self.rows)), key, key=lambda it: bytes(self.bytes_of("word", it)))
        if at == len(self.rows) or self.bytes_of("word", at) != key:
            return NONE
        text = self.bytes_of("set", at)
        try:
            found = fimulowen.IdSet.open(text)
        except fimulowen.Error as why:
            raise ShardError(self.path, word, str(why)) from None
        if zlib.crc32(text) != self.rows["crc"][at]:
            raise ShardError(self.path, word, "its checksum is another")
        return found

    def answer(self, query):
        """The documents of a query, as a set. A query is a word, or ("and" | "or" | "not", query, ..)."""
        if isinstance(query, str):
            return self.ids(query)
        return CALLS[query[0]](*map(self.answer, query[1:]))

    def count(self, query):
        """How many documents a query has."""
        if isinstance(query, str):
            return len(self.ids(query))
        return COUNTS[query[0]](*map(self.answer, query[1:]))


opened = functools.lru_cache(maxsize=1000)(Shard)  # of one process


def answers(path, crc, queries, counted):
    """One task of a batch: what a shard answers to each query, as a set, or as a count."""
    shard = opened(path, crc)
    # To read what is no longer there would end the process.
    if shard.map.size() != len(shard.map):
        raise ShardError(path, None, "it was cut after it was mapped")
    return [shard.count(it) if counted else shard.answer(it) for it in queries]
