#!/usr/bin/env python3
"""Reads what CRoaring writes, and damaged texts of it, by `IdSetBuf::from_roaring` and by the decoders of vectors/, and compares these: random sets, as
CRoaring makes and combines them, optimized, shrunk or neither. So are the files that the library in Go has for its tests. What `to_roaring` and
the model of vectors/ write has to be what CRoaring writes of the same ids, also after both combined and changed the sets. It needs libroaring.so.0
(libroaring0 of Debian), these files and cargo, and is left out without them. `--sets` and a number is how many sets there are, else 300; `--jobs` and a
number how many processes test them, else 1. The last line is 'N passed, M failed'.
"""
import array
import concurrent.futures
import ctypes
import functools
import os
import random
import sys

sys.path.insert(1, f"{sys.path[0]}/..")
sys.path.insert(1, f"{sys.path[0]}/../build")
import by_cargo
from common import ROOT, reported, run, source, words

OUT = f"{ROOT}/out/roaring"
LIBRARY, FILES = "libroaring.so.0", "/usr/share/gocode/src/github.com/RoaringBitmap/roaring/testdata"
KEYS = [range(5), range(65_530, 65_536), range(65_536)]
# How many sets have one seed and are in memory at once.
BATCH = 100
RANGE, BITMAP = [ctypes.c_uint64, ctypes.c_uint64], ctypes.c_void_p
# By the name of a function of CRoaring: what it returns, and what it is given.
CALLS = {
    "of_ptr": (BITMAP, ctypes.c_size_t, ctypes.c_void_p),
    "free": (None, BITMAP),
    "run_optimize": (ctypes.c_bool, BITMAP),
    "shrink_to_fit": (ctypes.c_size_t, BITMAP),
    "flip_inplace": (None, BITMAP, *RANGE),
    "or_inplace": (None, BITMAP, BITMAP),
    **{f"{name}_range_closed": (None, BITMAP, ctypes.c_uint32, ctypes.c_uint32) for name in ["add", "remove"]},
    "get_cardinality": (ctypes.c_uint64, BITMAP),
    "to_uint32_array": (None, BITMAP, ctypes.c_void_p),
    "portable_size_in_bytes": (ctypes.c_size_t, BITMAP),
    "portable_serialize": (ctypes.c_size_t, BITMAP, ctypes.c_char_p),
    "portable_deserialize_safe": (BITMAP, ctypes.c_char_p, ctypes.c_size_t),
    **{name: (BITMAP, BITMAP, BITMAP) for name in ["and", "or", "xor", "andnot"]},
}


def library():
    """The library, or None."""
    try:
        found = ctypes.CDLL(LIBRARY)
    except OSError:
        return None
    for name, (returns, *given) in CALLS.items():
        call = getattr(found, f"roaring_bitmap_{name}")
        call.restype, call.argtypes = returns, given
    return found


class Roaring:
    """CRoaring, and random numbers."""

    def __init__(self, seed):
        self.library, self.random = library(), random.Random(seed)

    def call(self, name, *given):
        return getattr(self.library, f"roaring_bitmap_{name}")(*given)

    def of(self, ids):
        numbers = array.array("I", ids)
        return self.call("of_ptr", len(ids), numbers.buffer_info()[0])

    def ids(self, bitmap):
        found = array.array("I", bytes(4 * self.call("get_cardinality", bitmap)))
        self.call("to_uint32_array", bitmap, found.buffer_info()[0])
        return [*found]

    def text(self, bitmap):
        found = ctypes.create_string_buffer(self.call("portable_size_in_bytes", bitmap) + 1)
        size = self.call("portable_serialize", bitmap, found)
        return found.raw[:size]

    def optimized(self, ids):
        """What is written of ids after `run_optimize`."""
        made = self.of(ids)
        self.call("run_optimize", made)
        text = self.text(made)
        self.call("free", made)
        return text

    def changed(self, ids, before):
        """What is written of the ids that both have, and of all ids after the changes of rust/vectors/bitmaps.rs."""
        made, other = self.of(ids), self.of(before)
        both = self.call("and", made, other)
        self.call("or_inplace", made, other)
        self.call("add_range_closed", made, 70_000, 70_000)
        self.call("remove_range_closed", made, 65_536, 65_536)
        self.call("add_range_closed", made, 1000, 2999)
        self.call("remove_range_closed", made, 10_000, 59_999)
        self.call("flip_inplace", made, 130_000, 140_000)
        found = self.ids(both), [it + 12_345 for it in self.ids(made) if it + 12_345 < 2**32]
        for bitmap in made, other, both:
            self.call("free", bitmap)
        return [*map(self.optimized, found)]

    def files(self):
        """What the files have, with the ids that CRoaring reads; those whose names say that readers crashed have none."""
        for name in sorted(os.listdir(FILES)):
            with open(f"{FILES}/{name}", "rb") as file:
                text = file.read()
            made = None if name.startswith("crash") else self.call("portable_deserialize_safe", text, len(text))
            yield text, self.ids(made) if made else "a fault"

    def numbers(self):
        """The numbers of a container: few, about 4,096, runs, many, the last ones, one run, or in steps."""
        draw = self.random
        kind, first = draw.choice([0, 0, 1, 2, 2, 3, 4, 5, 6]), draw.randrange(65_000)
        if kind < 2:
            return draw.sample(range(65_536), draw.choice([[1, 5, 40], [200, 4095, 4096, 4097]][kind]))
        if kind == 2:
            begins = [draw.randrange(65_536) for _ in range(draw.randrange(1, 50))]
            return {number for begin in begins for number in range(begin, min(65_536, begin + draw.randrange(1, 2000)))}
        if kind == 3:
            # A half of the numbers, a quarter, or seven eighths.
            bits = draw.getrandbits(65_536)
            bits = draw.choice([bits, bits & draw.getrandbits(65_536), bits | draw.getrandbits(65_536) | draw.getrandbits(65_536)])
            return [number for number, bit in enumerate(f"{bits:065536b}") if bit == "1"]
        return [range(65_536 - draw.randrange(1, 30), 65_536), range(first, first + 500), range(first % 20, 65_536, draw.randrange(2, 40))][
            kind - 4
        ]

    def bitmap(self):
        draw = self.random
        keys = draw.sample(draw.choice(KEYS), draw.choice([0, 1, 1, 2, 3, 4, 5]))
        made = self.of(sorted({65_536 * key + number for key in keys for number in self.numbers()}))
        if draw.random() < 0.6:
            self.call("run_optimize", made)
        if draw.random() < 0.2:
            other = self.bitmap()
            both = self.call(draw.choice(["and", "or", "xor", "andnot"]), made, other)
            self.call("free", made)
            self.call("free", other)
            made = both
        if draw.random() < 0.1:
            first = draw.randrange(2**32 - 70_000)
            self.call("flip_inplace", made, first, first + draw.randrange(70_000))
        if draw.random() < 0.2:
            self.call("shrink_to_fit", made)
        return made

    def damaged(self, text):
        draw, text = self.random, bytearray(text)
        at, near = draw.randrange(len(text)), draw.randrange(min(len(text), 64))
        kind = draw.randrange(4)
        if kind == 0:
            return bytes(text[:at])
        if kind == 1:
            return bytes(text) + bytes(draw.randrange(1, 4))
        text[[at, near][kind - 2]] ^= 1 << draw.randrange(8)
        return bytes(text)


def answer_of(call, number_of, *given):
    try:
        return call(*given)
    except ValueError as fault:
        name, *details = fault.args
        return f"fault {number_of(f'{name}({details})' if details else name)}"


def built():
    """The program that reads bitmaps."""
    by_cargo.cargo("build", OUT, "--profile", "quick", "--package", "bitpacking", "--features", "__source", "--example", "bitmaps")
    return f"{OUT}/quick/examples/bitmaps"


def decoders():
    """What the files of vectors/ define, and the number of a fault."""
    names = {}
    exec("\n".join(source(f"vectors/{name}.py") for name in ["decoders", "model", "set_model"]), names)
    # A damaged text has most containers of its original.
    for name in ["roaring_numbers", "body_numbers"]:
        names[name] = functools.lru_cache(64)(names[name])
    sys.path.insert(1, f"{ROOT}/vectors")
    from refusals import number_of

    return names["decode_roaring"], names["decode_set"], names["encode_roaring"], number_of


def batch_checks(program, seed, count):
    decode_roaring, decode_set, encode_roaring, number_of = decoders()
    roaring, given = Roaring(seed), []
    for index in range(count):
        made = roaring.bitmap()
        ids, text = roaring.ids(made), roaring.text(made)
        roaring.call("free", made)
        given += [(text, ids), *((roaring.damaged(text), None) for _ in range(4))]
        yield f"what is written of set {index} of {seed}", None if encode_roaring(ids) == roaring.optimized(ids) else text[:80].hex()
    given += roaring.files() if seed == 1 else []
    right = [answer_of(decode_roaring, number_of, text) for text, _ in given]
    lines = "".join(f"{text.hex()}\n" for text, _ in given)
    found = run(program, input=lines).stdout.splitlines()
    yield "how many bitmaps are read", None if len(found) == len(given) else len(found)
    before = []
    for (text, ids), right_answer, line in zip(given, right, found):
        if line.startswith("fault"):
            read = line
        else:
            found_bytes, written, *changed = map(bytes.fromhex, line.split())
            read = answer_of(decode_set, number_of, found_bytes)
            yield f"what is written of bitmap {text[:40].hex()}", None if written == roaring.optimized(read) else written[:80].hex()
            why = None if changed == roaring.changed(read, before) else " ".join(it[:80].hex() for it in changed)
            yield f"what is written of bitmap {text[:40].hex()} after changes", why
            before = read
        wanted = ids in (None, right_answer) or (ids == "a fault" and line.startswith("fault"))
        why = None if read == right_answer and wanted else f"{str(read)[:60]}, and not {str(right_answer)[:60]}"
        yield f"bitmap {text[:40].hex()} of {len(text)} bytes", why
    other = run(program, input=lines, env=dict(os.environ, BITPACKING_FIRST_COPY="1")).stdout.splitlines()
    yield f"what the first copy of the modules reads and writes, of {seed}", None if other == found else "not the same"


def batch(*given):
    return [*batch_checks(*given)]


def checks(count, jobs):
    program = built()
    seeds = range(1, -(-count // BATCH) + 1)
    counts = [min(BATCH, count - BATCH * (seed - 1)) for seed in seeds]
    with concurrent.futures.ProcessPoolExecutor(jobs) as pool:
        for found in pool.map(batch, [program] * len(seeds), seeds, counts):
            yield from found


def number(flag, otherwise):
    """The number after a flag."""
    asked = words("--sets", "--jobs")
    return int(asked[asked.index(flag) + 1]) if flag in asked else otherwise


def main():
    others = [*([] if library() else [LIBRARY]), *([] if os.path.isdir(FILES) else [FILES])]
    return reported("roaring.py", lambda: checks(number("--sets", 300), number("--jobs", 1)), "cargo", others=others)


if __name__ == "__main__":
    sys.exit(main())
