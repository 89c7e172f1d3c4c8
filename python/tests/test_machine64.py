"""Random programs of all calls of IdSet64, beside a sorted array of numpy and the integers of Python. They are the same ones each time; with the
variable FIMULOWEN_PROGRAMS as many others."""

import bisect
import copy
import functools
import operator
import os
import pickle

import fimulowen
import numpy as np
import pytest
from fimulowen import Error, IdSet, IdSet64

from test_damaged import damaged
from test_machine import items_of
from wide_ids import EDGES, KINDS, MOST, drawn, form_of

PROGRAMS = os.environ.get("FIMULOWEN_PROGRAMS")
PARTS = 20
COUNTS = [0, 1, 2, 5, 8, 15, 16, 30, 30, 60, 129]
# Of each operation: the operator, the call of numpy for two arrays, the method, and the functions to an array and to a count.
OPERATIONS = [
    (operator.and_, np.intersect1d, IdSet64.intersection, fimulowen.intersect, fimulowen.intersect_len),
    (operator.or_, np.union1d, IdSet64.union, fimulowen.unite, fimulowen.unite_len),
    (operator.sub, np.setdiff1d, IdSet64.difference, fimulowen.subtract, fimulowen.subtract_len),
    (
        operator.xor,
        np.setxor1d,
        IdSet64.symmetric_difference,
        fimulowen.symmetric_difference,
        fimulowen.symmetric_difference_len,
    ),
]


class Program:
    """A set beside its ids, as an array and as a list."""

    def __init__(self, random):
        self.random = random
        self.ids = drawn(random, KINDS[random.integers(len(KINDS))], COUNTS[random.integers(len(COUNTS))])
        self.known = self.ids.tolist()
        self.packed = IdSet64(self.written(self.known if random.integers(4) else random.permutation(self.ids).tolist() * 2))

    def written(self, values):
        """Integers in a form that a caller has."""
        least, most = min(values, default=0), max(values, default=0)
        inside, small = 0 <= least and most <= MOST, -(2**63) <= least and most < 2**63
        forms = [
            list,
            tuple,
            iter,
            lambda it: np.array(it, object),
            *[lambda it: np.array(it, "u8"), lambda it: np.array(it, ">u8")] * inside,
        ]
        forms += [*[lambda it: np.array(it, "i8"), lambda it: np.repeat(np.array(it, "i8"), 2)[::2]] * small]
        return forms[self.random.integers(len(forms))](values)

    def target(self):
        """A number at an id, beside one, or anywhere."""
        choice = self.random.integers(4)
        if choice < 2 and self.known:
            return self.known[self.random.integers(len(self.known))] + int(self.random.integers(-1, 2))
        if choice == 2:
            return EDGES[self.random.integers(len(EDGES))] + int(self.random.integers(-2, 3))
        return int(self.random.integers(-(2**62), 2**62)) << int(self.random.integers(0, 9))

    def others(self):
        """Ids to combine the set with: other ones, some of its own, or both."""
        ids = drawn(self.random, KINDS[self.random.integers(len(KINDS))], COUNTS[self.random.integers(len(COUNTS))])
        own = self.ids[self.random.random(len(self.ids)) < self.random.choice([0.1, 0.5, 0.95, 1])]
        return [ids, own, np.union1d(ids, own)][self.random.integers(3)]

    def operand(self, ids):
        """A set, or another form that a caller has, in any order."""
        return IdSet64(ids) if self.random.integers(2) else self.written(self.random.permutation(ids).tolist())

    def becomes(self, packed, ids):
        """The set that a call returned takes the place of this one."""
        assert type(packed) is IdSet64 and packed.unpack().tolist() == ids.tolist() and packed.tobytes() == IdSet64(ids).tobytes()
        self.packed, self.ids, self.known = packed, ids, ids.tolist()

    def found(self, target):
        """The position of the first id from a number on, and the id, or 2^64 - 1 if there is none."""
        at = bisect.bisect_left(self.known, target)
        return at, self.known[at] if at < len(self.known) else MOST

    # The calls

    def reads(self):
        packed, known = self.packed, self.known
        assert len(packed) == len(known) == len(list(packed)) and packed.unpack().tolist() == known == list(packed)
        bounds = [None if self.random.integers(2) else int(self.random.integers(-400, 400)) for _ in range(2)]
        step = int(self.random.choice([1, 1, -1, 2, -3, 40, 600, -600]))
        assert packed[bounds[0] : bounds[1] : step].tolist() == known[bounds[0] : bounds[1] : step]

    def gets(self):
        at = int(self.random.integers(-len(self.known) - 2, len(self.known) + 2))
        if -len(self.known) <= at < len(self.known):
            assert self.packed[at] == self.known[at] and self.packed.gather([at, -1]).tolist() == [self.known[at], self.known[-1]]
        else:
            for call in (self.packed.__getitem__, lambda it: self.packed.gather([it])):
                with pytest.raises(IndexError):
                    call(at)

    def searches(self):
        target = self.target()
        at, it = self.found(target)
        assert (target in self.packed) == (it == target and at < len(self.known)) and self.packed.rank(target) == at
        assert self.packed.seek(target) == ((at, it) if at < len(self.known) else None)
        high = self.target()
        assert self.packed.range(target, high).tolist() == self.known[at : max(at, self.found(high)[0])]

    def searches_many(self):
        targets = [self.target() for _ in range(self.random.integers(0, 9))]
        found, there = [self.found(it) for it in targets], set(self.known)
        assert self.packed.rank(self.written(targets)).tolist() == [at for at, _ in found]
        assert [it.tolist() for it in self.packed.seek(self.written(targets))] == [[at for at, _ in found], [it for _, it in found]]
        assert self.packed.contains(self.written(targets)).tolist() == [it in there for it in targets]

    def gathers(self):
        at = self.random.integers(-len(self.known), len(self.known), 9) if self.known else np.empty(0, "i8")
        assert self.packed.gather(self.written(at.tolist())).tolist() == self.ids[at].tolist()

    def unpacks(self):
        out, most = np.full(len(self.known) + 2, 77, "u8" if self.random.integers(2) else "i8"), max(self.known, default=0)
        if most > int(np.iinfo(out.dtype).max):
            with pytest.raises(OverflowError):
                self.packed.unpack(out)
        else:
            assert self.packed.unpack(out).tolist() == self.known and out[-2:].tolist() == [77, 77]
        dtype = ["u4", "i8", ">u8", "f8", "u2", "O"][self.random.integers(6)]
        if dtype in ("f8", "O", ">u8") or most <= int(np.iinfo(dtype).max):
            assert (np.asarray(self.packed, dtype) == self.ids.astype(dtype)).all()
        else:
            with pytest.raises(OverflowError):
                self.packed.unpack(dtype=dtype)

    def shows(self):
        ends = (self.packed.min(), self.packed.max()) if self.known else ()
        assert list(ends) == self.known[:1] + self.known[-1:] and items_of(self.packed, "u8") == (b"L", self.known)
        text = ", ".join(map(str, self.known[:6])) + (", .." if len(self.known) > 6 else "")
        assert repr(self.packed) == f"<IdSet64 of {len(self.known)} ids in {self.packed.nbytes} bytes: [{text}]>"

    def copies(self):
        text, protocol = self.packed.tobytes(), int(self.random.integers(2, 6))
        assert text[0] == form_of(self.ids) and len(text) == self.packed.nbytes <= 33 * len(self.known) / 4 + 22
        again = [copy.copy, lambda it: pickle.loads(pickle.dumps(it, protocol)), lambda it: IdSet64.open(bytearray(it.data)), IdSet64]
        one = again[self.random.integers(len(again))](self.packed)
        assert one == self.packed and hash(one) == hash(self.packed) and one.data == text
        self.packed = IdSet64.open_many(text + text, [0, len(text), 2 * len(text)])[1]

    def differs(self):
        other = set(self.known) ^ {abs(self.target()) % 2**64}
        one = IdSet64(other)
        assert one != self.packed and one.unpack().tolist() == sorted(other) and not one == self.packed
        self.packed, self.known = one, sorted(other)
        self.ids = np.array(self.known, "u8")

    def combines(self):
        call, find, _, to_array, to_count = OPERATIONS[self.random.integers(4)]
        ids = self.others()
        pair = [(self.packed, self.ids), (self.operand(ids), ids)][:: self.random.choice([1, -1])]
        wanted = find(pair[0][1], pair[1][1])
        packed = [it if type(it) is IdSet64 else IdSet64(known) for it, known in pair]
        found = to_array(*packed)
        assert found.dtype == np.uint64 and found.tolist() == wanted.tolist() and to_count(*packed) == len(wanted)
        self.becomes(call(pair[0][0], pair[1][0]), wanted)

    def combines_many(self):
        _, find, method, to_array, to_count = OPERATIONS[self.random.integers(4)]
        others = [self.others() for _ in range(self.random.integers(0, 4))]
        wanted = functools.reduce(find, [self.ids, *others])
        assert to_array(self.packed, *map(self.operand, others)).tolist() == wanted.tolist()
        assert to_count(self.packed, *map(self.operand, others)) == len(wanted)
        self.becomes(method(self.packed, *map(self.operand, others)), wanted)

    def compares(self):
        ids, x = self.others(), set(self.known)
        y, a, b = set(ids.tolist()), self.packed, IdSet64(ids)
        assert (a == b, a <= b, a < b, a >= b, a > b) == (x == y, x <= y, x < y, x >= y, x > y) and (hash(a) == hash(b)) == (x == y)
        other = [self.operand(ids) for _ in range(4)]
        assert a.issubset(other[0]) == (x <= y) and a.issuperset(other[1]) == (x >= y) and a.isdisjoint(other[2]) == x.isdisjoint(y)
        assert a.jaccard(other[3]) == (len(x & y) / len(x | y) if x | y else 1)

    def is_damaged(self):
        bad = damaged(self.random, self.packed.tobytes())
        try:
            one = IdSet64.open(bad)
        except Error as error:
            assert error.byte is not None and error.byte <= len(bad) or error.position is not None, bad.hex()
        else:
            assert IdSet64(one.unpack()).tobytes() == bad

    def narrows(self):
        if self.known and self.known[-1] >= 2**32:
            with pytest.raises(OverflowError, match=f"position {self.found(2**32)[0]}: .*IdSet64"):
                IdSet(self.packed)
        else:
            assert IdSet(self.packed).unpack().tolist() == self.known == IdSet64(IdSet(self.packed)).unpack().tolist()


NO_CALLS = ("__init__", "written", "target", "others", "operand", "becomes", "found")
CALLS = [it for name, it in vars(Program).items() if name not in NO_CALLS and callable(it)]


@pytest.mark.parametrize("part", range(PARTS))
def test_programs(part):
    first = int.from_bytes(os.urandom(4), "little") if PROGRAMS else 0
    for seed in range(first + part, first + int(PROGRAMS or 20_000), PARTS):
        program = Program(np.random.default_rng(seed))
        calls = program.random.integers(0, len(CALLS), 4).tolist()
        try:
            for call in calls:
                CALLS[call](program)
        except BaseException:
            print(f"the program of seed {seed}: {[CALLS[it].__name__ for it in calls]}")
            raise
