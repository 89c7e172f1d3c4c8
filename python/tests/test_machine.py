"""Random programs over the whole package, beside the sets, lists and integers of Python. They are the same ones each time; with the variable
FIMULOWEN_PROGRAMS as many others, and the shortest one that fails is looked for."""

import copy
import ctypes
import operator
import os
import pickle

import numpy as np
from fimulowen import Column, IdSet, Query, combining
from hypothesis import HealthCheck, Phase, settings
from hypothesis import strategies as st
from hypothesis.stateful import Bundle, RuleBasedStateMachine, rule

from test_arrow import structs
from test_column_inputs import as_type
from test_inputs import CALLS, INTEGERS, fits, forms, outcome
from test_limits import MONTHS, SIZES, UNITS, D, T, amount

MOST, GAP = 2**32 - 1, -(2**63)
PROGRAMS = os.environ.get("FIMULOWEN_PROGRAMS")
OPERATORS = [operator.and_, operator.or_, operator.sub, operator.xor]


@st.composite
def ranges(draw, first, last, most=400):
    """Integers of a few ranges, close together or far apart."""
    found = []
    for _ in range(draw(st.integers(0, 3))):
        start = draw(st.one_of(st.integers(first, last), st.sampled_from([first, last - 9, max(first, 0), 65_500])))
        step = draw(st.sampled_from([1, 1, 2, 100, 70_000, (last - first) // 300]))
        found += [it for it in range(start, start + step * draw(st.integers(1, most)), step) if it <= last]
    return found


IDS = ranges(0, MOST)
ANYTHING = st.one_of(
    st.integers(-3, 70_000),
    st.sampled_from([MOST, MOST + 1, 2**63 - 1, 2**63, 2**64 - 1, 2**64, GAP, GAP - 1, 10**30]),
    st.sampled_from([None, True, np.False_, 0.5, 2.0, "1", b"1", 1j, [1], (), D("2020"), D(5, "ns"), D("NaT"), T(5, "s"), T(1, "Y")]),
)
SLICES = st.builds(
    slice, *[st.none() | st.integers(-500, 500)] * 2, st.none() | st.integers(-40, 40).filter(bool) | st.sampled_from([600, -600])
)
FORMS = [
    list,
    tuple,
    iter,
    lambda it: (one for one in it),
    lambda it: np.array(it, "u4"),
    lambda it: np.array(it, object),
    set,
    IdSet,
    Query,
]


def copied(it, protocol):
    """A copy by pickle, which shares the memory of the bytes if it may."""
    buffers = []
    text = pickle.dumps(it, protocol, buffer_callback=buffers.append if protocol == 5 else None)
    again = pickle.loads(text, buffers=buffers)
    if protocol == 5 and not isinstance(it, Query):
        assert len(buffers) == 1 and len(text) < 300 and np.shares_memory(*(np.frombuffer(one.data, "u1") for one in (it, again)))
    return again


def items_of(holder, type):
    """What a consumer of Arrow reads: the format, and the numbers, and None for those that are not there."""
    capsules = holder.__arrow_c_array__()  # they hold the memory
    schema, array = structs(capsules)
    numbers = np.frombuffer(ctypes.string_at(array.buffers[1], array.length * np.dtype(type).itemsize), type).tolist()
    there = ctypes.string_at(array.buffers[0], (array.length + 7) // 8) if array.buffers[0] else None
    assert array.null_count == (0 if there is None else sum(not there[at // 8] >> at % 8 & 1 for at in range(array.length)))
    return schema.format, [it if there is None or there[at // 8] >> at % 8 & 1 else None for at, it in enumerate(numbers)]


class Programs(RuleBasedStateMachine):
    """A set or a query is beside a set of Python, a query also beside its number of calls and a number above its ids. A column is beside its
    numbers, with None for missing ones, and its type."""

    sets, queries, columns = Bundle("sets"), Bundle("queries"), Bundle("columns")

    def __init__(self):
        super().__init__()
        self.calls, self.most, self.combined = 0, 0, combining.combined  # how often this is called, and may be
        combining.combined = self.counted

    def teardown(self):
        combining.combined = self.combined

    def counted(self, *given):
        self.calls += 1
        assert self.calls <= self.most, "a query does more work than its parts need"
        return self.combined(*given)

    def found(self, one, call):
        """What a query answers. Its parts grow while they have few ids."""
        query, known, joins, end = one
        self.calls, self.most = 0, joins * (8 + (end >> 24) + len(known) // 1024)
        return call(query)

    # Sets

    @rule(target=sets, values=IDS)
    def pack(self, values):
        found = [IdSet(form) for form in forms(values)]
        assert all(it == found[0] for it in found) and found[0].unpack().tolist() == sorted(set(values))
        return found[0], set(values)

    @rule(values=st.lists(ANYTHING, max_size=4), name=st.sampled_from([*CALLS]))
    def anything(self, values, name):
        """Each form of any values is answered alike."""
        self.calls, self.most = 0, 10**6
        for call in (CALLS[name][0], lambda it: list(Column(it)), lambda it: list(Column([7, None]).append(it))):
            found = [outcome(call, form) for form in forms(values)]
            assert all(it == found[0] for it in found), found

    @rule(target=sets, call=st.sampled_from(OPERATORS), one=sets, other=sets, form=st.sampled_from(FORMS[:-1]), swap=st.booleans())
    def combine(self, call, one, other, form, swap):
        given, known = form(sorted(other[1])), (other[1], one[1]) if swap else (one[1], other[1])
        found = call(given, one[0]) if swap else call(one[0], given)
        assert type(found) is IdSet and found.unpack().tolist() == sorted(call(*known))
        return found, call(*known)

    @rule(target=sets, one=sets, values=IDS)
    def append(self, one, values):
        last = max(one[1], default=-1)
        more = sorted({it for it in values if it > last})
        found = [one[0].append(form) for form in forms(more)]
        assert all(it == found[0] for it in found) and found[0].unpack().tolist() == sorted(one[1]) + more
        return found[0], one[1] | set(more)

    @rule(one=sets, key=SLICES, near=st.integers(-5, MOST + 5), dtype=st.sampled_from([*INTEGERS, "f2", "f8"]), data=st.data())
    def read(self, one, key, near, dtype, data):
        packed, ids = one[0], sorted(one[1])
        target = data.draw(st.sampled_from([near, *ids[:3], *ids[-3:]]))
        assert packed[key].tolist() == ids[key] and len(packed) == len(ids) and list(packed) == ids
        rank = sum(it < target for it in ids)
        assert packed.rank(target) == rank and packed.seek(target) == ((rank, ids[rank]) if rank < len(ids) else None)
        assert (target in packed) == (target in one[1]) and packed.range(target, target + 70_000).tolist() == [
            it for it in ids if target <= it < target + 70_000
        ]
        assert outcome(lambda: packed.unpack(dtype=dtype)) == outcome(as_type, ids, dtype) == outcome(lambda: np.asarray(packed, dtype))
        assert items_of(packed, "u4") == (b"I", ids)
        at = data.draw(st.lists(st.integers(-len(ids), len(ids) - 1), max_size=5)) if ids else []
        for form in forms(at):
            assert packed.gather(form).tolist() == [ids[it] for it in at] == [packed[it] for it in at]

    @rule(one=sets, other=sets)
    def compare(self, one, other):
        (a, x), (b, y) = one, other
        assert (a == b, a <= b, a < b, a >= b, a > b) == (x == y, x <= y, x < y, x >= y, x > y) and (hash(a) == hash(b)) == (x == y)
        assert (a.isdisjoint(b), a.issubset(b), a.issuperset(b)) == (x.isdisjoint(y), x <= y, x >= y)
        assert [combining.intersect_len(a, b), combining.unite_len(a, b)] == [len(x & y), len(x | y)]
        data, bounds = IdSet.pack_many(sorted(x) + sorted(y), [0, len(x), len(x) + len(y)])
        assert IdSet.open_many(data, iter(bounds.tolist())) == [a, b]

    @rule(target=sets, one=sets, protocol=st.integers(2, 5))
    def copy_set(self, one, protocol):
        again = copied(one[0], protocol)
        assert again == one[0] == copy.copy(one[0]) == IdSet.open(bytearray(one[0].data)) and again.tobytes() == one[0].tobytes()
        return again, one[1]

    # Queries

    @rule(target=queries, one=sets)
    def ask(self, one):
        return Query(one[0]), one[1], 1, max(one[1], default=-1) + 1

    @rule(
        target=queries,
        call=st.sampled_from(OPERATORS),
        one=queries,
        other=st.one_of(sets, queries),
        form=st.sampled_from(FORMS),
        swap=st.booleans(),
    )
    def join(self, call, one, other, form, swap):
        given = other[0] if type(other[0]) is Query else form(sorted(other[1]))
        first, last = ((given, other[1]), one[:2]) if swap else (one[:2], (given, other[1]))
        query, joins = call(first[0], last[0]), one[2] + (other[2] if len(other) > 2 else 1)
        end = max(one[3], other[3] if len(other) > 2 else max(other[1], default=-1) + 1)
        assert type(query) is Query and repr(query).startswith("<Query of ")
        return query, call(first[1], last[1]), joins, end

    @rule(one=queries, start=st.integers(-5, MOST + 5), data=st.data())
    def answer(self, one, start, data):
        ids = sorted(one[1])
        start = data.draw(st.sampled_from([start, *ids[:2], *ids[-2:]]))
        later = [it for it in ids if it >= start]
        assert self.found(one, lambda it: np.concatenate([[0], *it.parts(start)])[1:].tolist()) == later
        assert self.found(one, lambda it: it.seek(start)) == (later[0] if later else None) and self.found(one, bool) == bool(ids)
        assert self.found(one, lambda it: it.unpack().tolist()) == ids and self.found(one, len) == len(ids)

    @rule(target=queries, one=queries, protocol=st.integers(2, 5))
    def copy_query(self, one, protocol):
        again = copied(one[0], protocol), *one[1:]
        assert repr(again[0]) == repr(one[0]) == repr(copy.deepcopy(one[0])) and self.found(again, len) == len(one[1])
        return again

    # Columns

    def known(self, column, numbers, dtype):
        """Adds a column, after a look at all of its values."""
        is_time = dtype.kind in "mM"
        found = column.unpack(fill=None if is_time else 7).view("u8" if dtype.kind == "u" else "i8")
        assert column.dtype == dtype and found.tolist() == [(GAP if is_time else 7) if it is None else it for it in numbers]
        there = [it for it in numbers if it is not None]
        assert column.missing.unpack().tolist() == [at for at, it in enumerate(numbers) if it is None]
        assert column.kind == ("sorted" if there == sorted(there) else "plain")
        return column, numbers, dtype

    @rule(
        target=columns,
        data=st.data(),
        dtype=st.sampled_from(["i8", "u8", "M8", "m8"]),
        unit=st.sampled_from(UNITS),
        repeat=st.sampled_from([1, 1, 1, 400]),
    )
    def pack_column(self, data, dtype, unit, repeat):
        dtype = np.dtype(dtype if dtype in ("i8", "u8") else f"{dtype}[{unit}]")
        numbers, gone = data.draw(ranges(0, 2**64 - 1) if dtype == "u8" else ranges(GAP + 1, 2**63 - 1)), data.draw(
            st.sets(st.integers(0, 40))
        )
        numbers = [None if at in gone else it for at, it in enumerate(numbers)]
        missing = [it is None for it in numbers]
        array = np.array([it or 0 for it in numbers], "u8" if dtype == "u8" else "i8").view(dtype)
        values = [None if it is None else one for it, one in zip(numbers, array)] if dtype.kind in "mM" else numbers
        found = [Column(array, form) for form in forms(missing)]
        if dtype != "u8" and any(it is not None for it in numbers):
            found += [
                Column(it) for it in forms(values) if not isinstance(it, memoryview) and getattr(it, "dtype", "") not in ("u8", ">u8")
            ]
        assert all(it == found[0] and hash(it) == hash(found[0]) for it in found)
        return self.known(Column(np.tile(array, repeat), missing * repeat), numbers * repeat, dtype)

    @rule(target=columns, one=columns, other=columns)
    def append_column(self, one, other):
        (column, numbers, own), (more, others, dtype) = one, other
        there, values = [it for it in others if it is not None], list(more)
        is_right = own == dtype or not there or {own.kind, dtype.kind} == {"i", "u"} and fits(there, own)
        error = OverflowError if {own.kind, dtype.kind} == {"i", "u"} else TypeError
        for given in (more, values, iter(values)):
            assert (outcome(lambda: bool(column.append(given))) == error) != is_right
        return self.known(column.append(iter(values)), numbers + others, own) if is_right else one

    @rule(one=columns, key=SLICES, data=st.data(), dtype=st.sampled_from([*INTEGERS, "f8"]))
    def read_column(self, one, key, data, dtype):
        column, numbers, own = one
        is_time, fill = own.kind in "mM", data.draw(st.integers(0, 2**63 - 1) | st.sampled_from([5, 300]))
        value = np.array(fill, "i8").view(own)[()] if is_time else fill
        part = column[key]
        gone = np.isnat(part) if is_time else np.ma.getmaskarray(part)
        stored = np.asarray(part).view("u8" if own.kind == "u" else "i8")
        assert [None if absent else it for absent, it in zip(gone.tolist(), stored.tolist())] == numbers[key]
        filled = [fill if it is None else it for it in numbers]
        shown = filled + [fill]
        assert outcome(lambda: column.unpack(dtype=dtype, fill=value)) == (
            outcome(as_type, filled, dtype) if outcome(as_type, shown, dtype) is not OverflowError else OverflowError
        )
        at = data.draw(st.lists(st.integers(-len(numbers), len(numbers) - 1), max_size=5)) if numbers else []
        for form in forms(at):
            assert column.gather(form, value).view(stored.dtype).tolist() == [filled[it] for it in at]
        assert [column[it] is None for it in at] == [numbers[it] is None for it in at]
        there = [it for it in numbers if it is not None]
        assert outcome(lambda: int(np.array([column.min(), column.max()], own).view(stored.dtype)[0])) == (
            min(there) if there else ValueError
        )
        if own.kind in "iu" or np.datetime_data(own)[0] in ("s", "ms", "us", "ns"):
            assert items_of(column, stored.dtype)[1] == numbers

    @rule(target=sets, one=columns, data=st.data())
    def search(self, one, data):
        """Limits of any unit, and beyond what 64 bits say."""
        column, numbers, own = one
        sizes, unit = {it: amount(D if own.kind == "M" else T, 1, it) for it in UNITS}, np.datetime_data(own)[
            0
        ] if own.kind in "mM" else None
        kind, limits, near = D if own.kind == "M" else T, [], [it for it in numbers if it is not None][:50] or [0]
        amounts = numbers if unit is None else [None if it is None else amount(kind, it, unit) for it in numbers]
        for _ in range(2):
            number = data.draw(st.sampled_from(near)) + data.draw(st.integers(-2, 2))
            if unit is None:
                limits.append((data.draw(st.sampled_from([number, number, 2**64, -(2**70), 2**63])),) * 2)
                continue
            other = data.draw(st.sampled_from([it for it in UNITS if own.kind == "M" or (it in MONTHS) == (unit in MONTHS)]))
            close = amount(kind, number, unit) // (
                (SIZES | MONTHS)[other] if own.kind == "m" or other in SIZES else sizes["D"] * 31 * MONTHS[other]
            )
            number = data.draw(st.sampled_from([close, close, 2**63 - 1, GAP + 1, 0]))
            number = max(GAP + 1, min(2**63 - 1, number))
            limits.append((kind(number, other), amount(kind, number, other)))
        (low, least), (high, greatest) = limits
        wanted = [at for at, it in enumerate(amounts) if it is not None and least <= it <= greatest]
        found = column.between_ids(low, high)
        assert column.between(low, high).tolist() == wanted == list(found) and column.count_between(low, high) == len(wanted)
        if column.kind == "sorted":
            first = next((at for at, it in enumerate(amounts) if it is not None and it >= least), None)
            assert column.seek(low) == (None if first is None else (first, column[first]))
        return found, set(wanted)

    @rule(one=columns, other=columns)
    def compare_columns(self, one, other):
        is_same = (one[1], one[2]) == (other[1], other[2])
        assert (one[0] == other[0]) == is_same == (hash(one[0]) == hash(other[0])) and one[0] != one[1]

    @rule(target=columns, one=columns, protocol=st.integers(2, 5))
    def copy_column(self, one, protocol):
        again = copied(one[0], protocol)
        assert again == one[0] == copy.copy(one[0]) == Column.open(bytearray(one[0].data)) and repr(again) == repr(one[0])
        return again, *one[1:]


Programs.TestCase.settings = settings(
    max_examples=int(PROGRAMS or 40),
    stateful_step_count=40,
    derandomize=not PROGRAMS,
    phases=[Phase.generate, *([Phase.shrink] if PROGRAMS else [])],
    suppress_health_check=list(HealthCheck),
)
TestPrograms = Programs.TestCase
