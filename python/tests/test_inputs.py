"""What a caller passes, in each form that Python has: the same answer as that of a model for a list, or the same error."""

import array

import fimulowen
import numpy as np
import pytest
from fimulowen import Column, Error, IdSet, IdSet64, Query

D, T = np.datetime64, np.timedelta64
MOST, WIDEST = 2**32 - 1, 2**64 - 1
INTEGERS = ["i1", "u1", "i2", "u2", "i4", "u4", "i8", "u8", ">i2", ">u4", ">i8", ">u8"]
TYPES = [*INTEGERS, "f2", "f4", "f8", "g", "c8", "?", "O", "U20", "S3", "V4", "M8[s]", "m8[s]"]


def objects(values):
    made = np.empty(len(values), object)
    made[:] = values
    return made


def fits(values, dtype):
    """Whether a type has the integers, worked out from the number of its bits."""
    kind, bits = np.dtype(dtype).kind, 8 * np.dtype(dtype).itemsize
    first, last = (0, 2**bits - 1) if kind == "u" else (-(2 ** (bits - 1)), 2 ** (bits - 1) - 1)
    return all(first <= it <= last for it in values)


def forms(values):
    """A list of values in each form."""
    yield from (values, tuple(values), iter(values), (it for it in values), map(lambda it: it, values), objects(values))
    if not values:
        yield from (np.array(values, it) for it in TYPES)
    kinds = set(map(type, values))
    if kinds == {int}:
        for dtype in [it for it in INTEGERS if fits(values, it)]:
            wide = np.zeros(2 * len(values), dtype)
            wide[::2] = values
            frozen = np.array(values, dtype)
            frozen.flags.writeable = False
            yield from (np.array(values, dtype), wide[::2], np.array(values[::-1], dtype)[::-1], frozen)
        yield from (array.array(it, values) for it in "qI" if fits(values, "i8" if it == "q" else "u4"))
        yield from (memoryview(np.array(values, it)) for it in ("i8", "u4") if fits(values, it))
    elif len(kinds) == 1 and kinds.isdisjoint({list, tuple}) and len({getattr(it, "dtype", None) for it in values}) == 1:
        yield np.array(values)


def plain(found):
    """An answer as lists and numbers."""
    if isinstance(found, tuple):
        return [plain(it) for it in found]
    return list(found) if isinstance(found, (IdSet, IdSet64, Column, Query)) else found.tolist() if isinstance(found, np.ndarray) else found


def outcome(call, *given):
    """What a call returns, or the class of its error."""
    try:
        return plain(call(*given))
    except Exception as why:
        return type(why)


def integers(values):
    for it in values:
        if type(it) not in (int, np.int64):
            raise TypeError
    return values


def ids(values, most=MOST):
    """The ids of a list, or the error of a call that needs ids."""
    if any(not 0 <= it <= most for it in integers(values)):
        raise OverflowError
    return set(values)


def grouped(codes):
    """The positions of each of 512 codes."""
    if any(not -1 <= it < 2**9 for it in codes):
        raise IndexError
    return [[at for at, it in enumerate(codes) if it == code] for code in range(2**9)]


def above(values, least):
    """The values if they increase from a number on."""
    ids(values)
    if any(one >= other for one, other in zip([least - 1, *values], values)):
        raise Error("")
    return list(values)


def at(values, known):
    """The items of a list at positions."""
    for it in integers(values):
        if not -len(known) <= it < len(known):
            raise IndexError
    return [known[it] for it in values]


def bounds(values):
    if not integers(values) or values != sorted(values) or values[0] < 0 or values[-1] > 7:
        raise IndexError
    return values


def blocks(values):
    """What is packed of a number of values that is no number of blocks."""
    if ids(values):
        raise Error("")
    return b""


KNOWN = {1, 5, MOST}
SET, SMALL, COLUMN = IdSet(KNOWN), IdSet([0, 4]), Column([7, -7, 2**40])
WIDE_KNOWN = [1, 5, 2**63, WIDEST]
WIDE = IdSet64(WIDE_KNOWN)
BYTES = IdSet([7, 9, 10, 300]).tobytes()
# Each call that takes integers, beside a model.
CALLS = {
    "IdSet": (IdSet, lambda it: sorted(ids(it))),
    "&": (lambda it: SET & it, lambda it: sorted(KNOWN & ids(it))),
    "|": (lambda it: SET | it, lambda it: sorted(KNOWN | ids(it))),
    "-": (lambda it: SET - it, lambda it: sorted(KNOWN - ids(it))),
    "^": (lambda it: SET ^ it, lambda it: sorted(KNOWN ^ ids(it))),
    "& after": (lambda it: it & SET, lambda it: sorted(KNOWN & ids(it))),
    "- after": (lambda it: it - SET, lambda it: sorted(ids(it) - KNOWN)),
    "rank": (SET.rank, lambda it: [sum(known < value for known in KNOWN) for value in integers(it)]),
    "groups": (lambda it: list(map(list, IdSet.groups(it, 2**9))), lambda it: grouped(integers(it))),
    "isdisjoint": (SET.isdisjoint, lambda it: not KNOWN & ids(it)),
    "issubset": (SET.issubset, lambda it: KNOWN <= ids(it)),
    "issuperset": (SET.issuperset, lambda it: KNOWN >= ids(it)),
    "intersect": (lambda it: fimulowen.intersect(SET, it), lambda it: sorted(KNOWN & ids(it))),
    "unite": (lambda it: fimulowen.unite(it, SET), lambda it: sorted(KNOWN | ids(it))),
    "subtract": (lambda it: fimulowen.subtract(it, SET), lambda it: sorted(ids(it) - KNOWN)),
    "symmetric_difference": (lambda it: fimulowen.symmetric_difference(it, SET), lambda it: sorted(KNOWN ^ ids(it))),
    "intersect_len": (lambda it: fimulowen.intersect_len(it, SET), lambda it: len(KNOWN & ids(it))),
    "unite_len": (lambda it: fimulowen.unite_len(it, SET), lambda it: len(KNOWN | ids(it))),
    "subtract_len": (lambda it: fimulowen.subtract_len(it, SET), lambda it: len(ids(it) - KNOWN)),
    "symmetric_difference_len": (lambda it: fimulowen.symmetric_difference_len(it, SET), lambda it: len(KNOWN ^ ids(it))),
    "Query": (Query, lambda it: sorted(ids(it))),
    "Query -": (lambda it: Query(SET) - it, lambda it: sorted(KNOWN - ids(it))),
    "- Query": (lambda it: it - Query(SET), lambda it: sorted(ids(it) - KNOWN)),
    "append": (SMALL.append, lambda it: [0, 4, *above(it, 5)]),
    "pack_many": (lambda it: IdSet.open_many(*IdSet.pack_many(it, [0, 0]))[0], lambda it: sorted(ids(it))[:0]),
    "bounds": (lambda it: len(IdSet.open_many(BYTES, it)), lambda it: len(bounds(it)) - 1),
    "gather": (SET.gather, lambda it: at(it, sorted(KNOWN))),
    "IdSet64": (IdSet64, lambda it: sorted(ids(it, WIDEST))),
    "gather of 64": (WIDE.gather, lambda it: at(it, WIDE_KNOWN)),
    "contains of 64": (WIDE.contains, lambda it: [one in WIDE_KNOWN for one in integers(it)]),
    "rank of 64": (WIDE.rank, lambda it: [sum(known < value for known in WIDE_KNOWN) for value in integers(it)]),
    "seek of 64": (
        lambda it: WIDE.seek(it)[1],
        lambda it: [min([one for one in WIDE_KNOWN if one >= value] or [WIDEST]) for value in integers(it)],
    ),
    "contains": (SET.contains, lambda it: [one in KNOWN for one in integers(it)]),
    "gather of a column": (COLUMN.gather, lambda it: at(it, list(COLUMN))),
    "chain": (lambda it: fimulowen.chain.pack(it)[0], blocks),
}
VALUES = [
    [],
    [5, 3, 3],
    [0],
    [5, 9],
    [0, 7],
    [0, MOST],
    [1, -1],
    [1, 0, 2],
    [1, MOST + 1],
    [WIDEST, 2**63 - 1, 1],
    [WIDEST, -1],
    [WIDEST + 1, 5],
    [-(2**63), 2**63 - 1],
    [2**63, 1],
    [2**63, -1],
    [2**64],
    [-(2**64), 5],
    [1.0, 2.5],
    [3, 2.0],
    [float("nan")],
    [True, False],
    [True, 2],
    [3, np.True_],
    [5] * 2000 + [True],
    [*range(2000), False],
    ["1"],
    [b"1"],
    [3, None],
    [None],
    [[1], [2]],
    [[1], 2],
    [D(5, "s")],
    [T(5, "s")],
    [T(5, "s"), 3],
    [1j],
]


@pytest.mark.parametrize("values", VALUES, ids=lambda it: str(it)[:30])
@pytest.mark.parametrize("name", CALLS)
def test_integers(name, values):
    call, model = CALLS[name]
    wanted = outcome(model, values)
    for form in forms(values):
        assert outcome(call, form) == wanted, type(form)


@pytest.mark.parametrize(
    "number", [0, 1, 2, 5, 6, -1, -3, -4, MOST, MOST + 1, 2**63 - 1, 2**63, -(2**63), WIDEST, 2**64, -(2**64), 10**30]
)
def test_one_number(number):
    """A target, or a position, as an integer of Python and of each type that has it."""
    ids, values = sorted(KNOWN), list(COLUMN)
    later, before = [it for it in ids if it >= number], [it for it in ids if it < number]
    for form in [number, *(np.dtype(it).type(number) for it in INTEGERS if fits([number], it))]:
        assert SET.seek(form) == ((len(before), later[0]) if later else None) and SET.rank(form) == len(before)
        later, before = [it for it in WIDE_KNOWN if it >= number], [it for it in WIDE_KNOWN if it < number]
        assert WIDE.seek(form) == ((len(before), later[0]) if later else None) and WIDE.rank(form) == len(before)
        assert (form in WIDE) == (number in WIDE_KNOWN) and WIDE.range(form, 10**30).tolist() == later
        assert WIDE.range(-(10**30), form).tolist() == before and outcome(lambda: WIDE[form]) == outcome(lambda: WIDE_KNOWN[number])
        later, before = [it for it in ids if it >= number], [it for it in ids if it < number]
        assert (
            (form in SET) == (number in KNOWN)
            and SET.range(form, 10**30).tolist() == later
            and SET.range(-(10**30), form).tolist() == before
        )
        assert Query(SET).seek(form) == (later[0] if later else None) and [it.tolist() for it in Query([5]).parts(form)] == [[5]] * (
            number <= 5
        )
        assert outcome(lambda: SET[form]) == outcome(lambda: ids[number]) and outcome(lambda: COLUMN[form]) == outcome(
            lambda: values[number]
        )


@pytest.mark.parametrize("wrong", [0.5, np.float64(5), "5", b"5", None, [5], D(5, "s"), T(5, "s"), 5j])
def test_no_number(wrong):
    query = Query(SET)
    for call in [
        *([SET.seek, SET.rank, WIDE.seek, WIDE.rank] if not isinstance(wrong, list) else []),
        lambda it: SET.range(it, 9),
        lambda it: SET.count_between(it, 9),
        lambda it: SET.count_between(0, it),
        lambda it: SET.range(0, it),
        SET.__getitem__,
        WIDE.__getitem__,
        COLUMN.__getitem__,
        query.seek,
    ]:
        with pytest.raises(TypeError):
            call(wrong)
    with pytest.raises(TypeError):
        next(query.parts(wrong))
    assert wrong not in SET and wrong not in WIDE


NO_ITERABLES = ["", "12", b"", b"12", bytearray(b"1"), memoryview(b"1"), 5, 1.5, None, True, np.uint32(5), np.array(5)]


@pytest.mark.parametrize("wrong", NO_ITERABLES, ids=repr)
@pytest.mark.parametrize("name", [*CALLS, "Column", "append to a column"])
def test_no_iterable(name, wrong):
    call = CALLS[name][0] if name in CALLS else Column if name == "Column" else COLUMN.append
    if name in ("rank", "rank of 64", "seek of 64") and hasattr(wrong, "__index__"):
        return  # it searches for one number too
    with pytest.raises(TypeError):
        call(wrong)
