/* What two sets have together: AND, OR, NOT and XOR as sets and as counts, and whether one is within the other. */
#include "idset.h"

/* More bytes than a chunk of a set has. */
enum { CHUNK = 8500 };

/* The sets of the two arguments. */
typedef struct {
    set_view sets[2];
    size_t len[2];
} two_sets;

static two_sets both(set_view one, set_view other)
{
    return (two_sets){{one, other}, {CALL(len)(&one), CALL(len)(&other)}};
}

static two_sets opened_two(FunctionCallInfo fcinfo)
{
    set_view one = opened_argument(fcinfo, 0);

    return both(one, opened_argument(fcinfo, 1));
}

/* Puts the set that an operation on sets gives at a new value, and returns its number of bytes, or an error of the library. Room for the bytes of
 * all sets, and of a chunk more, is usually enough. It doubles until it is. */
ptrdiff_t combine(uint32 operation, const set_view *sets, size_t count, struct varlena **value)
{
    size_t items = work_items(operation, sets, count), room = CHUNK, i;
    void *work = palloc_extended(WORK_ITEM * (items ? items : 1), MCXT_ALLOC_HUGE);
    ptrdiff_t size;

    for (i = 0; i < count; i++)
        room += sets[i].bytes_len;
    *value = palloc_extended(VARHDRSZ + room, MCXT_ALLOC_HUGE);
    while ((size = combine_into(operation, sets, count, work, items, (uint8_t *)VARDATA(*value), room)) == BITPACKING_SHORT) {
        room *= 2;
        pfree(*value);
        *value = palloc_extended(VARHDRSZ + room, MCXT_ALLOC_HUGE);
    }
    pfree(work);
    return size;
}

/* The set that an operation on sets gives. */
Datum combined(uint32 operation, const set_view *sets, size_t count)
{
    struct varlena *value;
    ptrdiff_t size = combine(operation, sets, count, &value);

    if (size < 0)
        refuse(size);
    PG_RETURN_POINTER(ended(value, (size_t)size));
}

/* How many ids both sets have. */
static size_t common(const two_sets *it)
{
    ptrdiff_t count = count_common(it->sets);

    if (count < 0)
        refuse(count);
    return (size_t)count;
}

/* A function of two sets, `it`, by what it returns. */
#define OF_TWO(name, result)                                                                                                           \
    FUNCTION(name)                                                                                                                     \
    {                                                                                                                                  \
        two_sets it = opened_two(fcinfo);                                                                                              \
                                                                                                                                       \
        return result;                                                                                                                 \
    }

OF_TWO(intersect, combined(BITPACKING_AND, it.sets, 2))
OF_TWO(unite, combined(BITPACKING_OR, it.sets, 2))
OF_TWO(subtract, combined(BITPACKING_AND_NOT, it.sets, 2))
OF_TWO(symmetric_difference, combined(BITPACKING_XOR, it.sets, 2))
OF_TWO(intersect_len, Int64GetDatum((int64)common(&it)))
OF_TWO(unite_len, Int64GetDatum((int64)(it.len[0] + it.len[1] - common(&it))))
OF_TWO(subtract_len, Int64GetDatum((int64)(it.len[0] - common(&it))))
OF_TWO(symmetric_difference_len, Int64GetDatum((int64)(it.len[0] + it.len[1] - 2 * common(&it))))
OF_TWO(overlaps, BoolGetDatum(CALL(is_disjoint)(&it.sets[0], &it.sets[1]) == 0))
OF_TWO(contains_all, BoolGetDatum(CALL(is_subset)(&it.sets[1], &it.sets[0]) == 1))
OF_TWO(contained, BoolGetDatum(CALL(is_subset)(&it.sets[0], &it.sets[1]) == 1))

/* How many ids both have, of those that any has; 1 for two empty sets, which are equal. */
static float8 jaccard(const two_sets *it)
{
    size_t shared = common(it), any = it->len[0] + it->len[1] - shared;

    return any ? (float8)shared / (float8)any : 1.0;
}

OF_TWO(jaccard, Float8GetDatum(jaccard(&it)))

/* A set of one id, over bytes of the caller. */
static set_view set_of(set_id id, uint8_t bytes[ROOM(1)])
{
    set_view set = NO_IDS;
    ptrdiff_t size = pack(&id, 1, bytes, ROOM(1));

    CALL(open_tested)(bytes, (size_t)size, &set);
    return set;
}

FUNCTION(add)
{
    uint8_t bytes[ROOM(1)];
    two_sets it = both(opened_argument(fcinfo, 0), set_of(as_id(PG_GETARG_INT64(1)), bytes));

    return combined(BITPACKING_OR, it.sets, 2);
}

/* The set without a number. No set has a number that is out of range. */
FUNCTION(remove)
{
    set_view set = opened_argument(fcinfo, 0);
    int64 number = PG_GETARG_INT64(1);
    uint8_t bytes[ROOM(1)];
    two_sets it;

    if (number < 0 || number > MOST_NUMBER)
        PG_RETURN_DATUM(PG_GETARG_DATUM(0));
    it = both(set, set_of((set_id)number, bytes));
    return combined(BITPACKING_AND_NOT, it.sets, 2);
}
