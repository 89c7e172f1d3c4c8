/* Changes of whole ranges: all numbers from one to another are added, removed or turned over, and all ids are moved. */
#include "idset.h"

/* The most ids of a set, and of how many such sets all ids are. */
enum { MOST_IDS = 268435456, PARTS = 16 };

/* The set of the ids from one to before another, which are at most MOST_IDS. */
static bitpacking_set range_of(int64 first, int64 end)
{
    bitpacking_set set = BITPACKING_SET_EMPTY;
    ptrdiff_t size = bitpacking_set_range_size((uint32)first, (uint64)end);
    uint8_t *bytes;

    if (size < 0)
        refuse(size);
    bytes = palloc((size_t)size);
    bitpacking_set_pack_range((uint32)first, (uint64)end, bytes, (size_t)size);
    bitpacking_set_open_tested(bytes, (size_t)size, &set);
    return set;
}

/* The set of the first argument, combined with the numbers from the second to the third, both included. Without a number it is as it was. */
static Datum changed(FunctionCallInfo fcinfo, uint32 operation)
{
    bitpacking_set sets[1 + PARTS] = {opened_argument(fcinfo, 0)};
    int64 low = PG_GETARG_INT64(1), high = PG_GETARG_INT64(2), end;
    size_t count = 1;

    if (operation == BITPACKING_AND_NOT) {
        low = Max(low, 0);
        high = Min(high, UINT32_MAX);
    }
    if (low > high)
        PG_RETURN_DATUM(PG_GETARG_DATUM(0));
    low = as_id(low);
    end = (int64)as_id(high) + 1;
    for (; low < end; low += MOST_IDS)
        sets[count++] = range_of(low, Min(end, low + MOST_IDS));
    return combined(operation, sets, count);
}

PG_FUNCTION_INFO_V1(idset_fill);
Datum idset_fill(PG_FUNCTION_ARGS) { return changed(fcinfo, BITPACKING_OR); }

PG_FUNCTION_INFO_V1(idset_clear);
Datum idset_clear(PG_FUNCTION_ARGS) { return changed(fcinfo, BITPACKING_AND_NOT); }

PG_FUNCTION_INFO_V1(idset_flip);
Datum idset_flip(PG_FUNCTION_ARGS) { return changed(fcinfo, BITPACKING_XOR); }

/* Requires that each id stays one after a number is added: the error names the first that does not. */
static void test_shift(const bitpacking_set *set, int64 by)
{
    size_t position = 0;
    uint32 id = 0;

    if (by < -(int64)UINT32_MAX || by > UINT32_MAX)
        as_id(by);
    if (by < 0 ? bitpacking_set_get(set, 0, &id) == 1 : by > 0 && bitpacking_set_seek(set, (uint32)(UINT32_MAX - by + 1), &position, &id) == 1)
        as_id(id + by);
}

/* The set with a number added to each id. */
PG_FUNCTION_INFO_V1(idset_shift);
Datum idset_shift(PG_FUNCTION_ARGS)
{
    bitpacking_set set = opened_argument(fcinfo, 0);
    int64 by = PG_GETARG_INT64(1);
    size_t items = bitpacking_set_shift_room(&set), room = set.bytes_len / 4 * 5 + 16;
    uint32 *work = new_ids(items);
    struct varlena *value = NULL;
    ptrdiff_t size = BITPACKING_SHORT;

    if (bitpacking_set_len(&set) > 0)
        test_shift(&set, by);
    for (; size == BITPACKING_SHORT; room *= 2) {
        if (value)
            pfree(value);
        value = palloc_extended(VARHDRSZ + room, MCXT_ALLOC_HUGE);
        size = bitpacking_set_shift(&set, by, work, items, (uint8_t *)VARDATA(value), room);
    }
    PG_RETURN_POINTER(ended(value, (size_t)size));
}
