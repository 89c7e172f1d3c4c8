/* The type idset8: the files that it shares with idset, for ids of 64 bits, and the calls of the library for wide sets. */
#define WIDE
#include "aggregates.c"
#include "arrays.c"
#include "bytes.c"
#include "order.c"
#include "reading.c"
#include "sets.c"
#include "text.c"
#include "values.c"

/* Room for numbers of 32 bits, which may take more than PostgreSQL's usual limit. */
static uint32 *new_space(size_t len) { return palloc_extended(sizeof(uint32) * (len ? len : 1), MCXT_ALLOC_HUGE); }

static ptrdiff_t pack(const uint64_t *ids, size_t len, uint8_t *bytes, size_t room)
{
    uint32 *space = new_space(len);
    ptrdiff_t size = bitpacking_wide_set_pack(ids, len, bytes, room, space, len, NULL);

    pfree(space);
    return size;
}

/* The most ids that a combination of two sets has. */
static size_t work_items(uint32 operation, const bitpacking_wide_set *sets, size_t count)
{
    size_t one = bitpacking_wide_set_len(sets), other = bitpacking_wide_set_len(sets + 1);

    return operation == BITPACKING_AND ? Min(one, other) : operation == BITPACKING_AND_NOT ? one : one + other;
}

static ptrdiff_t combine_into(uint32 operation, const bitpacking_wide_set *sets, size_t count, void *work, size_t items, uint8_t *bytes, size_t room)
{
    uint64_t *ids = work;

    return bitpacking_wide_set_combine(operation, sets, sets + 1, ids, items, (uint32 *)(ids + items), items, bytes, room);
}

/* Combines some sets into one. Returns the value that has its bytes, or NULL for a single set; *size is below 0 for an error of the library. */
static struct varlena *half_of(uint32 operation, const bitpacking_wide_set *sets, size_t count, bitpacking_wide_set *half, ptrdiff_t *size)
{
    struct varlena *value = NULL;

    *half = sets[0];
    if (count > 1)
        *size = combine_many(operation, sets, count, &value);
    if (value && *size >= 0)
        bitpacking_wide_set_open_tested((const uint8_t *)VARDATA(value), (size_t)*size, half);
    return value;
}

/* Combines two halves of the sets, each of which is combined so before: as many steps as a number of this size has bits. No order of the sets may
 * count, as none does for AND, OR and XOR. */
static ptrdiff_t combine_many(uint32 operation, const bitpacking_wide_set *sets, size_t count, struct varlena **value)
{
    bitpacking_wide_set halves[2];
    ptrdiff_t sizes[2] = {0, 0};
    struct varlena *first = half_of(operation, sets, count / 2, &halves[0], &sizes[0]);
    struct varlena *second = half_of(operation, sets + count / 2, count - count / 2, &halves[1], &sizes[1]);
    ptrdiff_t size = Min(Min(sizes[0], sizes[1]), 0);

    CHECK_FOR_INTERRUPTS();
    if (size == 0)
        size = combine(operation, halves, 2, value);
    else
        *value = palloc(VARHDRSZ);
    if (first)
        pfree(first);
    if (second)
        pfree(second);
    return size;
}

static ptrdiff_t count_common(const bitpacking_wide_set *sets)
{
    return bitpacking_wide_set_combine_count(BITPACKING_AND, sets, sets + 1);
}

/* The library counts the ids of no more than two sets. */
static ptrdiff_t count_any(const bitpacking_wide_set *sets, size_t count) { return BITPACKING_TOO_LONG; }

static size_t count_between(const bitpacking_wide_set *set, uint64_t low, uint64_t high)
{
    return bitpacking_wide_set_rank(set, high + 1) - bitpacking_wide_set_rank(set, low);
}

/* The form of sets whose ids have many high words. */
static bool is_sparse(const bitpacking_wide_set *set) { return set->bytes[0] == 9; }

FUNCTION(to_int8)
{
    bitpacking_wide_set set = opened(PG_GETARG_VARLENA_PP(0));
    size_t len = bitpacking_wide_set_len(&set), position;
    uint64_t beyond;
    ArrayType *array;

    if (bitpacking_wide_set_seek(&set, (uint64_t)INT64_MAX + 1, &position, &beyond) == 1)
        as_number(beyond);
    array = new_array(INT8OID, sizeof(int64), len);
    bitpacking_wide_set_unpack(&set, (uint64_t *)ARR_DATA_PTR(array), len);
    PG_RETURN_ARRAYTYPE_P(array);
}
