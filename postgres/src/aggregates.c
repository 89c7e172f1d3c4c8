/* Aggregates: numbers to a set, and the OR, the AND and the XOR of many sets. Parts of the rows may be aggregated by other processes. Nulls
 * are left out. Without a row that is not null the answer is null. */
#include "idset.h"

#include "miscadmin.h"
#include "utils/memutils.h"

/* The room for numbers and for sets at first. MANY_SETS that wait are combined, on LEVELS levels, and so are sets of more than MANY_BYTES: AND_BYTES
 * for an AND, whose set is short. Numbers are packed in sets of PART at most. */
enum { FIRST_NUMBERS = 64, FIRST_SETS = 4, MANY_SETS = 256, LEVELS = 4, PART = 1 << 28 };
enum { MANY_BYTES = 1 << 18, AND_BYTES = 1 << 14 };

/* What was collected of the rows: numbers in any order, and sets over copies of their bytes. The answer is what the operation gives of them. An OR
 * and a XOR have no other order, so that sets are combined level by level: each set at a level comes from MANY_SETS of the level below. The
 * sets have `bytes` bytes in all, and had `before` when all were last combined. */
typedef struct {
    uint32 operation;
    set_id *numbers;
    size_t len, room;
    set_view *sets;
    size_t count, sets_room, bytes, before, at_level[LEVELS];
} collected;

static MemoryContext context_of(FunctionCallInfo fcinfo)
{
    MemoryContext context;

    if (!AggCheckCallContext(fcinfo, &context))
        elog(ERROR, TYPE_NAME ": an aggregate's function was called alone");
    return context;
}

static collected *new_collected(MemoryContext context)
{
    collected *it = MemoryContextAllocZero(context, sizeof *it);

    it->operation = BITPACKING_OR;
    return it;
}

/* The state before this row, or a new one. */
static collected *state_of(FunctionCallInfo fcinfo)
{
    MemoryContext context = context_of(fcinfo);

    return PG_ARGISNULL(0) ? new_collected(context) : (collected *)PG_GETARG_POINTER(0);
}

/* The state before this row, which is left out. */
static Datum unchanged(FunctionCallInfo fcinfo)
{
    if (PG_ARGISNULL(0))
        PG_RETURN_NULL();
    PG_RETURN_DATUM(PG_GETARG_DATUM(0));
}

/* An array in the memory of the state with room for more items. */
static void *grown(collected *it, void *items, size_t size)
{
    return items ? repalloc_huge(items, size) : MemoryContextAllocHuge(GetMemoryChunkContext(it), size);
}

/* Makes a set of the numbers: of a XOR, those that came an odd number of times. */
static void settle(collected *it) { it->len = (it->operation == BITPACKING_XOR ? kept_odd : made_set)(it->numbers, it->len); }

/* Makes room for more numbers: first by leaving each once, then by doubling, so that the time for all is n log n. */
static void make_room(collected *it, size_t more)
{
    if (it->room - it->len >= more)
        return;
    settle(it);
    if (it->len + more <= it->room / 2)
        return;
    it->room = Max(2 * (it->len + more), FIRST_NUMBERS);
    it->numbers = grown(it, it->numbers, sizeof(set_id) * it->room);
}

/* Puts a set over a copy of its bytes after the others. */
static void push(collected *it, const uint8_t *bytes, size_t size)
{
    uint8_t *copy = MemoryContextAllocHuge(GetMemoryChunkContext(it), size);
    set_view set = NO_IDS;

    if (it->count == it->sets_room) {
        it->sets_room = Max(2 * it->count, FIRST_SETS);
        it->sets = grown(it, it->sets, sizeof *it->sets * it->sets_room);
    }
    CALL(open_tested)(memcpy(copy, bytes, size), size, &set);
    it->sets[it->count++] = set;
    it->bytes += size;
}

/* Combines the last sets into one. If it would have too many ids they stay: a XOR may have fewer at the end. */
static void combine_last(collected *it, size_t count)
{
    set_view *last = it->sets + it->count - count;
    struct varlena *value;
    ptrdiff_t size;
    size_t i;

    CHECK_FOR_INTERRUPTS();
    if (count < 2)
        return;
    size = combine_many(it->operation, last, count, &value);
    for (i = 0; size >= 0 && i < count; i++) {
        it->bytes -= last[i].bytes_len;
        pfree((void *)last[i].bytes);
        it->count--;
    }
    if (size >= 0)
        push(it, (const uint8_t *)VARDATA(value), (size_t)size);
    pfree(value);
}

/* Combines all sets into one, if there is one. */
static void combine_all(collected *it)
{
    combine_last(it, it->count);
    memset(it->at_level, 0, sizeof it->at_level);
    it->before = it->bytes;
}

/* Takes a set. Ids that are not in chunks are fewer than four of a chunk, and are sorted faster than sets are combined. */
static void take(collected *it, const set_view *set)
{
    size_t len = CALL(len)(set), level;
    bool is_and = it->operation == BITPACKING_AND;

    if (is_and && it->count == 1 && CALL(len)(it->sets) == 0)
        return;
    if (!is_and && is_sparse(set)) {
        make_room(it, len);
        it->len += (size_t)CALL(unpack)(set, it->numbers + it->len, len);
        return;
    }
    push(it, set->bytes, set->bytes_len);
    for (level = 0; level < LEVELS && ++it->at_level[level] == MANY_SETS; level++) {
        combine_last(it, MANY_SETS);
        it->at_level[level] = 0;
    }
    if (it->bytes > (is_and ? AND_BYTES : MANY_BYTES) && it->bytes > 2 * it->before)
        combine_all(it);
}

/* Puts the numbers after the sets, in parts that a set may have: a set without ids, if nothing is left. */
static void push_numbers(collected *it)
{
    size_t from = 0, len, room;
    uint8_t *bytes;
    ptrdiff_t size;

    settle(it);
    if (it->len == 0 && it->count > 0)
        return;
    do {
        len = Min(it->len - from, PART);
        room = ROOM(len);
        bytes = palloc_extended(room, MCXT_ALLOC_HUGE);
        size = pack(it->numbers + from, len, bytes, room);
        if (size < 0)
            refuse(size);
        push(it, bytes, (size_t)size);
        pfree(bytes);
    } while ((from += len) < it->len);
    it->len = 0;
}

/* The set of all that was collected, or NULL if it would have too many ids. */
static const set_view *whole(collected *it)
{
    push_numbers(it);
    combine_all(it);
    return it->count == 1 ? it->sets : NULL;
}

/* A value with the bytes of this set. */
static struct varlena *value_of(const set_view *set)
{
    struct varlena *value;

    if (!set)
        refuse(BITPACKING_TOO_LONG);
    value = palloc(VARHDRSZ + set->bytes_len);
    SET_VARSIZE(value, VARHDRSZ + set->bytes_len);
    memcpy(VARDATA(value), set->bytes, set->bytes_len);
    return value;
}

/* The state with a number more. */
static Datum with_number(FunctionCallInfo fcinfo, int64 number)
{
    set_id id = as_id(number);
    collected *it = state_of(fcinfo);

    make_room(it, 1);
    it->numbers[it->len++] = id;
    PG_RETURN_POINTER(it);
}

FUNCTION(gather_int2) { return PG_ARGISNULL(1) ? unchanged(fcinfo) : with_number(fcinfo, PG_GETARG_INT16(1)); }

FUNCTION(gather_int4) { return PG_ARGISNULL(1) ? unchanged(fcinfo) : with_number(fcinfo, PG_GETARG_INT32(1)); }

FUNCTION(gather_int8) { return PG_ARGISNULL(1) ? unchanged(fcinfo) : with_number(fcinfo, PG_GETARG_INT64(1)); }

/* The state with the set of a row too. */
static Datum with_row(FunctionCallInfo fcinfo, uint32 operation)
{
    set_view set;
    collected *it;

    if (PG_ARGISNULL(1))
        return unchanged(fcinfo);
    set = opened(PG_GETARG_VARLENA_PP(1));
    it = state_of(fcinfo);
    it->operation = operation;
    take(it, &set);
    PG_RETURN_POINTER(it);
}

FUNCTION(gather_or) { return with_row(fcinfo, BITPACKING_OR); }

FUNCTION(gather_xor) { return with_row(fcinfo, BITPACKING_XOR); }

FUNCTION(gather_and) { return with_row(fcinfo, BITPACKING_AND); }

/* Two states as one. */
static Datum joined(FunctionCallInfo fcinfo, uint32 operation)
{
    collected *it, *other;
    size_t i;

    if (PG_ARGISNULL(1))
        return unchanged(fcinfo);
    it = state_of(fcinfo);
    it->operation = operation;
    other = (collected *)PG_GETARG_POINTER(1);
    push_numbers(other);
    for (i = 0; i < other->count; i++)
        take(it, &other->sets[i]);
    PG_RETURN_POINTER(it);
}

FUNCTION(combine_or) { return joined(fcinfo, BITPACKING_OR); }

FUNCTION(combine_xor) { return joined(fcinfo, BITPACKING_XOR); }

FUNCTION(combine_and) { return joined(fcinfo, BITPACKING_AND); }

/* A state as the bytes of its set, for another process. */
FUNCTION(serialize)
{
    context_of(fcinfo);
    PG_RETURN_POINTER(value_of(whole((collected *)PG_GETARG_POINTER(0))));
}

FUNCTION(deserialize)
{
    set_view set = opened(PG_GETARG_VARLENA_PP(0));
    collected *it = new_collected(CurrentMemoryContext);

    context_of(fcinfo);
    push(it, set.bytes, set.bytes_len);
    PG_RETURN_POINTER(it);
}

FUNCTION(final)
{
    struct varlena *value;

    context_of(fcinfo);
    if (PG_ARGISNULL(0))
        PG_RETURN_NULL();
    value = value_of(whole((collected *)PG_GETARG_POINTER(0)));
    PG_RETURN_POINTER(ended(value, VARSIZE(value) - VARHDRSZ));
}

/* Only how many ids the set of all rows has. An OR may have more than a set. */
FUNCTION(final_len)
{
    const set_view *set;
    collected *it;
    ptrdiff_t count;

    context_of(fcinfo);
    if (PG_ARGISNULL(0))
        PG_RETURN_NULL();
    it = (collected *)PG_GETARG_POINTER(0);
    set = whole(it);
    if (set)
        PG_RETURN_INT64((int64)CALL(len)(set));
    count = it->operation == BITPACKING_OR ? count_any(it->sets, it->count) : BITPACKING_TOO_LONG;
    if (count < 0)
        refuse(count);
    PG_RETURN_INT64((int64)count);
}
