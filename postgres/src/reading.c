/* What a set answers: its ids, by number, by position and one after the other. */
#include "idset.h"

#include "funcapi.h"
#include "miscadmin.h"

FUNCTION(cardinality)
{
    set_view set = opened(PG_GETARG_VARLENA_PP(0));

    PG_RETURN_INT64((int64)CALL(len)(&set));
}

static bool contains(const set_view *set, int64 number)
{
    return number >= 0 && number <= MOST_NUMBER && CALL(contains)(set, (set_id)number) == 1;
}

FUNCTION(contains)
{
    set_view set = opened_argument(fcinfo, 0);

    PG_RETURN_BOOL(contains(&set, PG_GETARG_INT64(1)));
}

FUNCTION(is_in)
{
    set_view set = opened_argument(fcinfo, 1);

    PG_RETURN_BOOL(contains(&set, PG_GETARG_INT64(0)));
}

/* How many ids are below a number. */
FUNCTION(rank)
{
    set_view set = opened_argument(fcinfo, 0);

    PG_RETURN_INT64((int64)rank_of(&set, PG_GETARG_INT64(1)));
}

/* The first id that is at least a number, or null. */
FUNCTION(seek)
{
    set_view set = opened_argument(fcinfo, 0);
    int64 number = PG_GETARG_INT64(1);
    size_t position;
    set_id id;

    if (number > MOST_NUMBER || CALL(seek)(&set, (set_id)Max(number, 0), &position, &id) != 1)
        PG_RETURN_NULL();
    PG_RETURN_INT64(as_number(id));
}

/* The id at a position, counted from 0, or null. */
static Datum id_at(FunctionCallInfo fcinfo, const set_view *set, size_t position)
{
    set_id id;

    if (CALL(get)(set, position, &id) != 1)
        PG_RETURN_NULL();
    PG_RETURN_INT64(as_number(id));
}

/* The id at a position, counted from 1 as in an array, or null. */
FUNCTION(get)
{
    set_view set = opened_argument(fcinfo, 0);
    int64 position = PG_GETARG_INT64(1);

    if (position < 1)
        PG_RETURN_NULL();
    return id_at(fcinfo, &set, (size_t)position - 1);
}

FUNCTION(min)
{
    set_view set = opened_argument(fcinfo, 0);

    return id_at(fcinfo, &set, 0);
}

FUNCTION(max)
{
    set_view set = opened_argument(fcinfo, 0);

    return id_at(fcinfo, &set, CALL(len)(&set) - 1);
}

/* How many ids are from one number to another, both included. */
static size_t between(FunctionCallInfo fcinfo, const set_view *set)
{
    int64 low = Max(PG_GETARG_INT64(1), 0), high = Min(PG_GETARG_INT64(2), MOST_NUMBER);

    return low > high ? 0 : count_between(set, (set_id)low, (set_id)high);
}

FUNCTION(count_between)
{
    set_view set = opened_argument(fcinfo, 0);

    PG_RETURN_INT64((int64)between(fcinfo, &set));
}

/* The ids at some positions, as a set. */
static Datum part(const set_view *set, size_t from, size_t len)
{
    set_id *ids = new_ids(len);
    struct varlena *value = packed(ids, (size_t)CALL(slice)(set, from, ids, len));

    pfree(ids);
    PG_RETURN_POINTER(value);
}

/* The ids from one number to another, both included. */
FUNCTION(range)
{
    set_view set = opened_argument(fcinfo, 0);

    return part(&set, rank_of(&set, PG_GETARG_INT64(1)), between(fcinfo, &set));
}

/* The ids from one position to another, both included and counted from 1, as the slice of an array. */
FUNCTION(slice)
{
    set_view set = opened_argument(fcinfo, 0);
    int64 first = Max(PG_GETARG_INT64(1), 1), last = Min(PG_GETARG_INT64(2), (int64)CALL(len)(&set));

    return first > last ? part(&set, 0, 0) : part(&set, (size_t)first - 1, (size_t)(last - first + 1));
}

/* How far unnest has read, and the ids at hand. */
typedef struct {
    set_view set;
    size_t from, index, count;
    set_id ids[PIECE];
} reading;

/* Starts unnest: a copy of the bytes stays for all calls. */
static void start_reading(FunctionCallInfo fcinfo)
{
    FuncCallContext *calls = SRF_FIRSTCALL_INIT();
    MemoryContext before = MemoryContextSwitchTo(calls->multi_call_memory_ctx);
    reading *it = palloc0(sizeof *it);

    it->set = opened((struct varlena *)PG_DETOAST_DATUM_COPY(PG_GETARG_DATUM(0)));
    calls->user_fctx = it;
    MemoryContextSwitchTo(before);
}

/* All ids, a row each. It unpacks a piece at a time. */
FUNCTION(unnest)
{
    FuncCallContext *calls;
    reading *it;

    if (SRF_IS_FIRSTCALL())
        start_reading(fcinfo);
    calls = SRF_PERCALL_SETUP();
    it = calls->user_fctx;
    if (it->index == it->count) {
        CHECK_FOR_INTERRUPTS();
        it->from += it->count;
        it->count = (size_t)CALL(slice)(&it->set, it->from, it->ids, PIECE);
        it->index = 0;
    }
    if (it->count == 0)
        SRF_RETURN_DONE(calls);
    SRF_RETURN_NEXT(calls, Int64GetDatum(as_number(it->ids[it->index++])));
}
