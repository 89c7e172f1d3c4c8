/* The class of GIN: an index has a key for each id, and finds the sets that have it. */
#include "idset.h"

#include "access/gin.h"
#include "access/stratnum.h"
#include "miscadmin.h"

/* The operators of the class, by their numbers in the SQL of the extension. */
enum { OVERLAPS = 1, CONTAINS = 2, CONTAINED = 3, EQUAL = 4, HAS = 5, MATCHES = 6 };

/* What an index knows of the ids of a query. With `hopeful`, an id that may be there counts so that the query is more likely to hold. */
typedef struct {
    const GinTernaryValue *found;
    bool hopeful;
} known;

/* The ids of a set as keys. */
static Datum *keys_of(const bitpacking_set *set, int32 *count)
{
    size_t len = bitpacking_set_len(set), i;
    uint32 *ids = new_ids(len);
    ptrdiff_t unpacked = bitpacking_set_unpack(set, ids, len);
    Datum *keys;

    if (unpacked < 0)
        refuse(unpacked);
    keys = palloc_extended(sizeof(Datum) * (len ? len : 1), MCXT_ALLOC_HUGE);
    for (i = 0; i < len; i++)
        keys[i] = Int64GetDatum(ids[i]);
    pfree(ids);
    *count = (int32)len;
    return keys;
}

PG_FUNCTION_INFO_V1(idset_gin_keys);
Datum idset_gin_keys(PG_FUNCTION_ARGS)
{
    bitpacking_set set = opened(PG_GETARG_VARLENA_PP(0));

    PG_RETURN_POINTER(keys_of(&set, (int32 *)PG_GETARG_POINTER(1)));
}

static bool is_not_there(void *state, uint32 id, bool negated, size_t number) { return false; }

/* The keys of `@@`. If the query holds for a set without any of them, all sets may answer it. */
static Datum *keys_of_query(const idset_query *query, int32 *count, int32 *mode)
{
    Datum *keys;

    *count = (int32)query_ids(query, NULL);
    keys = palloc(sizeof(Datum) * Max(*count, 1));
    query_ids(query, keys);
    if (holds(query, is_not_there, NULL))
        *mode = GIN_SEARCH_MODE_ALL;
    return keys;
}

/* The keys of a query, and which sets without any of them may answer it. */
PG_FUNCTION_INFO_V1(idset_gin_query);
Datum idset_gin_query(PG_FUNCTION_ARGS)
{
    int32 *count = (int32 *)PG_GETARG_POINTER(1), *mode = (int32 *)PG_GETARG_POINTER(6);
    StrategyNumber strategy = PG_GETARG_UINT16(2);
    bitpacking_set set;
    Datum *keys;

    if (strategy == MATCHES)
        PG_RETURN_POINTER(keys_of_query(query_of(PG_GETARG_DATUM(0)), count, mode));
    if (strategy == HAS) {
        keys = palloc(sizeof(Datum));
        keys[0] = PG_GETARG_DATUM(0);
        *count = 1;
        PG_RETURN_POINTER(keys);
    }
    set = opened(PG_GETARG_VARLENA_PP(0));
    keys = keys_of(&set, count);
    if (strategy == CONTAINS && *count == 0)
        *mode = GIN_SEARCH_MODE_ALL;
    if (strategy == CONTAINED || (strategy == EQUAL && *count == 0))
        *mode = GIN_SEARCH_MODE_INCLUDE_EMPTY;
    PG_RETURN_POINTER(keys);
}

static bool may_be_there(void *state, uint32 id, bool negated, size_t number)
{
    const known *it = state;
    GinTernaryValue found = it->found[number];

    return found == GIN_MAYBE ? it->hopeful != negated : found == GIN_TRUE;
}

/* Whether a set with these keys answers `@@`: it does if it does at the worst, and does not if it does not at the best. */
static GinTernaryValue answer_of_query(const idset_query *query, const GinTernaryValue *found)
{
    if (!holds(query, may_be_there, &(known){found, true}))
        return GIN_FALSE;
    return holds(query, may_be_there, &(known){found, false}) ? GIN_TRUE : GIN_MAYBE;
}

/* Whether a set with these keys answers the query. GIN_MAYBE is for the operators whose answer needs the set itself. */
static GinTernaryValue answer(StrategyNumber strategy, const GinTernaryValue *found, int32 count)
{
    GinTernaryValue all = GIN_TRUE, any = GIN_FALSE;

    for (int32 i = 0; i < count; i++) {
        if (found[i] == GIN_FALSE || (found[i] == GIN_MAYBE && all == GIN_TRUE))
            all = found[i];
        if (found[i] == GIN_TRUE || (found[i] == GIN_MAYBE && any == GIN_FALSE))
            any = found[i];
    }
    if (strategy == OVERLAPS)
        return any;
    if (strategy == CONTAINED)
        return GIN_MAYBE;
    return strategy == EQUAL && all == GIN_TRUE ? GIN_MAYBE : all;
}

/* The same, by what GIN hands to both functions. */
static GinTernaryValue answer_to(FunctionCallInfo fcinfo)
{
    const GinTernaryValue *found = (const GinTernaryValue *)PG_GETARG_POINTER(0);
    StrategyNumber strategy = PG_GETARG_UINT16(1);

    return strategy == MATCHES ? answer_of_query(query_of(PG_GETARG_DATUM(2)), found) : answer(strategy, found, PG_GETARG_INT32(3));
}

PG_FUNCTION_INFO_V1(idset_gin_consistent);
Datum idset_gin_consistent(PG_FUNCTION_ARGS)
{
    bool *recheck = (bool *)PG_GETARG_POINTER(5);
    GinTernaryValue known_answer = answer_to(fcinfo);

    *recheck = known_answer == GIN_MAYBE;
    PG_RETURN_BOOL(known_answer != GIN_FALSE);
}

PG_FUNCTION_INFO_V1(idset_gin_triconsistent);
Datum idset_gin_triconsistent(PG_FUNCTION_ARGS) { PG_RETURN_GIN_TERNARY_VALUE(answer_to(fcinfo)); }
