/* What a set answers: its ids, by number. */
#include "idset.h"

/* The arguments of a function: a set and integers. */
typedef struct {
    bitpacking_set set;
    sqlite3_int64 integers[2];
} arguments;

/* Reads the arguments. Returns whether they are there: otherwise the function returns null, or has failed. */
static int are_there(sqlite3_context *context, int count, sqlite3_value **values, arguments *it)
{
    int i;

    if (has_null(count, values) || !opened(context, values, 0, &it->set))
        return 0;
    for (i = 1; i < count && integer_of(context, values, i, &it->integers[i - 1]); i++)
        ;
    return i == count;
}

void idset_len(sqlite3_context *context, int count, sqlite3_value **values)
{
    arguments it = {0};

    if (are_there(context, count, values, &it))
        sqlite3_result_int64(context, (sqlite3_int64)bitpacking_set_len(&it.set));
}

/* Returns the id at a position from a function, or null. */
static void result_at(sqlite3_context *context, const bitpacking_set *set, size_t position)
{
    uint32_t id;

    if (bitpacking_set_get(set, position, &id) == 1)
        sqlite3_result_int64(context, id);
}

void idset_min(sqlite3_context *context, int count, sqlite3_value **values)
{
    arguments it = {0};

    if (are_there(context, count, values, &it))
        result_at(context, &it.set, 0);
}

void idset_max(sqlite3_context *context, int count, sqlite3_value **values)
{
    arguments it = {0};

    if (are_there(context, count, values, &it))
        result_at(context, &it.set, bitpacking_set_len(&it.set) - 1);
}

void idset_contains(sqlite3_context *context, int count, sqlite3_value **values)
{
    arguments it = {0};
    sqlite3_int64 id;

    if (!are_there(context, count, values, &it))
        return;
    id = it.integers[0];
    sqlite3_result_int(context, id >= 0 && id <= UINT32_MAX && bitpacking_set_contains(&it.set, (uint32_t)id) == 1);
}

/* How many ids are below an integer. */
void idset_rank(sqlite3_context *context, int count, sqlite3_value **values)
{
    arguments it = {0};

    if (are_there(context, count, values, &it))
        sqlite3_result_int64(context, (sqlite3_int64)rank_of(&it.set, it.integers[0]));
}

/* The first id that is at least an integer, or null. */
void idset_seek(sqlite3_context *context, int count, sqlite3_value **values)
{
    arguments it = {0};

    if (are_there(context, count, values, &it))
        result_at(context, &it.set, rank_of(&it.set, it.integers[0]));
}

/* What a set is like, as a JSON object. */
void idset_describe(sqlite3_context *context, int count, sqlite3_value **values)
{
    bitpacking_set_description like;
    arguments it = {0};
    char *text;

    if (!are_there(context, count, values, &it))
        return;
    bitpacking_set_describe(&it.set, &like);
    text = sqlite3_mprintf("{\"ids\":%lld,\"bytes\":%lld,\"chunks\":%lld,\"numbers\":%lld,\"blocks\":%lld,\"runs\":%lld}", (long long)like.ids,
                           (long long)like.bytes, (long long)like.chunks, (long long)like.numbers, (long long)like.blocks, (long long)like.runs);
    if (text)
        sqlite3_result_text(context, text, -1, sqlite3_free);
    else
        sqlite3_result_error_nomem(context);
}

/* The set of the ids from one integer to another, both included. */
void idset_range(sqlite3_context *context, int count, sqlite3_value **values)
{
    arguments it = {0};
    size_t from, to;
    uint32_t *ids;

    if (!are_there(context, count, values, &it))
        return;
    from = rank_of(&it.set, it.integers[0]);
    to = it.integers[1] > UINT32_MAX ? bitpacking_set_len(&it.set) : rank_of(&it.set, it.integers[1] + 1);
    if (!(ids = new_ids(to > from ? to - from : 0))) {
        sqlite3_result_error_nomem(context);
        return;
    }
    result_ids(context, ids, to > from ? (size_t)bitpacking_set_slice(&it.set, from, ids, to - from) : 0);
    sqlite3_free(ids);
}
