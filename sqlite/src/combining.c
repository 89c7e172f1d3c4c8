/* AND, OR, NOT and XOR of sets, as sets and as counts, and a set with an id more or less. */
#include "idset.h"

/* More bytes than a chunk of a set has. */
enum { CHUNK = 8500 };

static ptrdiff_t write_joined(const source *from, uint32_t *work, size_t items, uint8_t *bytes, size_t room)
{
    return bitpacking_set_combine((uint32_t)from->number, from->data, from->len, work, items, bytes, room);
}

/* Combines sets into one, in memory of its own. Returns how many bytes it takes. Room for the bytes of all sets, and of a chunk more, is usually
 * enough. */
ptrdiff_t joined(uint32_t operation, const bitpacking_set *views, size_t views_len, uint8_t **bytes)
{
    const source from = {views, views_len, operation};
    size_t room = CHUNK, i;

    for (i = 0; i < views_len; i++)
        room += views[i].bytes_len;
    return written(write_joined, &from, bitpacking_set_combine_room(views, views_len), room, bytes);
}

/* How many ids the XOR of sets has. */
static ptrdiff_t count_odd(const bitpacking_set *views, size_t views_len)
{
    bitpacking_set set = BITPACKING_SET_EMPTY;
    uint8_t *bytes;
    ptrdiff_t size = joined(BITPACKING_XOR, views, views_len, &bytes);

    if (size < 0)
        return size;
    bitpacking_set_open_tested(bytes, (size_t)size, &set);
    size = (ptrdiff_t)bitpacking_set_len(&set);
    sqlite3_free(bytes);
    return size;
}

/* How many ids an operation gives. */
static ptrdiff_t count_of(uint32_t operation, const bitpacking_set *views, size_t views_len)
{
    ptrdiff_t first = (ptrdiff_t)bitpacking_set_len(&views[0]), common;

    if (operation == BITPACKING_AND)
        return bitpacking_set_count_common(views, views_len);
    if (operation == BITPACKING_OR || views_len == 1)
        return bitpacking_set_count_any(views, views_len);
    if (views_len == 2) {
        common = bitpacking_set_count_common(views, 2);
        return operation == BITPACKING_AND_NOT ? first - common : first + (ptrdiff_t)bitpacking_set_len(&views[1]) - 2 * common;
    }
    if (operation == BITPACKING_AND_NOT)
        return bitpacking_set_count_any(views, views_len) - bitpacking_set_count_any(views + 1, views_len - 1);
    return count_odd(views, views_len);
}

/* Opens all arguments, which are sets. Returns NULL if the function returns null, or has failed. */
static bitpacking_set *opened_all(sqlite3_context *context, int count, sqlite3_value **values)
{
    bitpacking_set *views = NULL;
    int i;

    if (count < 1 || count > MOST_SETS)
        refuse(context, "wrong number of arguments");
    else if (!has_null(count, values) && !(views = sqlite3_malloc64(sizeof *views * (size_t)count)))
        sqlite3_result_error_nomem(context);
    for (i = 0; views && i < count; i++)
        if (!opened(context, values, i, &views[i])) {
            sqlite3_free(views);
            views = NULL;
        }
    return views;
}

/* Returns the set that an operation gives from a function. */
static void result_joined(sqlite3_context *context, uint32_t operation, const bitpacking_set *views, size_t views_len)
{
    uint8_t *bytes;
    ptrdiff_t size = joined(operation, views, views_len, &bytes);

    if (size < 0)
        refuse_fault(context, size);
    else
        sqlite3_result_blob64(context, bytes, (size_t)size, sqlite3_free);
}

void idset_combine(sqlite3_context *context, int count, sqlite3_value **values)
{
    bitpacking_set *views = opened_all(context, count, values);

    if (views)
        result_joined(context, operation_of(context), views, (size_t)count);
    sqlite3_free(views);
}

void idset_combine_len(sqlite3_context *context, int count, sqlite3_value **values)
{
    bitpacking_set *views = opened_all(context, count, values);
    ptrdiff_t len = views ? count_of(operation_of(context), views, (size_t)count) : 0;

    if (len < 0)
        refuse_fault(context, len);
    else if (views)
        sqlite3_result_int64(context, len);
    sqlite3_free(views);
}

/* A set of one id, over bytes of the caller. */
static bitpacking_set set_of(uint32_t id, uint8_t bytes[BITPACKING_SET_ROOM(1)])
{
    bitpacking_set set = BITPACKING_SET_EMPTY;
    ptrdiff_t size = bitpacking_set_pack(&id, 1, bytes, BITPACKING_SET_ROOM(1), NULL);

    bitpacking_set_open_tested(bytes, (size_t)size, &set);
    return set;
}

void idset_add(sqlite3_context *context, int count, sqlite3_value **values)
{
    bitpacking_set views[2] = {BITPACKING_SET_EMPTY, BITPACKING_SET_EMPTY};
    uint8_t bytes[BITPACKING_SET_ROOM(1)];
    uint32_t id;

    if (has_null(count, values) || !opened(context, values, 0, &views[0]) || !id_of(context, values, 1, &id))
        return;
    if (bitpacking_set_contains(&views[0], id) == 1) {
        sqlite3_result_value(context, values[0]);
        return;
    }
    views[1] = set_of(id, bytes);
    result_joined(context, BITPACKING_OR, views, 2);
}

/* The set without an integer. No set has one that is no id. */
void idset_remove(sqlite3_context *context, int count, sqlite3_value **values)
{
    bitpacking_set views[2] = {BITPACKING_SET_EMPTY, BITPACKING_SET_EMPTY};
    uint8_t bytes[BITPACKING_SET_ROOM(1)];
    sqlite3_int64 integer;

    if (has_null(count, values) || !opened(context, values, 0, &views[0]) || !integer_of(context, values, 1, &integer))
        return;
    if (integer < 0 || integer > UINT32_MAX || bitpacking_set_contains(&views[0], (uint32_t)integer) != 1) {
        sqlite3_result_value(context, values[0]);
        return;
    }
    views[1] = set_of((uint32_t)integer, bytes);
    result_joined(context, BITPACKING_AND_NOT, views, 2);
}
