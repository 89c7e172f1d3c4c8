/* The OR and the AND of the sets of many rows. Nulls are left out. Without a row that is not null the answer is null. */
#include "idset.h"

/* How many bytes, or sets, are collected before they are combined into one. Fewer bytes for an AND, whose set is short. */
enum { OR_BYTES = 8 << 20, AND_BYTES = 1 << 18, MANY_SETS = 1 << 16 };

/* How much there is room for first, and the bytes of the set without ids, which alone has so few. */
enum { FIRST_BYTES = 256, FIRST_SETS = 16, EMPTY_BYTES = 1 };

/* Sets that are not combined yet: their bytes, one set after the other, and where each ends. */
typedef struct {
    uint8_t *bytes;
    size_t len, bytes_room, before;
    size_t *ends;
    size_t count, ends_room;
    int failed;
} collected;

/* Makes room for the bytes of one more set. Returns whether there was memory. */
static int make_space(collected *it, size_t more)
{
    size_t *ends = it->ends;
    uint8_t *bytes = it->bytes;

    if (it->count == it->ends_room) {
        if (!(ends = sqlite3_realloc64(ends, sizeof *ends * (2 * it->ends_room + FIRST_SETS))))
            return 0;
        it->ends = ends;
        it->ends_room = 2 * it->ends_room + FIRST_SETS;
    }
    if (it->bytes_room - it->len < more) {
        if (!(bytes = sqlite3_realloc64(bytes, 2 * it->len + more + FIRST_BYTES)))
            return 0;
        it->bytes = bytes;
        it->bytes_room = 2 * it->len + more + FIRST_BYTES;
    }
    return 1;
}

/* Views of all sets, or NULL. */
static bitpacking_set *views_of(const collected *it)
{
    bitpacking_set *views = sqlite3_malloc64(sizeof *views * it->count);
    size_t i, start = 0;

    for (i = 0; views && i < it->count; i++) {
        bitpacking_set_open_tested(it->bytes + start, it->ends[i] - start, &views[i]);
        start = it->ends[i];
    }
    return views;
}

/* Combines the sets into one. Returns its number of bytes, or what failed. */
static ptrdiff_t combine_all(collected *it, uint32_t operation)
{
    bitpacking_set *views = views_of(it);
    uint8_t *bytes;
    ptrdiff_t len = views ? joined(operation, views, it->count, &bytes) : NO_MEMORY;

    sqlite3_free(views);
    if (len < 0)
        return len;
    if ((size_t)len <= it->bytes_room) {
        memcpy(it->bytes, bytes, (size_t)len);
        sqlite3_free(bytes);
    } else {
        sqlite3_free(it->bytes);
        it->bytes = bytes;
        it->bytes_room = (size_t)len;
    }
    it->len = it->before = it->ends[0] = (size_t)len;
    it->count = 1;
    return len;
}

/* Whether enough is collected to be combined: also twice the bytes of the last result, so that a long result is not packed for each row. */
static int is_much(const collected *it, uint32_t operation)
{
    size_t many = operation == BITPACKING_OR ? OR_BYTES : AND_BYTES;

    return it->count == MANY_SETS || (it->count > 1 && it->len > many && it->len > 2 * it->before);
}

/* Takes the set of a row. */
static ptrdiff_t with_set(collected *it, uint32_t operation, const void *bytes, size_t len)
{
    ptrdiff_t done = is_much(it, operation) ? combine_all(it, operation) : 0;

    if (done < 0)
        return done;
    if (operation == BITPACKING_AND && it->count == 1 && it->len == EMPTY_BYTES)
        return 0;
    if (!make_space(it, len))
        return NO_MEMORY;
    memcpy(it->bytes + it->len, bytes, len);
    it->ends[it->count++] = it->len += len;
    return 0;
}

void idset_collect(sqlite3_context *context, int count, sqlite3_value **values)
{
    bitpacking_set set = BITPACKING_SET_EMPTY;
    ptrdiff_t done;
    collected *it;

    if (has_null(count, values))
        return;
    if (!(it = sqlite3_aggregate_context(context, sizeof *it))) {
        sqlite3_result_error_nomem(context);
        return;
    }
    it->failed = !opened(context, values, 0, &set);
    if (it->failed)
        return;
    done = with_set(it, operation_of(context), sqlite3_value_blob(values[0]), (size_t)sqlite3_value_bytes(values[0]));
    it->failed = done < 0;
    if (done < 0)
        refuse_fault(context, done);
}

void idset_collected(sqlite3_context *context)
{
    collected *it = sqlite3_aggregate_context(context, 0);
    ptrdiff_t done = 0;

    if (!it)
        return;
    if (!it->failed && it->count > 1)
        done = combine_all(it, operation_of(context));
    if (done < 0)
        refuse_fault(context, done);
    if (it->failed || it->count == 0 || done < 0)
        sqlite3_free(it->bytes);
    else
        sqlite3_result_blob64(context, shortened(it->bytes, it->len), it->len, sqlite3_free);
    sqlite3_free(it->ends);
}
