/* Arrays of ids, and the results of functions. */
#include "idset.h"

#include <stdlib.h>

/* Ids are sorted by three digits of 11 bits. Fewer ids than these by qsort. */
enum { DIGIT = 11, DIGITS = 3, VALUES = 1 << DIGIT, FEW = 1000, FIRST_ROOM = 64 };

/* Room for ids, or NULL. */
uint32_t *new_ids(size_t len) { return sqlite3_malloc64(sizeof(uint32_t) * (len ? len : 1)); }

static int by_value(const void *one, const void *other)
{
    uint32_t a = *(const uint32_t *)one, b = *(const uint32_t *)other;

    return (a > b) - (a < b);
}

static void sort_by_digit(const uint32_t *from, uint32_t *to, size_t len, int shift)
{
    size_t starts[VALUES] = {0}, start = 0, count, i;

    for (i = 0; i < len; i++)
        starts[from[i] >> shift & (VALUES - 1)]++;
    for (i = 0; i < VALUES; i++) {
        count = starts[i];
        starts[i] = start;
        start += count;
    }
    for (i = 0; i < len; i++)
        to[starts[from[i] >> shift & (VALUES - 1)]++] = from[i];
}

/* Sorts ids, and returns whether there was memory. */
static int sorted(gathered *it)
{
    uint32_t *other;
    int digit;

    if (it->len < FEW) {
        qsort(it->ids, it->len, sizeof *it->ids, by_value);
        return 1;
    }
    for (digit = 0; digit < DIGITS; digit++) {
        if (!(other = new_ids(it->room)))
            return 0;
        sort_by_digit(it->ids, other, it->len, digit * DIGIT);
        sqlite3_free(it->ids);
        it->ids = other;
    }
    return 1;
}

/* Makes a set of ids that were gathered: sorts them, and leaves each once. Returns whether there was memory. */
int settle(gathered *it)
{
    size_t count = 1, i;

    for (i = 1; i < it->len && it->ids[i - 1] < it->ids[i]; i++)
        ;
    if (i >= it->len)
        return 1;
    if (!sorted(it))
        return 0;
    for (i = 1; i < it->len; i++)
        if (it->ids[i] != it->ids[count - 1])
            it->ids[count++] = it->ids[i];
    it->len = count;
    return 1;
}

/* Makes room for more ids: first by leaving each once, then by doubling, so that repeats take no memory. Returns whether there was memory. */
int make_room(gathered *it, size_t more)
{
    size_t room;
    uint32_t *ids;

    if (it->room - it->len >= more)
        return 1;
    if (!settle(it))
        return 0;
    if (it->len + more <= it->room / 2)
        return 1;
    room = 2 * (it->len + more) + FIRST_ROOM;
    if (!(ids = sqlite3_realloc64(it->ids, sizeof *ids * room)))
        return 0;
    it->ids = ids;
    it->room = room;
    return 1;
}

/* Gives back the memory after the first bytes. */
uint8_t *shortened(uint8_t *bytes, size_t len)
{
    uint8_t *shorter = sqlite3_realloc64(bytes, len);

    return shorter ? shorter : bytes;
}

/* The set that a call writes, in memory of its own. Returns how many bytes it takes. `room` bytes are usually enough. The room doubles until it is. */
ptrdiff_t written(set_writer *call, const source *from, size_t items, size_t room, uint8_t **bytes)
{
    uint32_t *work = new_ids(items);
    ptrdiff_t size = work ? BITPACKING_SHORT : NO_MEMORY;

    for (*bytes = NULL; size == BITPACKING_SHORT; room *= 2) {
        sqlite3_free(*bytes);
        if (!(*bytes = sqlite3_malloc64(room)))
            size = NO_MEMORY;
        else
            size = call(from, work, items, *bytes, room);
    }
    sqlite3_free(work);
    if (size < 0)
        sqlite3_free(*bytes);
    else
        *bytes = shortened(*bytes, (size_t)size);
    return size;
}

/* Packs ids, which increase, into memory of their own. Returns how many bytes they take. */
ptrdiff_t packed(const uint32_t *ids, size_t len, uint8_t **bytes)
{
    size_t room = BITPACKING_SET_ROOM(len);
    ptrdiff_t size;

    if (len > MOST_IDS)
        return BITPACKING_TOO_LONG;
    if (!(*bytes = sqlite3_malloc64(room)))
        return NO_MEMORY;
    size = bitpacking_set_pack(ids, len, *bytes, room, NULL);
    if (size < 0)
        sqlite3_free(*bytes);
    else
        *bytes = shortened(*bytes, (size_t)size);
    return size;
}

/* Returns a set of ids, which increase, from a function. */
void result_ids(sqlite3_context *context, const uint32_t *ids, size_t len)
{
    uint8_t *bytes;
    ptrdiff_t size = packed(ids, len, &bytes);

    if (size < 0)
        refuse_fault(context, size);
    else
        sqlite3_result_blob64(context, bytes, (size_t)size, sqlite3_free);
}
