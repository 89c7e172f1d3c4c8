/* Walks sets of each form with a cursor, by random calls beside a position in a list of their ids: values, steps, seeks near and far, also back and past
   the last id, and parts of any length. Prints what is wrong, and last how many sets it walked. */
#include "bitpacking.h"
#include "tables.h"

enum { SETS = 240, CALLS = 400, MOST = 20000, PART = 700, FORMS = 6 };

static uint32_t ids[MOST], part[PART + 1];
static uint8_t bytes[BITPACKING_SET_ROOM(MOST)];
/* How many ids the set has, and the position of the cursor. */
static size_t len, at;

static void put(uint64_t id)
{
    if (len < MOST && id <= UINT32_MAX && (len == 0 || id > ids[len - 1]))
        ids[len++] = (uint32_t)id;
}

/* Ids that are few; far apart, in an array; in chunks of lists, of bits, of runs; or of all these. */
static void draw_ids(uint32_t form)
{
    static const uint32_t gaps[] = {1u << 25, 1u << 18, 3000, 3, 1, 0};
    const uint32_t most = form == 0 ? drawn(128) : form == 1 ? 128 + drawn(4000) : 128 + drawn(MOST - 128);
    uint64_t id = drawn(4) ? drawn(1u << 20) : 0;

    for (len = 0; len < most;) {
        const uint32_t gap = form < 5 ? gaps[form] : gaps[1 + drawn(4)];
        size_t k, more = form < 5 ? most : 1 + drawn(3000), before = len;

        for (k = 0; k < more && len < most; k++)
            put(id += 1 + (gap == 1 && drawn(500) ? 0 : drawn(gap)));
        if (len == before)
            break;
    }
    if (drawn(4) == 0)
        put(UINT32_MAX);
}

/* A call found the id at the position, or there is none, and nothing was written. */
static void is_at(int32_t found, uint32_t id, const char *what)
{
    expect(found == (at < len) && id == (at < len ? ids[at] : 77), what);
}

static void seeks(bitpacking_set_cursor *cursor)
{
    const size_t near = at + drawn(40), far = len ? drawn(len) : 0, some = drawn(2) ? near : far;
    const uint32_t target = drawn(50) == 0 ? UINT32_MAX - drawn(2) : (some < len ? ids[some] : drawn(UINT64_C(1) << 32)) + drawn(3) - 1;
    uint32_t id = 77;
    const int32_t found = bitpacking_set_cursor_seek(cursor, target, &id);

    while (at < len && ids[at] < target)
        at++;
    is_at(found, id, "a seek finds another id");
}

static void fills(bitpacking_set_cursor *cursor)
{
    const size_t room = drawn(8) ? drawn(20) : drawn(PART), left = len - at, count = left < room ? left : room;

    memset(part, 0xA5, sizeof part);
    expect(bitpacking_set_cursor_fill(cursor, part, room) == (ptrdiff_t)count, "another number of ids");
    expect(count == 0 || memcmp(part, ids + at, count * sizeof *part) == 0, "other ids");
    expect(part[count] == 0xA5A5A5A5, "an id after the last one of a part");
    at += count;
}

static void advances(bitpacking_set_cursor *cursor)
{
    uint32_t id = 77;
    const int32_t found = bitpacking_set_cursor_advance(cursor, &id);

    at += at < len;
    is_at(found, id, "another id is next");
}

/* Random calls, until the set has no id left or there were enough. */
static void walks(bitpacking_set_cursor *cursor)
{
    const uint32_t slow = drawn(3);
    size_t k;

    for (k = 0; k < CALLS; k++) {
        const uint32_t call = drawn(10);
        uint32_t id = 77;
        int32_t found;

        if (call < 6 - 3 * slow || call < 2)
            advances(cursor);
        else if (call < 8)
            seeks(cursor);
        else
            fills(cursor);
        found = bitpacking_set_cursor_value(cursor, &id);
        is_at(found, id, "another id is here");
        expect(bitpacking_set_cursor_position(cursor) == at, "another position");
    }
}

/* The view goes before the cursor, and a copy moves on its own. */
static void walk_set(bitpacking_set_cursor *cursor)
{
    bitpacking_set_cursor copy;
    size_t before;
    {
        bitpacking_set set = BITPACKING_SET_EMPTY;
        const ptrdiff_t size = bitpacking_set_pack(ids, len, bytes, sizeof bytes, NULL);

        expect(size > 0 && bitpacking_set_open(bytes, (size_t)size, &set) == 0, "a set is not opened");
        bitpacking_set_cursor_start(cursor, &set);
        memset(&set, 0xA5, sizeof set);
    }
    at = 0;
    expect(bitpacking_set_cursor_position(cursor) == 0, "a cursor begins after the first id");
    walks(cursor);
    copy = *cursor;
    before = at;
    walks(cursor);
    at = before;
    walks(&copy);
}

/* Without a set, and of a view that was not opened. */
static void walk_none(bitpacking_set_cursor *cursor)
{
    const bitpacking_set set = BITPACKING_SET_EMPTY;

    len = at = 0;
    walks(cursor);
    bitpacking_set_cursor_start(cursor, &set);
    walks(cursor);
}

int main(void)
{
    bitpacking_set_cursor cursor = BITPACKING_SET_CURSOR_EMPTY;
    uint32_t k;

    walk_none(&cursor);
    memset(&cursor, 0, sizeof cursor);
    walk_none(&cursor);
    for (k = 0; k < SETS; k++) {
        draw_ids(k % FORMS);
        walk_set(&cursor);
    }
    printf("%d sets\n", SETS);
    return failed;
}
