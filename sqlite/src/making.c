/* Sets of numbers: idset(..) of its arguments, and the aggregate idset_pack of the numbers of rows. */
#include "idset.h"

/* Room for the bitmap of fewer than 128 ids, which take few bytes as a set: 127 containers of one id each take 1,278. */
enum { FEW_ROOM = 1278 };

/* A text that is read, and where. */
typedef struct {
    const char *start, *at, *end;
} reader;

static int gather(sqlite3_context *context, gathered *it, uint32_t id)
{
    if (it->len == it->room && !make_room(it, 1)) {
        sqlite3_result_error_nomem(context);
        return 0;
    }
    it->ids[it->len++] = id;
    return 1;
}

static void skip_spaces(reader *it)
{
    while (it->at < it->end && strchr(" \t\n\r", *it->at) && *it->at)
        it->at++;
}

static int is_next(const reader *it, char wanted) { return it->at < it->end && *it->at == wanted; }

static int is_digit(const reader *it) { return it->at < it->end && *it->at >= '0' && *it->at <= '9'; }

static int refuse_json(sqlite3_context *context, const reader *it, int number)
{
    refuse(context, "argument %d is not a JSON array of integers: byte %lld is wrong", number + 1, (long long)(it->at - it->start) + 1);
    return 0;
}

/* Reads an integer of JSON, which is to be an id, and spaces around it. */
static int read_id(sqlite3_context *context, reader *it, int number, uint32_t *id)
{
    const char *start;
    uint64_t integer = 0;
    int negative;

    skip_spaces(it);
    start = it->at;
    it->at += negative = is_next(it, '-');
    if (!is_digit(it))
        return refuse_json(context, it, number);
    for (; is_digit(it) && (integer > 0 || it->at == start + negative); it->at++)
        integer = integer > UINT32_MAX ? integer : 10 * integer + (uint64_t)(*it->at - '0');
    if (integer > UINT32_MAX || (negative && integer > 0)) {
        refuse(context, "argument %d has %.*s, and not an id from 0 to 4294967295", number + 1,
               (int)(it->at - start < 40 ? it->at - start : 40), start);
        return 0;
    }
    *id = (uint32_t)integer;
    skip_spaces(it);
    return 1;
}

/* Gathers the ids of a JSON array. */
static int gather_json(sqlite3_context *context, sqlite3_value **values, int number, gathered *to)
{
    const char *text = (const char *)sqlite3_value_text(values[number]);
    reader it = {text, text, text ? text + sqlite3_value_bytes(values[number]) : NULL};
    uint32_t id;
    int more;

    if (!text) {
        sqlite3_result_error_nomem(context);
        return 0;
    }
    skip_spaces(&it);
    if (!is_next(&it, '['))
        return refuse_json(context, &it, number);
    it.at++;
    skip_spaces(&it);
    for (more = !is_next(&it, ']'); more; it.at += more) {
        if (!read_id(context, &it, number, &id) || !gather(context, to, id))
            return 0;
        more = is_next(&it, ',');
    }
    if (!is_next(&it, ']'))
        return refuse_json(context, &it, number);
    it.at++;
    skip_spaces(&it);
    return it.at == it.end ? 1 : refuse_json(context, &it, number);
}

/* Gathers the ids of a set. */
static int gather_set(sqlite3_context *context, sqlite3_value **values, int number, gathered *to)
{
    bitpacking_set set = BITPACKING_SET_EMPTY;
    size_t len;

    if (!opened(context, values, number, &set))
        return 0;
    len = bitpacking_set_len(&set);
    if (!make_room(to, len)) {
        sqlite3_result_error_nomem(context);
        return 0;
    }
    to->len += (size_t)bitpacking_set_unpack(&set, to->ids + to->len, len);
    return 1;
}

/* Gathers the ids of an argument: of an array, of a set, or one id. */
static int gather_argument(sqlite3_context *context, sqlite3_value **values, int number, gathered *to)
{
    int type = sqlite3_value_type(values[number]);
    uint32_t id;

    if (type == SQLITE_TEXT)
        return gather_json(context, values, number, to);
    if (type == SQLITE_BLOB)
        return gather_set(context, values, number, to);
    return id_of(context, values, number, &id) && gather(context, to, id);
}

/* Returns gathered ids as a set from a function, and frees them. */
static void result_gathered(sqlite3_context *context, gathered *it)
{
    if (settle(it))
        result_ids(context, it->ids, it->len);
    else
        sqlite3_result_error_nomem(context);
    sqlite3_free(it->ids);
}

/* The set of all ids of the arguments. A set alone is tested and returned. */
void idset_make(sqlite3_context *context, int count, sqlite3_value **values)
{
    bitpacking_set set = BITPACKING_SET_EMPTY;
    gathered it = {0};
    int i;

    if (has_null(count, values))
        return;
    if (count == 1 && sqlite3_value_type(values[0]) == SQLITE_BLOB) {
        if (opened(context, values, 0, &set))
            sqlite3_result_value(context, values[0]);
        return;
    }
    for (i = 0; i < count; i++)
        if (!gather_argument(context, values, i, &it)) {
            sqlite3_free(it.ids);
            return;
        }
    result_gathered(context, &it);
}

static ptrdiff_t write_of_roaring(const source *from, uint32_t *work, size_t items, uint8_t *bytes, size_t room)
{
    return bitpacking_set_from_roaring(from->data, from->len, work, items, bytes, room);
}

/* The set of a bitmap. */
void idset_from_roaring(sqlite3_context *context, int count, sqlite3_value **values)
{
    const uint8_t *roaring = sqlite3_value_blob(values[0]);
    const source from = {roaring, (size_t)sqlite3_value_bytes(values[0]), 0};
    char room[WHY_ROOM];
    uint8_t *bytes;
    ptrdiff_t size;

    if (has_null(count, values))
        return;
    if (sqlite3_value_type(values[0]) != SQLITE_BLOB) {
        refuse(context, "argument 1 is not a blob, and so not a bitmap");
        return;
    }
    if (!roaring && from.len > 0) {
        sqlite3_result_error_nomem(context);
        return;
    }
    size = written(write_of_roaring, &from, bitpacking_set_from_roaring_room(roaring, from.len), from.len / 4 * 5 + 16, &bytes);
    if (size >= 0)
        sqlite3_result_blob64(context, bytes, (size_t)size, sqlite3_free);
    else if (size == NO_MEMORY || size == BITPACKING_TOO_LONG)
        refuse_fault(context, size);
    else
        refuse(context, "argument 1 is not a bitmap of Roaring: %s", why_of(size, room));
}

static ptrdiff_t write_shifted(const source *from, uint32_t *work, size_t items, uint8_t *bytes, size_t room)
{
    return bitpacking_set_shift(from->data, from->number, work, items, bytes, room);
}

/* The set with a number added to each id, without ids that leave their range. */
void idset_shift(sqlite3_context *context, int count, sqlite3_value **values)
{
    bitpacking_set set = BITPACKING_SET_EMPTY;
    source from = {&set, 1, 0};
    sqlite3_int64 by;
    uint8_t *bytes;
    ptrdiff_t size;

    if (has_null(count, values) || !opened(context, values, 0, &set) || !integer_of(context, values, 1, &by))
        return;
    from.number = by;
    size = written(write_shifted, &from, bitpacking_set_shift_room(&set), set.bytes_len / 4 * 5 + 16, &bytes);
    if (size < 0)
        refuse_fault(context, size);
    else
        sqlite3_result_blob64(context, bytes, (size_t)size, sqlite3_free);
}

/* The ids of a set as a bitmap. To measure it first takes half as long as to write it. Room for twice the bytes of the set, or for few ids, is usually
 * enough. */
void idset_to_roaring(sqlite3_context *context, int count, sqlite3_value **values)
{
    bitpacking_set set = BITPACKING_SET_EMPTY;
    uint8_t *bytes = NULL;
    size_t size, room = 0;

    if (has_null(count, values) || !opened(context, values, 0, &set))
        return;
    for (size = 2 * set.bytes_len + FEW_ROOM; size > room;) {
        room = size;
        sqlite3_free(bytes);
        if (!(bytes = sqlite3_malloc64(room))) {
            sqlite3_result_error_nomem(context);
            return;
        }
        size = bitpacking_set_to_roaring(&set, bytes, room);
    }
    sqlite3_result_blob64(context, shortened(bytes, size), size, sqlite3_free);
}

/* The state of idset_pack. */
typedef struct {
    gathered numbers;
    int failed;
} packing;

/* Takes the number of a row. */
void idset_gather(sqlite3_context *context, int count, sqlite3_value **values)
{
    packing *it;
    uint32_t id;

    (void)count;
    if (sqlite3_value_type(values[0]) == SQLITE_NULL)
        return;
    if (!(it = sqlite3_aggregate_context(context, sizeof *it)))
        sqlite3_result_error_nomem(context);
    else
        it->failed = !id_of(context, values, 0, &id) || !gather(context, &it->numbers, id);
}

/* The set of the numbers of all rows, or null if there is none. */
void idset_gathered(sqlite3_context *context)
{
    packing *it = sqlite3_aggregate_context(context, 0);

    if (it && !it->failed)
        result_gathered(context, &it->numbers);
    else if (it)
        sqlite3_free(it->numbers.ids);
}
