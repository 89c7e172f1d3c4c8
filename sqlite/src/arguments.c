/* From the arguments of a function to opened sets and to numbers, and errors, which begin with the name of the function. */
#include "idset.h"

#include <stdarg.h>

/* Shorter blobs are tested as fast as they are compared. */
enum { FEW_BYTES = 256 };

static const char *const TYPES[] = {"", "an integer", "a real number", "text", "a blob", "null"};

/* A set that is constant in a statement, over a copy of its bytes. */
typedef struct {
    bitpacking_set set;
    size_t len;
    uint8_t bytes[];
} kept_set;

/* The auxdata of a constant argument after the first call. */
static kept_set seen_once;

/* What a negative number of the library means, within a sentence. */
const char *why_of(ptrdiff_t fault, char room[WHY_ROOM])
{
    sqlite3_snprintf(WHY_ROOM, room, "%s", bitpacking_error_text(fault));
    room[0] = (char)(room[0] | 32);
    room[strcspn(room, ".")] = 0;
    return room;
}

/* Fails with the words of a form. */
void refuse(sqlite3_context *context, const char *form, ...)
{
    va_list given;
    char *why, *text = NULL;

    va_start(given, form);
    why = sqlite3_vmprintf(form, given);
    va_end(given);
    if (why)
        text = sqlite3_mprintf("%s: %s", ((function *)sqlite3_user_data(context))->name, why);
    if (text)
        sqlite3_result_error(context, text, -1);
    else
        sqlite3_result_error_nomem(context);
    sqlite3_free(why);
    sqlite3_free(text);
}

/* Fails for want of memory, or with an error of the library that is about ids, and not about bytes. */
void refuse_fault(sqlite3_context *context, ptrdiff_t fault)
{
    char room[WHY_ROOM];

    if (fault == NO_MEMORY) {
        sqlite3_result_error_nomem(context);
        return;
    }
    refuse(context, "%s", why_of(fault, room));
    if (fault == BITPACKING_TOO_LONG)
        sqlite3_result_error_code(context, SQLITE_TOOBIG);
}

/* The operation on sets that a function runs. */
uint32_t operation_of(sqlite3_context *context) { return ((function *)sqlite3_user_data(context))->operation; }

/* Whether an argument is null: then a function returns null, and tests no other argument. */
int has_null(int count, sqlite3_value **values)
{
    int i;

    for (i = 0; i < count && sqlite3_value_type(values[i]) != SQLITE_NULL; i++)
        ;
    return i < count;
}

static int tested(sqlite3_context *context, int number, const uint8_t *bytes, size_t len, bitpacking_set *set)
{
    ptrdiff_t fault = bitpacking_set_open(bytes, len, set);
    char room[WHY_ROOM];

    if (fault < 0)
        refuse(context, "argument %d is not a set: %s", number + 1, why_of(fault, room));
    return fault == 0;
}

static uint8_t *copy_of(const uint8_t *bytes, size_t len)
{
    uint8_t *copy = sqlite3_malloc64(len);

    return copy ? memcpy(copy, bytes, len) : NULL;
}

/* Opens a blob. If an earlier call was given the same bytes, as each row is by a subquery, they are not tested again. */
static int tested_once(sqlite3_context *context, int number, const uint8_t *bytes, size_t len, bitpacking_set *set)
{
    shared *connection = ((function *)sqlite3_user_data(context))->connection;
    tested_blob *it = &connection->tested[((uintptr_t)bytes >> 4 ^ len) % TESTED];
    int again = it->at == bytes && it->len == len;

    if (len < FEW_BYTES)
        return tested(context, number, bytes, len, set);
    if (again && it->copy && memcmp(it->copy, bytes, len) == 0) {
        bitpacking_set_open_tested(bytes, len, set);
        return 1;
    }
    sqlite3_free(it->copy);
    *it = (tested_blob){bytes, len, NULL};
    if (!tested(context, number, bytes, len, set))
        return 0;
    if (again && len <= MAX_TESTED)
        it->copy = copy_of(bytes, len);
    return 1;
}

/* Keeps a set of a constant argument until the statement ends. The second call does so. */
static void keep(sqlite3_context *context, int number, const uint8_t *bytes, size_t len)
{
    kept_set *kept = sqlite3_malloc64(sizeof *kept + len);

    if (!kept)
        return;
    memcpy(kept->bytes, bytes, len);
    kept->len = len;
    bitpacking_set_open_tested(kept->bytes, len, &kept->set);
    sqlite3_set_auxdata(context, number, kept, sqlite3_free);
}

/* Opens an argument, and returns whether it is a set. Otherwise the call has failed. */
int opened(sqlite3_context *context, sqlite3_value **values, int number, bitpacking_set *set)
{
    int type = sqlite3_value_type(values[number]);
    const uint8_t *bytes = type == SQLITE_BLOB ? sqlite3_value_blob(values[number]) : NULL;
    size_t len = type == SQLITE_BLOB ? (size_t)sqlite3_value_bytes(values[number]) : 0;
    kept_set *kept = sqlite3_get_auxdata(context, number);

    if (type != SQLITE_BLOB) {
        refuse(context, "argument %d is %s, and not a set: idset(..) makes one", number + 1, TYPES[type]);
        return 0;
    }
    if (!bytes && len > 0) {
        sqlite3_result_error_nomem(context);
        return 0;
    }
    if (kept && kept != &seen_once && kept->len == len) {
        *set = kept->set;
        return 1;
    }
    if (!tested_once(context, number, bytes, len, set))
        return 0;
    if (kept)
        keep(context, number, bytes, len);
    else
        sqlite3_set_auxdata(context, number, &seen_once, NULL);
    return 1;
}

/* Reads an integer, also from a text that is one. Returns whether there is one. Otherwise the call has failed. */
int integer_of(sqlite3_context *context, sqlite3_value **values, int number, sqlite3_int64 *integer)
{
    int type = sqlite3_value_type(values[number]);
    int is_integer = type == SQLITE_INTEGER || (type == SQLITE_TEXT && sqlite3_value_numeric_type(values[number]) == SQLITE_INTEGER);

    if (is_integer)
        *integer = sqlite3_value_int64(values[number]);
    else
        refuse(context, "argument %d is %s, and not an integer", number + 1, TYPES[type]);
    return is_integer;
}

/* Reads an integer that is to be an id of a set. */
int id_of(sqlite3_context *context, sqlite3_value **values, int number, uint32_t *id)
{
    sqlite3_int64 integer;

    if (!integer_of(context, values, number, &integer))
        return 0;
    if (integer < 0 || integer > UINT32_MAX) {
        refuse(context, "argument %d is %lld, and not an id from 0 to 4294967295", number + 1, integer);
        return 0;
    }
    *id = (uint32_t)integer;
    return 1;
}

/* How many ids of a set are below an integer. */
size_t rank_of(const bitpacking_set *set, sqlite3_int64 integer)
{
    if (integer > UINT32_MAX)
        return bitpacking_set_len(set);
    return integer <= 0 ? 0 : bitpacking_set_rank(set, (uint32_t)integer);
}
