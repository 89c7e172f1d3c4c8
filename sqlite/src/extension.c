/* What SQLite calls when it loads the extension: the functions of SQL, by name. */
#include "idset.h"
SQLITE_EXTENSION_INIT1

typedef void final(sqlite3_context *context);

/* Each function: its name, how many arguments it takes, any number if -1, what runs it, and the operation on sets, or 0. */
static const struct {
    const char *name;
    int arguments;
    scalar *run;
    final *end;
    uint32_t operation;
} FUNCTIONS[] = {
    {"idset", -1, idset_make, NULL, 0},
    {"idset_from_roaring", 1, idset_from_roaring, NULL, 0},
    {"idset_to_roaring", 1, idset_to_roaring, NULL, 0},
    {"idset_len", 1, idset_len, NULL, 0},
    {"idset_min", 1, idset_min, NULL, 0},
    {"idset_max", 1, idset_max, NULL, 0},
    {"idset_contains", 2, idset_contains, NULL, 0},
    {"idset_rank", 2, idset_rank, NULL, 0},
    {"idset_seek", 2, idset_seek, NULL, 0},
    {"idset_range", 3, idset_range, NULL, 0},
    {"idset_describe", 1, idset_describe, NULL, 0},
    {"idset_shift", 2, idset_shift, NULL, 0},
    {"idset_add", 2, idset_add, NULL, 0},
    {"idset_remove", 2, idset_remove, NULL, 0},
    {"idset_intersect", -1, idset_combine, NULL, BITPACKING_AND},
    {"idset_unite", -1, idset_combine, NULL, BITPACKING_OR},
    {"idset_subtract", -1, idset_combine, NULL, BITPACKING_AND_NOT},
    {"idset_xor", -1, idset_combine, NULL, BITPACKING_XOR},
    {"idset_intersect_len", -1, idset_combine_len, NULL, BITPACKING_AND},
    {"idset_unite_len", -1, idset_combine_len, NULL, BITPACKING_OR},
    {"idset_subtract_len", -1, idset_combine_len, NULL, BITPACKING_AND_NOT},
    {"idset_xor_len", -1, idset_combine_len, NULL, BITPACKING_XOR},
    {"idset_pack", 1, idset_gather, idset_gathered, 0},
    {"idset_unite_agg", 1, idset_collect, idset_collected, BITPACKING_OR},
    {"idset_intersect_agg", 1, idset_collect, idset_collected, BITPACKING_AND},
};
enum { COUNT = sizeof FUNCTIONS / sizeof *FUNCTIONS };

/* What a connection has of the extension. */
typedef struct {
    shared common;
    function functions[COUNT];
} loaded;

/* Frees what a connection has, with its last function. */
static void release(void *data)
{
    shared *connection = ((function *)data)->connection;
    int i;

    if (--connection->users > 0)
        return;
    for (i = 0; i < TESTED; i++)
        sqlite3_free(connection->tested[i].copy);
    sqlite3_free(connection);
}

static int add_function(sqlite3 *db, function *it, int i)
{
    int flags = SQLITE_UTF8 | SQLITE_DETERMINISTIC | SQLITE_INNOCUOUS, arguments = FUNCTIONS[i].arguments;
    final *end = FUNCTIONS[i].end;
    scalar *run = FUNCTIONS[i].run;

    return sqlite3_create_function_v2(db, it->name, arguments, flags, it, end ? NULL : run, end ? run : NULL, end, release);
}

/* SQLite finds this function by the name of the file, idset.so. */
__attribute__((visibility("default"))) int sqlite3_idset_init(sqlite3 *db, char **why, const sqlite3_api_routines *api)
{
    int status = SQLITE_OK, i;
    loaded *it;

    (void)why;
    SQLITE_EXTENSION_INIT2(api);
    if (!(it = sqlite3_malloc64(sizeof *it)))
        return SQLITE_NOMEM;
    memset(it, 0, sizeof *it);
    /* One user more until all functions are there. */
    it->common.users = 1;
    for (i = 0; i < COUNT && status == SQLITE_OK; i++) {
        it->functions[i] = (function){FUNCTIONS[i].name, &it->common, FUNCTIONS[i].operation};
        it->common.users++;
        status = add_function(db, &it->functions[i], i);
    }
    if (status == SQLITE_OK)
        status = sqlite3_create_module_v2(db, "idset_each", &idset_each, NULL, NULL);
    release(&it->functions[0]);
    return status;
}
