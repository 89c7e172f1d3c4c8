/* What the files of the extension share. A set is a blob with the bytes of an id set, as docs/FORMAT.md has them. Its ids are numbers from 0 to
 * 4294967295. SQLite gives a function blobs of any origin, and leaves their bytes unchanged during a call. */
#ifndef IDSET_H
#define IDSET_H

#include <stddef.h>
#include <stdint.h>
#include <string.h>

#include <bitpacking.h>
#include <sqlite3ext.h>
SQLITE_EXTENSION_INIT3

/* The most ids of a set, and the most sets that a function combines. */
enum { MOST_IDS = 268435456, MOST_SETS = 1000 };

/* What a call returns beside the errors of the library, which are negative too. */
#define NO_MEMORY PTRDIFF_MIN

typedef void scalar(sqlite3_context *context, int count, sqlite3_value **values);

/* A blob that was opened in an earlier call. Its bytes are copied if it comes again. */
typedef struct {
    const void *at;
    size_t len;
    uint8_t *copy;
} tested_blob;

/* What the functions of a connection share: how many they are, and blobs that were tested. Only one call runs in a connection at once. */
enum { TESTED = 8, MAX_TESTED = 1 << 20 };
typedef struct {
    int users;
    tested_blob tested[TESTED];
} shared;

/* The user data of a function. */
typedef struct {
    const char *name;
    shared *connection;
    uint32_t operation;
} function;

/* arguments.c: what a function was given, and how it fails. Arguments are counted from 0 here, and from 1 in errors. */
enum { WHY_ROOM = 120 };
const char *why_of(ptrdiff_t fault, char room[WHY_ROOM]);
void refuse(sqlite3_context *context, const char *form, ...);
void refuse_fault(sqlite3_context *context, ptrdiff_t fault);
uint32_t operation_of(sqlite3_context *context);
int has_null(int count, sqlite3_value **values);
int opened(sqlite3_context *context, sqlite3_value **values, int number, bitpacking_set *set);
int integer_of(sqlite3_context *context, sqlite3_value **values, int number, sqlite3_int64 *integer);
int id_of(sqlite3_context *context, sqlite3_value **values, int number, uint32_t *id);
size_t rank_of(const bitpacking_set *set, sqlite3_int64 integer);

/* ids.c: arrays of ids, and the results of functions. What returns a length returns a negative number if it fails. */
typedef struct {
    uint32_t *ids;
    size_t len, room;
} gathered;
uint32_t *new_ids(size_t len);
int make_room(gathered *it, size_t more);
int settle(gathered *it);
ptrdiff_t packed(const uint32_t *ids, size_t len, uint8_t **bytes);
uint8_t *shortened(uint8_t *bytes, size_t len);

/* What a set is written from: a bitmap or sets, how many bytes or sets these are, and what is added to ids or which operation combines sets. */
typedef struct {
    const void *data;
    size_t len;
    int64_t number;
} source;

/* Writes a set with work space into room, and returns its number of bytes or an error. */
typedef ptrdiff_t set_writer(const source *from, uint32_t *work, size_t items, uint8_t *bytes, size_t room);
ptrdiff_t written(set_writer *call, const source *from, size_t items, size_t room, uint8_t **bytes);
void result_ids(sqlite3_context *context, const uint32_t *ids, size_t len);

/* combining.c: sets of many sets. */
ptrdiff_t joined(uint32_t operation, const bitpacking_set *views, size_t views_len, uint8_t **bytes);

/* The functions of SQL. The aggregates have two each. */
scalar idset_make, idset_from_roaring, idset_to_roaring, idset_len, idset_min, idset_max, idset_contains, idset_rank, idset_seek, idset_range;
scalar idset_describe, idset_shift, idset_add, idset_remove, idset_combine, idset_combine_len, idset_gather, idset_collect;
void idset_gathered(sqlite3_context *context);
void idset_collected(sqlite3_context *context);
extern const sqlite3_module idset_each;

#endif
