/* What the files of the extension share. A value is a set of ids: an idset has ids from 0 to 4294967295, an idset8 ids below 2^64. PostgreSQL puts the
 * length of a value first. The bytes after it are an id set or a wide set (docs/FORMAT.md), so each set has one form. PostgreSQL keeps the bytes
 * unchanged during a call. They may be at any address.
 *
 * The files that both types need are compiled twice: each by itself for idset, and all in idset8.c, which defines WIDE, for idset8. */
#ifndef IDSET_H
#define IDSET_H

#include "postgres.h"
#include "fmgr.h"
#if PG_VERSION_NUM >= 160000
#include "varatt.h"
#endif
#include "bitpacking.h"

/* How many ids are read at once. */
enum { PIECE = 1024 };

/* Of a type: its ids, a view of its bytes, the calls of the library and the names in SQL; the greatest id, the greatest that is a bigint, and the
 * longest in a text, with its comma; the room that its bytes take at most; how many bytes of work space an id takes while sets are combined. */
#ifdef WIDE
typedef uint64_t set_id;
typedef bitpacking_wide_set set_view;
#define NO_IDS BITPACKING_WIDE_SET_EMPTY
#define CALL(name) bitpacking_wide_set_##name
#define SQL(name) idset8_##name
#define TYPE_NAME "idset8"
#define ID_RANGE "The ids of an idset8 are from 0 to 18446744073709551615."
#define DIGITS_OF pg_ulltoa_n
enum { LONGEST_ID = 21, WORK_ITEM = sizeof(set_id) + sizeof(uint32) };
#define MOST_ID UINT64_MAX
#define MOST_NUMBER INT64_MAX
#define ROOM(len) BITPACKING_WIDE_SET_ROOM(len)
#define SHARED static
#else
typedef uint32 set_id;
typedef bitpacking_set set_view;
#define NO_IDS BITPACKING_SET_EMPTY
#define CALL(name) bitpacking_set_##name
#define SQL(name) idset_##name
#define TYPE_NAME "idset"
#define ID_RANGE "The ids of an idset are from 0 to 4294967295."
#define DIGITS_OF pg_ultoa_n
enum { LONGEST_ID = 11, WORK_ITEM = sizeof(uint32) };
#define MOST_ID UINT32_MAX
#define MOST_NUMBER UINT32_MAX
#define ROOM(len) BITPACKING_SET_ROOM(len)
#define SHARED extern
#endif

/* Begins a function of SQL, by its name after idset_ or idset8_. */
#define FUNCTION(name)                                                                                                                 \
    PG_FUNCTION_INFO_V1(SQL(name));                                                                                                    \
    Datum SQL(name)(PG_FUNCTION_ARGS)

/* PostgreSQL loads all extensions into one space of names. */
#pragma GCC visibility push(hidden)

/* bytes.c: from bytes to sets, and back. */
SHARED char *text_of(ptrdiff_t number);
SHARED void refuse(ptrdiff_t number) pg_attribute_noreturn();
SHARED set_view opened(struct varlena *value);
SHARED set_view opened_argument(FunctionCallInfo fcinfo, int number);
SHARED struct varlena *ended(struct varlena *value, size_t size);
SHARED struct varlena *packed(const set_id *ids, size_t len);

/* values.c: numbers of PostgreSQL, and arrays of ids. */
SHARED set_id *new_ids(size_t len);
SHARED void sort_ids(set_id *ids, size_t len);
SHARED size_t made_set(set_id *ids, size_t len);
SHARED size_t kept_odd(set_id *ids, size_t len);
SHARED const char *read_digits(const char *at, set_id *id, bool *fits);
SHARED set_id as_id(int64 number);
SHARED int64 as_number(set_id id);
SHARED size_t rank_of(const set_view *set, int64 number);

/* arrays.c: arrays of PostgreSQL. */
struct ArrayType;
SHARED struct ArrayType *new_array(Oid type, size_t size, size_t len);

/* sets.c: what sets have together. */
SHARED ptrdiff_t combine(uint32 operation, const set_view *sets, size_t count, struct varlena **value);
SHARED Datum combined(uint32 operation, const set_view *sets, size_t count);

/* idset.c and idset8.c: calls of the library that differ. The first packs ids. The next two are the room of a combination, in ids, and the
 * combination of sets, two of them for idset8, which combine_many does with any number. Then: how many ids two sets share, how many any of many
 * sets has, how many are from one id to another, and whether a set has fewer ids together than a chunk. */
SHARED ptrdiff_t pack(const set_id *ids, size_t len, uint8_t *bytes, size_t room);
SHARED size_t work_items(uint32 operation, const set_view *sets, size_t count);
SHARED ptrdiff_t combine_into(uint32 operation, const set_view *sets, size_t count, void *work, size_t items, uint8_t *bytes, size_t room);
SHARED ptrdiff_t combine_many(uint32 operation, const set_view *sets, size_t count, struct varlena **value);
SHARED ptrdiff_t count_common(const set_view *sets);
SHARED ptrdiff_t count_any(const set_view *sets, size_t count);
SHARED size_t count_between(const set_view *set, set_id low, set_id high);
SHARED bool is_sparse(const set_view *set);

#ifndef WIDE
/* query.c: queries of ids with AND, OR and NOT. Whether a set has an id is asked of `has`, with the number of the id in the query. */
typedef struct idset_query idset_query;
typedef bool has_id(void *state, uint32 id, bool negated, size_t number);
idset_query *query_of(Datum value);
bool holds(const idset_query *query, has_id *has, void *state);
size_t query_ids(const idset_query *query, Datum *ids);
typedef double share_of_id(void *state, uint32 id);
double share_of_query(const idset_query *query, share_of_id *share, void *state);
#endif

#pragma GCC visibility pop

#endif
