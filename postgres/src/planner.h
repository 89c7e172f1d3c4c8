/* What the files for the planner share. */
#ifndef IDSET_PLANNER_H
#define IDSET_PLANNER_H

#include "idset.h"

#include "nodes/pathnodes.h"
#include "utils/lsyscache.h"
#include "utils/selfuncs.h"

/* The rows of unnest, if nothing is known, and the share of sets that an operator returns. */
enum { UNKNOWN_IDS = 1000 };
#define UNKNOWN_SHARE 0.01

/* How many numbers are stored after the shares of the common ids. */
enum { COMMON_MORE = 4 };

/* PostgreSQL 17 has the target of the statistics of a column at another place. */
#if PG_VERSION_NUM >= 170000
#define statistics_target(stats) ((stats)->attstattarget)
#else
#define statistics_target(stats) ((stats)->attr->attstattarget)
#endif

/* The functions whose answers are estimated. They are known by their address, whatever their name in SQL. */
extern PGDLLEXPORT Datum idset_in(PG_FUNCTION_ARGS), idset_contains(PG_FUNCTION_ARGS), idset_is_in(PG_FUNCTION_ARGS);
extern PGDLLEXPORT Datum idset_contains_all(PG_FUNCTION_ARGS), idset_contained(PG_FUNCTION_ARGS), idset_overlaps(PG_FUNCTION_ARGS);
extern PGDLLEXPORT Datum idset_matches(PG_FUNCTION_ARGS), idset_query_matches(PG_FUNCTION_ARGS), idset_intersect(PG_FUNCTION_ARGS);
extern PGDLLEXPORT Datum idset_unite(PG_FUNCTION_ARGS), idset_subtract(PG_FUNCTION_ARGS), idset_symmetric_difference(PG_FUNCTION_ARGS);
extern PGDLLEXPORT Datum idset_add(PG_FUNCTION_ARGS), idset_remove(PG_FUNCTION_ARGS);
extern PGDLLEXPORT Datum idset_range(PG_FUNCTION_ARGS), idset_slice(PG_FUNCTION_ARGS);

#pragma GCC visibility push(hidden)

/* What ANALYZE stored of an expression whose values are sets. */
typedef struct {
    AttStatsSlot common, counts; /* the common ids with their shares; how many ids the sets have */
    double nulls, ids, other;    /* the shares of nulls and of an id that is not common; the average number of ids */
} known_sets;

/* What is asked of a set: whether it has an id, all ids of another set, or any of them; whether it has no other ids than another set; whether
 * a query is true of it. */
typedef enum { OTHER_CALL, HAS_ID, HAS_ALL, HAS_ANY, IS_WITHIN, HOLDS } asked_of;

/* estimates.c */
bool get_known(PlannerInfo *root, Node *node, int relation, known_sets *it);
void free_known(known_sets *it);
double share_of(const known_sets *it, int64 id);
double different_of(const known_sets *it);
PGFunction address_of(Oid function);
bool is_set(Node *node);
double ids_of(PlannerInfo *root, Node *node);

/* selectivity.c: estimates the share of rows, or of pairs of rows, that make a function true. Returns -1 if it does not know the function. */
double share_of_rows(PlannerInfo *root, Oid function, List *args, int relation);

#pragma GCC visibility pop

#endif
