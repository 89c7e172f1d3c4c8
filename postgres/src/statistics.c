/* What ANALYZE stores of a column of sets beside what it stores of each type: the most common ids, as of the elements of an array, and how many
 * ids the sets have. It looks at sets of any size, and at a random part of their ids. */
#include "planner.h"

#include "access/detoast.h"
#include "catalog/pg_type.h"
#include "commands/vacuum.h"
#include "common/pg_prng.h"
#include "miscadmin.h"
#include "utils/typcache.h"

/* The most ids that are looked at, and the bytes of the sets that are read. An id that came fewer times is not common. */
enum { MOST_IDS = 1 << 21, MOST_BYTES = 1 << 26, LEAST_SEEN = 10 };

/* What computes the statistics of each type. */
typedef struct {
    AnalyzeAttrComputeStatsFunc compute;
    void *data;
} usual;

/* Ids of the sets that were read: on average one of `step`. `skip` ids come before the next one that is taken. `all` counts all ids. */
typedef struct {
    uint32 *ids, *counts;
    size_t len, sets, step, skip;
    double all;
} sample;

typedef struct {
    uint32 id, seen;
} common_id;

/* Keeps each second id of a full sample. */
static void thin(sample *it)
{
    for (size_t i = 0; i < it->len / 2; i++)
        it->ids[i] = it->ids[2 * i];
    it->len /= 2;
    it->step *= 2;
}

static void add_set(sample *it, const bitpacking_set *set)
{
    size_t len = bitpacking_set_len(set), from, count;
    uint32 ids[PIECE];

    it->counts[it->sets++] = (uint32)len;
    it->all += (double)len;
    for (from = it->skip; from < len; from = Max(from + count, it->skip)) {
        CHECK_FOR_INTERRUPTS();
        count = (size_t)bitpacking_set_slice(set, from, ids, PIECE);
        for (; it->skip < from + count; it->skip += 1 + (it->step > 1 ? pg_prng_uint64_range(&pg_global_prng_state, 0, 2 * it->step - 2) : 0)) {
            if (it->len == MOST_IDS)
                thin(it);
            it->ids[it->len++] = ids[it->skip - from];
        }
    }
    it->skip -= len;
}

/* Reads the sets of the rows. If these have too many bytes, it reads the sets of some of the rows, at even distances. */
static sample sampled(VacAttrStats *stats, AnalyzeAttrFetchFunc fetch, int rows)
{
    sample it = {new_ids(MOST_IDS), new_ids((size_t)rows), 0, 0, 1, 0, 0};
    uint64 bytes = 0;
    bool null;

    for (int row = 0; row < rows; row++) {
        Datum value = fetch(stats, row, &null);

        bytes += null ? 0 : toast_raw_datum_size(value);
    }
    for (int row = 0; row < rows; row += (int)(bytes / MOST_BYTES) + 1) {
        Datum value = fetch(stats, row, &null);
        struct varlena *read;
        bitpacking_set set;

        vacuum_delay_point();
        if (null)
            continue;
        read = PG_DETOAST_DATUM_PACKED(value);
        set = opened(read);
        add_set(&it, &set);
        if (read != (struct varlena *)DatumGetPointer(value))
            pfree(read);
    }
    return it;
}

static int by_seen(const void *a, const void *b)
{
    uint32 one = ((const common_id *)a)->seen, other = ((const common_id *)b)->seen;

    return one > other ? -1 : one < other;
}

static int by_id(const void *a, const void *b)
{
    uint32 one = ((const common_id *)a)->id, other = ((const common_id *)b)->id;

    return one < other ? -1 : one > other;
}

/* Writes the ids that were seen often, and returns their number. `different` ids were seen, `once` of them once. */
static size_t seen_often(sample *it, common_id *often, size_t *different, size_t *once)
{
    size_t count = 0, i, next;

    *different = *once = 0;
    sort_ids(it->ids, it->len);
    for (i = 0; i < it->len; i = next, ++*different) {
        for (next = i + 1; next < it->len && it->ids[next] == it->ids[i]; next++)
            ;
        *once += next == i + 1;
        if (next - i >= LEAST_SEEN)
            often[count++] = (common_id){it->ids[i], (uint32)(next - i)};
    }
    return count;
}

/* How many different ids all sets have, by the estimator of Haas and Stokes that PostgreSQL uses for values. */
static double different_ids(const sample *it, size_t different, size_t once, double all)
{
    double len = (double)it->len, found = len - (double)once + (double)once * len / Max(all, len);

    return Min(Max(len * (double)different / Max(found, 1), (double)different), (double)UINT32_MAX + 1);
}

/* Stores numbers of a kind in a free slot. Returns false if all slots have statistics. */
static bool new_slot(VacAttrStats *stats, int16 kind, float4 *numbers, int len, int *slot)
{
    for (*slot = 0; *slot < STATISTIC_NUM_SLOTS && stats->stakind[*slot] != 0; ++*slot)
        ;
    if (*slot == STATISTIC_NUM_SLOTS)
        return false;
    stats->stakind[*slot] = kind;
    stats->staop[*slot] = lookup_type_cache(INT8OID, TYPECACHE_EQ_OPR)->eq_opr;
    stats->stanumbers[*slot] = numbers;
    stats->numnumbers[*slot] = len;
    return true;
}

/* Stores the common ids, and the share of sets that have each. After the shares come the least and the greatest of them, 0 for nulls, which no
 * set has, and the share of an id that is not common. */
static void store_common(VacAttrStats *stats, sample *it, double rows)
{
    common_id *often = palloc(sizeof *often * (it->len / LEAST_SEEN + 1));
    size_t different, once, count = seen_often(it, often, &different, &once), i;
    double sets = (double)it->sets, share = it->len ? it->all / (double)it->len / sets : 0, others = it->all / sets;
    float4 *numbers;
    Datum *ids;
    int slot;

    qsort(often, count, sizeof *often, by_seen);
    count = Min(count, 10 * (size_t)statistics_target(stats));
    qsort(often, count, sizeof *often, by_id);
    numbers = MemoryContextAllocZero(stats->anl_context, sizeof(float4) * (count + COMMON_MORE));
    ids = MemoryContextAlloc(stats->anl_context, sizeof(Datum) * (count + 1));
    for (i = 0; i < count; i++) {
        numbers[i] = (float4)Min(often[i].seen * share, 1);
        ids[i] = Int64GetDatum(often[i].id);
        others -= numbers[i];
        numbers[count] = i ? Min(numbers[count], numbers[i]) : numbers[i];
        numbers[count + 1] = Max(numbers[count + 1], numbers[i]);
    }
    numbers[count + 3] = (float4)(Max(others, 0) / Max(different_ids(it, different, once, it->all / sets * rows) - (double)count, 1));
    if (!new_slot(stats, STATISTIC_KIND_MCELEM, numbers, (int)count + COMMON_MORE, &slot))
        return;
    stats->stavalues[slot] = ids;
    stats->numvalues[slot] = (int)count;
    stats->statypid[slot] = INT8OID;
    stats->statyplen[slot] = sizeof(int64);
    stats->statypbyval[slot] = FLOAT8PASSBYVAL;
    stats->statypalign[slot] = TYPALIGN_DOUBLE;
}

/* Stores how many ids the sets have, from the fewest to the most in even steps, and last their average. */
static void store_counts(VacAttrStats *stats, sample *it)
{
    int steps = Max(statistics_target(stats), 1), slot;
    float4 *numbers = MemoryContextAlloc(stats->anl_context, sizeof(float4) * (size_t)(steps + 2));

    sort_ids(it->counts, it->sets);
    for (int i = 0; i <= steps; i++)
        numbers[i] = (float4)it->counts[(it->sets - 1) * (size_t)i / (size_t)steps];
    numbers[steps + 1] = (float4)(it->all / (double)it->sets);
    new_slot(stats, STATISTIC_KIND_DECHIST, numbers, steps + 2, &slot);
}

static void compute(VacAttrStats *stats, AnalyzeAttrFetchFunc fetch, int rows, double all_rows)
{
    usual *before = stats->extra_data;
    sample it;

    stats->extra_data = before->data;
    before->compute(stats, fetch, rows, all_rows);
    stats->extra_data = before;
    it = sampled(stats, fetch, rows);
    if (it.sets > 0) {
        store_common(stats, &it, all_rows * (1 - stats->stanullfrac));
        store_counts(stats, &it);
    }
    pfree(it.ids);
    pfree(it.counts);
}

PG_FUNCTION_INFO_V1(idset_typanalyze);
Datum idset_typanalyze(PG_FUNCTION_ARGS)
{
    VacAttrStats *stats = (VacAttrStats *)PG_GETARG_POINTER(0);
    usual *before;

    if (!std_typanalyze(stats))
        PG_RETURN_BOOL(false);
    before = palloc(sizeof *before);
    *before = (usual){stats->compute_stats, stats->extra_data};
    stats->compute_stats = compute;
    stats->extra_data = before;
    PG_RETURN_BOOL(true);
}
