/* Random sets, columns and queries, whose answers are those of a scan: ids and values on both sides of 2^31, since vectors of words may be compared with
   a sign. Small loops run both ways of a call, by single words and by vectors. Prints what is wrong, and last how many cases there were. */
#include "bitpacking.h"
#include "tables.h"

enum { CASES = 300, SETS = 3, MOST = 1500, SPAN = 80000, CLASSES = 500, COUNTS = 4, BEST = 12 };
enum { PARTS = COUNTS * BITPACKING_CLASSES, BLOCKS = (MOST + 127) / 128 };

static uint32_t ids[SETS][MOST], lens[SETS], values[SETS][MOST], parts[PARTS];
static uint8_t set_bytes[SETS][BITPACKING_SET_ROOM(MOST)], column_bytes[SETS][BITPACKING_COLUMN_ROOM(MOST)], classes[CLASSES];
static bitpacking_set sets[SETS];
static bitpacking_column columns[SETS];
/* Ids are from here on; the sets that have each, as bits, and its position in each of these. */
static uint32_t base;
static uint8_t has[SPAN];
static uint16_t place[SETS][SPAN];
static uint32_t all[SETS * MOST], found[SETS * MOST];

/* Draws the ids of a set: many close ones, few far ones, or a run in a part of the span. */
static void draw_ids(size_t set)
{
    const uint32_t step = 1 + drawn(1 + drawn(drawn(2) ? 4 : 400)), most = drawn(4) == 0 ? drawn(140) : drawn(MOST);
    uint32_t at = drawn(SPAN / 8), len = 0;

    while (len < most && (at += 1 + drawn(step)) < SPAN) {
        place[set][at] = (uint16_t)len;
        ids[set][len++] = base + at;
        has[at] |= (uint8_t)(1u << set);
    }
    lens[set] = len;
}

static void open_set(size_t set)
{
    const bitpacking_set empty = BITPACKING_SET_EMPTY;
    const ptrdiff_t size = bitpacking_set_pack(ids[set], lens[set], set_bytes[set], sizeof set_bytes[set], NULL);

    sets[set] = empty;
    expect(size > 0 && bitpacking_set_open(set_bytes[set], (size_t)size, &sets[set]) == 0, "a set is not opened");
    expect(bitpacking_set_unpack(&sets[set], found, MOST) == (ptrdiff_t)lens[set], "another number of ids");
    expect(memcmp(found, ids[set], lens[set] * sizeof *found) == 0, "other ids");
}

/* The sets stand one after the other, before any bytes. */
static void streams(void)
{
    enum { TAIL = 9 };
    static uint8_t stream[sizeof set_bytes + TAIL];
    const uint8_t *at = stream;
    size_t set, len = 0;

    for (set = 0; set < SETS; len += sets[set++].bytes_len)
        memcpy(stream + len, set_bytes[set], sets[set].bytes_len);
    for (set = 0; set < TAIL; set++)
        stream[len++] = (uint8_t)drawn(256);
    for (set = 0; set < SETS; set++) {
        const size_t size = bitpacking_set_front_len(at, len);

        expect(size == sets[set].bytes_len, "another length of a set in a stream");
        expect(bitpacking_set_front_len(at, drawn((uint32_t)size)) == 0, "the length of a set that is cut");
        at += size, len -= size;
    }
    expect(len == TAIL && bitpacking_set_front_len(at, len) <= len, "the length of what is no set");
}

/* The ids that a combination of all sets has, by the bits of the sets that have an id. */
enum { IN_ALL, IN_ANY, IN_FIRST_ALONE, IN_AN_ODD_NUMBER };

static size_t scan(int combination)
{
    const uint8_t every = (1u << SETS) - 1;
    size_t at, len = 0;

    for (at = 0; at < SPAN; at++) {
        const uint8_t bits = has[at];
        const int is[] = {bits == every, bits != 0, bits == 1, (bits ^ bits >> 1 ^ bits >> 2) & 1};

        if (is[combination])
            all[len++] = base + (uint32_t)at;
    }
    return len;
}

static void are(ptrdiff_t answer, size_t len, const char *what)
{
    expect(answer == (ptrdiff_t)len && memcmp(found, all, len * sizeof *all) == 0, what);
}

static void combines(void)
{
    static const uint32_t steps[] = {0, 1, BITPACKING_XOR, 2, BITPACKING_XOR};
    uint64_t space[BITPACKING_QUERY_SPACE(2)], next = 0;
    size_t len = scan(IN_ALL), position;

    are(bitpacking_set_intersect(sets, SETS, found, SETS * MOST), len, "another AND");
    expect(bitpacking_set_count_common(sets, SETS) == (ptrdiff_t)len, "another count of an AND");
    len = scan(IN_ANY);
    are(bitpacking_set_unite(sets, SETS, found, SETS * MOST), len, "another OR");
    expect(bitpacking_set_count_any(sets, SETS) == (ptrdiff_t)len, "another count of an OR");
    are(bitpacking_set_subtract(sets, SETS, found, SETS * MOST), scan(IN_FIRST_ALONE), "another NOT");
    len = scan(IN_AN_ODD_NUMBER);
    are(bitpacking_set_query(sets, SETS, steps, 5, space, BITPACKING_QUERY_SPACE(2), &next, found, SETS * MOST, &position), len, "another query");
}

/* Searches of the first set, from any id on. */
static void searches(void)
{
    uint32_t below, id, target = base + drawn(SPAN);
    size_t position;

    for (below = 0; below < lens[0] && ids[0][below] < target; below++)
        continue;
    expect(bitpacking_set_rank(&sets[0], target) == below, "another rank");
    expect(bitpacking_set_seek(&sets[0], target, &position, &id) == (below < lens[0]), "another end of a set");
    expect(below == lens[0] || (position == below && id == ids[0][below]), "another id is found");
    expect(bitpacking_set_contains(&sets[0], target) == (below < lens[0] && ids[0][below] == target), "another member");
    expect(bitpacking_set_count_between(&sets[0], 0, target) == below + bitpacking_set_contains(&sets[0], target), "another count up to an id");
    expect(bitpacking_set_count_between(&sets[0], target, UINT32_MAX) == lens[0] - below, "another count from an id on");
    expect(bitpacking_set_count_between(&sets[0], target + 1, target) == 0, "a count of limits that are exchanged");
}

/* A column of as many values as a set has ids: counts of at most `below`, or any numbers of so many bits. */
static void open_column(size_t set, uint64_t below)
{
    const bitpacking_column empty = BITPACKING_COLUMN_EMPTY;
    const uint32_t least = drawn((UINT64_C(1) << 32) + 1 - below);
    uint32_t k;
    ptrdiff_t size;

    for (k = 0; k < lens[set]; k++)
        values[set][k] = below <= COUNTS ? 1 + drawn(below) : least + drawn(below);
    size = bitpacking_column_pack(BITPACKING_PLAIN, values[set], lens[set], column_bytes[set], sizeof column_bytes[set], NULL);
    columns[set] = empty;
    expect(size > 0 && bitpacking_column_open(column_bytes[set], (size_t)size, &columns[set]) == 0, "a column is not opened");
}

/* The positions of values between limits that are two of the values, or any. */
static void looks_between(void)
{
    static size_t positions[MOST];
    const uint32_t one = lens[0] && drawn(2) ? values[0][drawn(lens[0])] : drawn(UINT64_C(1) << 32);
    const uint32_t other = lens[0] ? values[0][drawn(lens[0])] : 0, low = one < other ? one : other, high = one < other ? other : one;
    size_t k, len = 0, right = 1, count = bitpacking_column_between(&columns[0], low, high, 0, positions, MOST);

    for (k = 0; k < lens[0]; k++)
        if (low <= values[0][k] && values[0][k] <= high)
            right &= len < count && positions[len++] == k;
    expect(right && len == count, "other positions");
    expect(bitpacking_column_count_between(&columns[0], low, high) == len, "another count between");
}

/* What a word adds to a document: parts above 2^31 for the rarest lengths. */
static void draw_parts(void)
{
    const uint32_t each = 1 + drawn(UINT32_MAX / COUNTS);
    size_t k;

    for (k = 0; k < PARTS; k++)
        parts[k] = (uint32_t)(k / BITPACKING_CLASSES * (each - (uint64_t)each * (k % BITPACKING_CLASSES) / 300));
    for (k = 0; k < CLASSES; k++)
        classes[k] = (uint8_t)drawn(BITPACKING_CLASSES);
}

static bitpacking_scored scored(size_t at)
{
    bitpacking_scored it = {0, base + (uint32_t)at};
    const uint8_t class_of = it.id < CLASSES ? classes[it.id] : 0;
    size_t set;

    for (set = 0; set < SETS; set++)
        if (has[at] >> set & 1) {
            const uint32_t count = values[set][place[set][at]];

            it.score += parts[(count < COUNTS ? count : COUNTS - 1) * BITPACKING_CLASSES + class_of];
        }
    return it;
}

/* The best documents that have at least so many words, by a scan that keeps the best so far in order. */
static size_t scan_best(size_t at_least, size_t room, bitpacking_scored *best)
{
    size_t at, k, len = 0;

    for (at = 0; at < SPAN; at++) {
        const size_t words = (has[at] & 1u) + (has[at] >> 1 & 1u) + (has[at] >> 2 & 1u);
        bitpacking_scored it;

        if (words == 0 || words < at_least)
            continue;
        it = scored(at);
        for (k = len; k > 0 && best[k - 1].score < it.score; k--)
            if (k < room)
                best[k] = best[k - 1];
        if (k < room)
            best[k] = it;
        len += len < room;
    }
    return len;
}

static void ranks(void)
{
    static bitpacking_walk walks[SETS];
    static bitpacking_term terms[SETS];
    static uint32_t greatest[SETS][BLOCKS];
    bitpacking_block_bounds bounds[SETS];
    const bitpacking_term empty = BITPACKING_TERM_EMPTY;
    bitpacking_scored right[BEST], best[BEST];
    const size_t at_least = drawn(SETS + 1), room = drawn(BEST + 1), len = scan_best(at_least, room, right);
    size_t k;
    ptrdiff_t count;

    for (k = 0; k < SETS; k++) {
        terms[k] = empty;
        expect(bitpacking_term_start(&terms[k], &sets[k], &columns[k], parts, PARTS) == 0, "a term is not started");
        bounds[k] = (bitpacking_block_bounds){greatest[k], drawn(BLOCKS + 1)};
        bitpacking_term_bound(&terms[k], classes, CLASSES, greatest[k], bounds[k].parts_len);
    }
    count = bitpacking_best_bounded(terms, SETS, bounds, drawn(SETS + 1), classes, CLASSES, at_least, walks, SETS, best, room);
    expect(count == (ptrdiff_t)len, "another number of the best");
    for (k = 0; k < len; k++)
        expect(best[k].score == right[k].score && best[k].id == right[k].id, "others are the best");
}

/* ---- sets of several chunks, any number of them, that are combined into a set */

enum { LONG = 60000, LONG_CASES = 40, MANY = 20, WORK = 262144, STEPS = 15, DEPTH = 4 };

/* The sets that have each number, as bits, and the id of number 0, and how far each id is from the next. */
static uint32_t is_in[LONG], long_base, apart;
/* The sets, the ids and the bytes of a set, which are then the right answer, and what a call writes. */
static bitpacking_set long_sets[MANY];
static uint8_t bytes[MANY][BITPACKING_SET_ROOM(LONG)], answer[BITPACKING_SET_ROOM(LONG)], written[BITPACKING_SET_ROOM(LONG) + 1];
static uint32_t many[LONG], work[WORK + 1];

/* Draws the numbers of a set: parts with all numbers, none, few, and nearly all. */
static void draw_long(size_t set)
{
    size_t at = 0, end;

    while (at < LONG) {
        const uint32_t kind = drawn(4), gap = 2 + drawn(drawn(2) ? 6 : 900);

        for (end = at + 1 + drawn(drawn(2) ? 3000 : 90000); at < end && at < LONG; at++)
            if (kind == 0 || (kind > 1 && (drawn(gap) > 0) == (kind == 2)))
                is_in[at] |= UINT32_C(1) << set;
    }
}

/* Whether a query has a number, by the bits of the sets that have it. */
static int finds(const uint32_t *steps, size_t len, uint32_t bits)
{
    uint32_t waiting = 0;
    size_t i;

    for (i = 0; i < len; i++) {
        const uint32_t last = waiting & 1, first = waiting >> 1 & 1, it = UINT32_MAX - steps[i];
        const uint32_t is[] = {first & last, first | last, first & (last ^ 1), first ^ last};

        waiting = it < 4 ? waiting >> 2 << 1 | is[it] : waiting << 1 | (bits >> steps[i] & 1);
    }
    return (int)(waiting & 1);
}

/* Packs the ids of the numbers that a query has. */
static size_t packed_long(uint8_t *to, const uint32_t *steps, size_t len)
{
    uint32_t at, count = 0;

    for (at = 0; at < LONG; at++)
        if (finds(steps, len, is_in[at]))
            many[count++] = long_base + at * apart;
    return (size_t)bitpacking_set_pack(many, count, to, sizeof answer, NULL);
}

/* A call wrote the answer into room for it alone, and nothing after it. */
static void wrote(ptrdiff_t size, size_t right, size_t needed, const char *what)
{
    expect(size == (ptrdiff_t)right && memcmp(written, answer, right) == 0 && written[right] == 0xA5 && work[needed] == 77, what);
}

/* An operation on so many sets gives the set of its ids, and refuses less room. */
static void gives(uint32_t operation, size_t len)
{
    const size_t needed = bitpacking_set_combine_room(long_sets, len);
    uint32_t steps[2 * MANY], i;
    size_t count = 0, size;

    for (i = 0; i < len; i++) {
        steps[count++] = i;
        if (i > 0)
            steps[count++] = operation;
    }
    size = packed_long(answer, steps, count);
    expect(needed <= WORK, "too much work space");
    work[needed] = 77;
    written[size] = 0xA5;
    wrote(bitpacking_set_combine(operation, long_sets, len, work, needed, written, size), size, needed, "another set");
    expect(bitpacking_set_combine(operation, long_sets, len, work, needed, written, size - 1) == BITPACKING_SHORT, "a byte too few");
    if (needed > 0)
        expect(bitpacking_set_combine(operation, long_sets, len, work, needed - 1, written, size) == BITPACKING_SHORT, "an item too few");
}

/* A random query over so many sets gives the set of its ids, and refuses less room. */
static void packs_query(uint32_t sets_len)
{
    static uint64_t space[BITPACKING_QUERY_SPACE(DEPTH)];
    const size_t needed = bitpacking_set_combine_room(long_sets, sets_len), most = BITPACKING_QUERY_SPACE(DEPTH);
    uint32_t steps[STEPS + DEPTH], waiting = 0;
    size_t len = 0, size, position = 77;

    while (len < STEPS || waiting > 1) {
        const int is_set = waiting < 2 || (len < STEPS && waiting < DEPTH && drawn(2));

        steps[len++] = is_set ? drawn(sets_len) : UINT32_MAX - drawn(4);
        waiting = is_set ? waiting + 1 : waiting - 1;
    }
    size = packed_long(answer, steps, len);
    work[needed] = 77;
    written[size] = 0xA5;
#define PACKS(items, room) bitpacking_set_query_pack(long_sets, sets_len, steps, len, space, most, work, items, written, room, &position)
    wrote(PACKS(needed, size), size, needed, "another set of a query");
    expect(PACKS(needed, size - 1) == BITPACKING_SHORT && position == 77, "a byte too few for a query");
    if (needed > 0)
        expect(PACKS(needed - 1, size) == BITPACKING_SHORT && position == 77, "an item too few for a query");
#undef PACKS
}

/* Each operation, and queries, over so many sets. */
static void combines_long(uint32_t len)
{
    const bitpacking_set empty = BITPACKING_SET_EMPTY;
    uint32_t i;

    for (i = 0; i < len; i++) {
        long_sets[i] = empty;
        expect(bitpacking_set_open(bytes[i], packed_long(bytes[i], &i, 1), &long_sets[i]) == 0, "a long set is not opened");
    }
    for (i = 0; i < 4; i++)
        gives(UINT32_MAX - i, len);
    for (i = 0; i < 4 && len > 0; i++)
        packs_query(len);
}

/* Three sets whose AND has so many ids. */
static void answers_few(uint32_t count)
{
    uint32_t at;

    for (at = 0; at < LONG; at++)
        is_in[at] = 1 | (at % 7 == 0) << 1 | (at % 11 == 0 && at < 77 * count) << 2;
    combines_long(3);
}

int main(void)
{
    static const uint32_t bases[] = {0, UINT32_C(0x80000000) - SPAN / 4, UINT32_MAX - SPAN}, lens[] = {0, 1, 2, 3, 2, MANY, 3, 5};
    static const uint32_t steps[] = {1, 5, 1000, 3, 30};
    uint32_t number;
    size_t set;

    for (number = 0; number < CASES; number++) {
        base = bases[number % 3];
        memset(has, 0, sizeof has);
        for (set = 0; set < SETS; set++) {
            draw_ids(set);
            open_set(set);
            open_column(set, COUNTS);
        }
        streams();
        combines();
        searches();
        draw_parts();
        ranks();
        open_column(0, UINT64_C(1) << drawn(33));
        looks_between();
    }
    for (number = 0; number < LONG_CASES; number++) {
        apart = steps[number / 8];
        long_base = drawn(UINT32_MAX - LONG * apart);
        memset(is_in, 0, sizeof is_in);
        for (set = 0; set < lens[number % 8]; set++)
            draw_long(set);
        combines_long(lens[number % 8]);
        if (number < 8)
            answers_few(125 + number);
    }
    printf("%d cases\n", CASES + LONG_CASES);
    return failed;
}
