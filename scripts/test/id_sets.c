/* Reads the tables vectors/id_sets.tsv, vectors/refused_id_sets.tsv and vectors/combined_id_sets.tsv. The ids of each set are written in
   each way that there is, which has to give its bytes, and these are opened and read in each way. The sets of each row of the third table are
   compared, and combined as views and with an array. Each call refuses what it has to, and writes nothing then; rust/src/tests/set_query.rs
   and the package of Python test what queries find. Prints what is wrong, and last how many sets, refusals and pairs it read. */
#include "bitpacking.h"

enum { MOST = 320000, ROOM = BITPACKING_SET_ROOM(MOST + 1), SOME = 65, OPERANDS = 64 };

typedef bitpacking_set view;
typedef bitpacking_set_builder builder;
#define CALL(name) bitpacking_set_##name
#include "written.h"

static uint8_t first_bytes[ROOM], other_bytes[ROOM];
static uint32_t others[MOST + 2], both[MOST + 2], right[2 * MOST + 2];
static size_t others_len, both_len;
static uint64_t space[BITPACKING_QUERY_SPACE(OPERANDS)];
static uint8_t answer_bytes[2 * ROOM], packed_set[2 * ROOM];
static uint32_t room[8 * MOST + 16];

static bitpacking_set opened(const uint32_t *given, size_t given_len, uint8_t *room)
{
    bitpacking_set set = BITPACKING_SET_EMPTY;
    const ptrdiff_t len = bitpacking_set_pack(given, given_len, room, ROOM, NULL);

    expect(len > 0 && bitpacking_set_open(room, (size_t)len, &set) == 0, "a set is not packed");
    return set;
}

/* A call leaves these ids at the start of `found`, and nothing after them. */
#define LEAVES_ALONE(call, its, its_len, what) \
    do { \
        const size_t len_ = its_len; \
        found[len_] = 0xA5A5A5A5; \
        expect(call == (ptrdiff_t)len_ && memcmp(found, its, len_ * sizeof *found) == 0 && found[len_] == 0xA5A5A5A5, what); \
    } while (0)

/* A call whose room is `len` ids leaves these in room for them alone, and at the start of more. It refuses less. */
#define LEAVES(call, its, its_len, what) \
    do { \
        const size_t all = its_len; \
        size_t len = all; \
        LEAVES_ALONE(call, its, all, what); \
        len = MOST; \
        expect(call == (ptrdiff_t)all && memcmp(found, its, all * sizeof *found) == 0, what); \
        len = all - 1; \
        expect(all == 0 || call == BITPACKING_SHORT, what); \
    } while (0)

/* ---- one set */

static void packs(void)
{
    const size_t at = count / 2;

    expect(size <= BITPACKING_SET_ROOM(count), "there is more than the room that is enough");
    expect(bitpacking_set_size(values, count, NULL) == (ptrdiff_t)size, "another size");
    WRITES(bitpacking_set_pack(values, count, packed, len, &position), "other bytes are packed");
    if (count > 1) {
        const uint32_t it = values[at];

        values[at] = values[at - 1];
        REFUSES(bitpacking_set_pack(values, count, packed, 0, &position), BITPACKING_NOT_SORTED, at, "an id that is not above is packed");
        REFUSES(bitpacking_set_size(values, count, &position), BITPACKING_NOT_SORTED, at, "it is measured");
        values[at] = it;
    }
}

/* A range has the bytes of its ids, and needs room for all of them. An end above 2^32 is as 2^32. */
static void packs_range(uint32_t first, size_t len, uint64_t end)
{
    size_t i;
    ptrdiff_t want;

    for (i = 0; i < len; i++)
        work[i] = first + (uint32_t)i;
    want = bitpacking_set_pack(work, len, packed, sizeof packed, NULL);
    memset(bytes, 0xA5, (size_t)want + 1);
    expect(bitpacking_set_range_size(first, end) == want, "the size of a range");
    expect(bitpacking_set_pack_range(first, end, bytes, (size_t)want - 1) == BITPACKING_SHORT, "a range without room");
    expect(bytes[0] == 0xA5, "a range without room is written");
    expect(bitpacking_set_pack_range(first, end, bytes, (size_t)want + 1) == want, "a range");
    expect(memcmp(bytes, packed, (size_t)want) == 0 && bytes[want] == 0xA5, "the bytes of a range");
}

static void packs_ranges(void)
{
    static const uint32_t firsts[] = {0, 65530, 65535, 131072}, lens[] = {0, 1, 15, 16, 127, 128, 200, 65536, 65541};
    size_t i, j;

    for (i = 0; i < 4; i++)
        for (j = 0; j < 9; j++)
            packs_range(firsts[i], lens[j], (uint64_t)firsts[i] + lens[j]);
    packs_range(UINT32_MAX - 199, 200, UINT64_MAX);
    packs_range(9, 0, 4);
    expect(bitpacking_set_range_size(0, 268435456) > 0, "as many ids as a set has");
    expect(bitpacking_set_range_size(0, 268435457) == BITPACKING_TOO_LONG, "the size of too many ids");
    expect(bitpacking_set_pack_range(0, UINT64_MAX, bytes, 0) == BITPACKING_TOO_LONG, "too many ids");
}

/* The ids from a cut on are appended to those before it. */
static void appends(size_t cut)
{
    const bitpacking_set first = opened(values, cut, first_bytes);
    const size_t left = count - cut;
    const uint32_t last = values[cut > 0 ? cut - 1 : 0], twice[2] = {last, last};

    WRITES(bitpacking_set_append(&first, values + cut, left, work, count, packed, len, &position), "other bytes are appended");
    if (left > 0)
        refused(bitpacking_set_append(&first, values + cut, left, work, left - 1, packed, ROOM, NULL), BITPACKING_SHORT, "no work space");
    if (cut > 0)
        REFUSES(bitpacking_set_append(&first, twice, 2, work, MOST, packed, 0, &position), BITPACKING_NOT_SORTED, cut, "an id twice");
}

/* An id, below which are `below` ids of the row, is looked up. */
static void looks_up(const bitpacking_set *set, uint32_t id, size_t below)
{
    const int more = below < count;
    uint32_t first = 78;

    position = 77;
    expect(bitpacking_set_contains(set, id) == (more && values[below] == id), "an id is missing, or another is there");
    expect(bitpacking_set_rank(set, id) == below, "another rank");
    expect(bitpacking_set_seek(set, id, &position, &first) == more, "another answer of a search");
    expect(position == (more ? below : 77) && first == (more ? values[below] : 78), "another id is found");
}

/* Each id and its neighbours are looked up. */
static void looks_up_each(const bitpacking_set *set)
{
    size_t i;

    for (i = 0; i < count; i += 1 + count / 30000) {
        looks_up(set, values[i], i);
        if (values[i] > 0)
            looks_up(set, values[i] - 1, i - (i > 0 && values[i - 1] == values[i] - 1));
        if (values[i] < UINT32_MAX)
            looks_up(set, values[i] + 1, i + 1);
    }
    looks_up(set, 0, 0);
    looks_up(set, UINT32_MAX, count - (count > 0 && values[count - 1] == UINT32_MAX));
}

/* The ids from each of some positions on, into less room than ids are left, as much, and more. */
static void ranges(const bitpacking_set *set)
{
    size_t i, room;

    for (i = 0; i <= count; i += 1 + count / 50)
        for (room = 0; room < 3; room++) {
            const size_t left = count - i, len = left + room < 1 ? 0 : left + room - 1;

            LEAVES_ALONE(bitpacking_set_slice(set, i, found, len), (values + i), left < len ? left : len, "other ids from a position on");
        }
    LEAVES_ALONE(bitpacking_set_slice(set, SIZE_MAX, found, 1), values, 0, "ids from the greatest position on");
}

static void accepts(void)
{
    bitpacking_set set = BITPACKING_SET_EMPTY, tested = BITPACKING_SET_EMPTY;

    expect(bitpacking_set_open(bytes, size, &set) == 0 && set.bytes == bytes && set.bytes_len == size, "it is refused");
    bitpacking_set_open_tested(bytes, size, &tested);
    expect(tested.bytes == bytes && tested.bytes_len == size && tested.count == set.count && tested.chunks == set.chunks, "it is not opened");
    expect(tested.rest == set.rest && tested.rest_len == set.rest_len && bitpacking_set_len(&set) == count, "another rest or number of ids");
    gets_each(&set);
    looks_up_each(&set);
    unpacks(&set);
    unpacks(&tested);
    ranges(&set);
    expect(bitpacking_set_open(bytes, size + 1, &set) == BITPACKING_TRAILING && set.bytes_len == size, "a byte is left over");
    expect(bitpacking_set_front_len(bytes, size) == size && bitpacking_set_front_len(bytes, size + 1) == size, "another length");
    expect(bitpacking_set_front_len(bytes, size - 1) == 0, "the length of a set that is cut");
    expect(bitpacking_set_open(bytes, size - 1, &set) < 0 && set.bytes_len == size, "its last byte is not needed");
}

/* ---- two sets */

/* Puts the ids of two arrays at `right`: those of the first alone, of both, and of the second alone, as far as they are wanted. */
static size_t merged(const uint32_t *one, size_t one_len, const uint32_t *two, size_t two_len, int first, int of_both, int second)
{
    size_t i = 0, j = 0, len = 0;

    while (i < one_len || j < two_len) {
        const int in_one = j == two_len || (i < one_len && one[i] <= two[j]), in_two = i == one_len || (j < two_len && two[j] <= one[i]);

        if (in_one && in_two ? of_both : in_one ? first : second)
            right[len++] = in_one ? one[i] : two[j];
        i += in_one, j += in_two;
    }
    return len;
}

/* A call in place, whose room is `all` values, leaves what is right at the start of a copy of an array. */
#define IN_PLACE(call, its_len, what) \
    do { \
        const size_t all = its_len; \
        memcpy(found, one, one_len * sizeof *one); \
        expect(call == (ptrdiff_t)all && memcmp(found, right, all * sizeof *right) == 0, what); \
    } while (0)

/* The ids of an array, combined with a set of others. */
static void in_place(const bitpacking_set *set, const uint32_t *two, size_t two_len, const uint32_t *one, size_t one_len)
{
    const size_t any_len = merged(one, one_len, two, two_len, 1, 1, 1);

    found[any_len] = 0xA5A5A5A5;
    IN_PLACE(bitpacking_set_add(set, one_len, found, all), any_len, "other ids are added");
    expect(found[any_len] == 0xA5A5A5A5, "an id after the added ones changes");
    IN_PLACE(bitpacking_set_retain(set, found, one_len), merged(one, one_len, two, two_len, 0, 1, 0), "other ids are retained");
    IN_PLACE(bitpacking_set_remove(set, found, one_len), merged(one, one_len, two, two_len, 1, 0, 0), "other ids are removed");
    memcpy(found, one, one_len * sizeof *one);
    expect(any_len == one_len || bitpacking_set_add(set, one_len, found, any_len - 1) == BITPACKING_SHORT, "ids are added without room");
    if (one_len > 1) {
        found[one_len - 1] = found[one_len - 2];
        memcpy(work, found, one_len * sizeof *found);
        expect(bitpacking_set_retain(set, found, one_len) == BITPACKING_NOT_SORTED, "an id twice is retained");
        expect(bitpacking_set_remove(set, found, one_len) == BITPACKING_NOT_SORTED, "an id twice is removed");
        expect(bitpacking_set_add(set, one_len, found, 2 * MOST) == BITPACKING_NOT_SORTED, "ids are added to an id twice");
        expect(memcmp(found, work, one_len * sizeof *found) == 0, "an array that does not increase changes");
    }
}

/* What views have in common, together, and the first of them alone. */
static void are(const bitpacking_set *views, size_t views_len, size_t in_all, const uint32_t *one, size_t one_len, const uint32_t *two, size_t two_len)
{
    LEAVES(bitpacking_set_intersect(views, views_len, found, len), both, in_all, "other ids in common");
    LEAVES(bitpacking_set_unite(views, views_len, found, len), right, merged(one, one_len, two, two_len, 1, 1, 1), "other ids together");
    expect(bitpacking_set_count_any(views, views_len) == (ptrdiff_t)merged(one, one_len, two, two_len, 1, 1, 1), "another number together");
    expect(bitpacking_set_count_common(views, views_len) == (ptrdiff_t)in_all, "another number in common");
    LEAVES(bitpacking_set_subtract(views, views_len, found, len), right, merged(one, one_len, two, two_len, 1, 0, 0), "other ids of the first");
}

/* An operation on two sets writes the set of the ids at `right`, into as much room as it needs, and into more. It refuses less. */
static void gives(uint32_t operation, const bitpacking_set *one, const bitpacking_set *two, size_t len)
{
    const bitpacking_set views[] = {*one, *two};
    const size_t needed = bitpacking_set_combine_room(views, 2);
    const ptrdiff_t wanted = bitpacking_set_pack(right, len, answer_bytes, 2 * ROOM, NULL);
    const size_t bytes_len = (size_t)wanted;

    expect(needed <= sizeof room / sizeof *room && wanted > 0, "too much work space");
    room[needed] = 77;
    packed_set[bytes_len] = 0xA5;
    expect(bitpacking_set_combine(operation, views, 2, room, needed, packed_set, bytes_len) == wanted, "another size is combined");
    expect(memcmp(packed_set, answer_bytes, bytes_len) == 0 && packed_set[bytes_len] == 0xA5 && room[needed] == 77, "other bytes are combined");
    memset(packed_set, 0, bytes_len);
    expect(bitpacking_set_combine(operation, views, 2, room, needed + 1, packed_set, 2 * ROOM) == wanted, "another size with more room");
    expect(memcmp(packed_set, answer_bytes, bytes_len) == 0, "other bytes with more room");
    expect(bitpacking_set_combine(operation, views, 2, room, needed, packed_set, bytes_len - 1) == BITPACKING_SHORT, "a byte too few");
    expect(bitpacking_set_combine(operation, views, 2, room, needed, NULL, 0) == BITPACKING_SHORT, "no byte is enough");
    if (needed > 0)
        expect(bitpacking_set_combine(operation, views, 2, room, needed - 1, packed_set, 2 * ROOM) == BITPACKING_SHORT, "too little space");
}

/* Each operation on two sets. */
static void gives_each(const bitpacking_set *one, const uint32_t *its, size_t its_len, const bitpacking_set *two, const uint32_t *theirs,
                       size_t theirs_len)
{
    gives(BITPACKING_AND, one, two, merged(its, its_len, theirs, theirs_len, 0, 1, 0));
    gives(BITPACKING_OR, one, two, merged(its, its_len, theirs, theirs_len, 1, 1, 1));
    gives(BITPACKING_AND_NOT, one, two, merged(its, its_len, theirs, theirs_len, 1, 0, 0));
    gives(BITPACKING_XOR, one, two, merged(its, its_len, theirs, theirs_len, 1, 0, 1));
}

static void compares(const bitpacking_set *one, const bitpacking_set *two)
{
    expect(bitpacking_set_is_disjoint(one, two) == (both_len == 0), "sets share other ids");
    expect(bitpacking_set_is_subset(one, two) == (both_len == bitpacking_set_len(one)), "a set is within another");
    expect(bitpacking_set_is_subset(one, one) == 1, "a set is not within itself");
    expect(bitpacking_set_is_disjoint(one, one) == (bitpacking_set_len(one) == 0), "a set shares no id with itself");
    LEAVES(bitpacking_set_symmetric_difference(one, two, found, len), right, merged(values, count, others, others_len, 1, 0, 1), "ids of one alone");
}

/* A query of one set is refused, and writes nothing but the position. */
static void refuses(const uint32_t *steps, size_t steps_len, size_t room, ptrdiff_t number, size_t at, const char *what)
{
    const bitpacking_set set = BITPACKING_SET_EMPTY;
    uint64_t next = 5;
    uint32_t id = 7;
    uint8_t byte = 9;

    expect(bitpacking_set_query(&set, 1, steps, steps_len, space, room, &next, &id, 1, &position) == number && position == at, what);
    position = 77;
    expect(bitpacking_set_query_pack(&set, 1, steps, steps_len, space, room, &id, 1, &byte, 1, &position) == number && position == at, what);
    expect(next == 5 && id == 7 && byte == 9, what);
}

/* Each error of a query, by the steps of as many operands as there may be. */
static void query_errors(void)
{
    const bitpacking_set set = BITPACKING_SET_EMPTY;
    const size_t room = BITPACKING_QUERY_SPACE(OPERANDS);
    uint32_t steps[2 * OPERANDS];
    uint64_t next = UINT64_MAX;
    size_t i;

    for (i = 0; i < 2 * OPERANDS; i++)
        steps[i] = i <= OPERANDS ? 0 : BITPACKING_OR;
    refuses(steps, 0, room, BITPACKING_LEFT_OVER, 0, "no steps");
    refuses(steps, 3, room, BITPACKING_LEFT_OVER, 3, "operands are left");
    refuses(steps, OPERANDS + 1, room, BITPACKING_TOO_DEEP, OPERANDS, "65 operands");
    refuses(steps, 1, 1023, BITPACKING_SHORT, 1, "too little space");
    steps[OPERANDS] = BITPACKING_XOR;
    refuses(steps, 2 * OPERANDS - 1, room - 1, BITPACKING_SHORT, OPERANDS, "too little space for 64");
    expect(bitpacking_set_query(&set, 1, steps, 2 * OPERANDS - 1, space, room, &next, NULL, 0, &position) == 0, "64 operands");
    expect(next == UINT64_MAX, "something is written after the last id");
    steps[1] = 1;
    refuses(steps, 3, room, BITPACKING_NO_SET, 1, "a set that there is not");
    steps[1] = BITPACKING_XOR - 1;
    refuses(steps, 3, room, BITPACKING_NO_SET, 1, "a number that is no operation");
    steps[1] = BITPACKING_AND_NOT;
    refuses(steps, 3, 0, BITPACKING_NO_OPERAND, 1, "an operand is missing");
}

/* Two sets, and one of them with as many of the other: a set that is there twice changes nothing. An empty set leaves nothing in common. */
static void pairs(void)
{
    bitpacking_set views[SOME] = {BITPACKING_SET_EMPTY}, swapped[3] = {BITPACKING_SET_EMPTY};
    size_t i;

    views[0] = swapped[1] = opened(values, count, first_bytes);
    for (i = 1; i < SOME; i++)
        views[i] = i == 1 ? opened(others, others_len, other_bytes) : views[1];
    swapped[0] = views[1];
    for (i = 2; i < SOME; i += i < 4 ? 1 : 60)
        are(views, i, both_len, values, count, others, others_len);
    are(swapped, 2, both_len, others, others_len, values, count);
    are(swapped, 3, 0, others, others_len, values, count);
    LEAVES(bitpacking_set_intersect(views, 1, found, len), values, count, "other ids of one set");
    LEAVES(bitpacking_set_subtract(views, 1, found, len), values, count, "other ids of one set without others");
    compares(&views[0], &views[1]);
    compares(&views[1], &views[0]);
    gives_each(&views[0], values, count, &views[1], others, others_len);
    gives_each(&views[1], others, others_len, &views[0], values, count);
    gives_each(&views[0], values, count, &views[0], values, count);
    in_place(&views[1], others, others_len, values, count);
    in_place(&views[0], values, count, others, others_len);
}

/* Sets of each form: how many ids they have, the first of them, how far each run of ids is from the next, and how many ids are in a run; how many
   chunks they have, with bodies of numbers, of blocks, and of runs. */
static const struct {
    size_t len;
    uint32_t first, step, run;
    size_t chunks, numbers, blocks, runs;
} forms[] = {
    {0, 0, 1, 1, 0, 0, 0, 0},          /* no ids */
    {1, 70000, 1, 1, 0, 0, 0, 0},      /* one */
    {127, 5, 1000, 1, 0, 0, 0, 0},     /* few */
    {1000, 7, 65537, 1, 0, 0, 0, 0},   /* an array: one id in each chunk */
    {9000, 3, 300, 1, 42, 42, 0, 0},   /* chunks of numbers */
    {40000, 0, 5, 1, 4, 0, 4, 0},      /* chunks of bitmaps */
    {100000, 9, 400, 100, 7, 0, 6, 1}, /* chunks of many runs, and one of few */
    {140000, 60000, 1, 1, 4, 0, 0, 4}, /* no gap */
    {65536, 65536, 1, 1, 1, 0, 0, 1},  /* one whole chunk */
};

/* Puts the ids of a form into an array. */
static size_t put_form(size_t form, uint32_t *to)
{
    const uint32_t run = forms[form].run;
    uint32_t i;

    for (i = 0; i < forms[form].len; i++)
        to[i] = forms[form].first + i / run * forms[form].step + i % run;
    return forms[form].len;
}

/* What a set of a form is like. */
static void describes(size_t form, const bitpacking_set *set)
{
    bitpacking_set_description it;

    bitpacking_set_describe(set, &it);
    expect(it.ids == forms[form].len && it.bytes == set->bytes_len, "another size is described");
    expect(it.chunks == forms[form].chunks && it.numbers == forms[form].numbers, "other chunks are described");
    expect(it.blocks == forms[form].blocks && it.runs == forms[form].runs, "other bodies are described");
}

/* The set with a number added to each id, which needs as much room as its bytes. */
static void shifts(const bitpacking_set *set, const uint32_t *ids, size_t len, int64_t by)
{
    const size_t needed = bitpacking_set_shift_room(set);
    uint32_t *work = malloc(4 * needed + 4);
    ptrdiff_t wanted;
    size_t i, stay = 0;

    expect(work && needed <= 4 * len, "too much work space for a shift");
    for (i = 0; i < len; i++)
        if (by >= -(int64_t)ids[i] && by <= (int64_t)(UINT32_MAX - ids[i]))
            right[stay++] = (uint32_t)(ids[i] + by);
    wanted = bitpacking_set_pack(right, stay, answer_bytes, 2 * ROOM, NULL);
    expect(bitpacking_set_shift(set, by, work, needed, packed_set, (size_t)wanted) == wanted, "another size is shifted");
    expect(memcmp(packed_set, answer_bytes, (size_t)wanted) == 0, "other ids are shifted");
    expect(bitpacking_set_shift(set, by, work, needed, packed_set, (size_t)wanted - 1) == BITPACKING_SHORT, "a byte too few for a shift");
    if (needed > 0)
        expect(bitpacking_set_shift(set, by, work, needed - 1, packed_set, 2 * ROOM) == BITPACKING_SHORT, "too little space for a shift");
    free(work);
}

/* Each operation on each two forms. Another number is no operation, whatever room there is, and nothing is written. */
static void pairs_of_forms(void)
{
    bitpacking_set views[] = {BITPACKING_SET_EMPTY, BITPACKING_SET_EMPTY};
    const size_t len = sizeof forms / sizeof *forms;
    uint8_t byte = 0xA5;
    const int64_t by[] = {0, 1, -1, 65536, -65536, 70000, -100, UINT32_MAX, INT64_MAX, INT64_MIN};
    uint32_t item = 77;
    size_t i, j, shift;

    for (i = 0; i < len; i++)
        for (j = 0; j < len; j++) {
            views[0] = opened(values, count = put_form(i, values), first_bytes);
            describes(i, &views[0]);
            for (shift = 0; j == 0 && shift < sizeof by / sizeof *by; shift++)
                shifts(&views[0], values, count, by[shift]);
            views[1] = opened(others, others_len = put_form(j, others), other_bytes);
            gives_each(&views[0], values, count, &views[1], others, others_len);
        }
    for (item = 0; item < 5; item++)
        expect(bitpacking_set_combine(item, views, 2, NULL, 0, &byte, 1) == BITPACKING_BAD_KIND, "a number of no operation");
    expect(bitpacking_set_combine(BITPACKING_XOR - 1, views, 2, &item, 1, &byte, 1) == BITPACKING_BAD_KIND, "a number below XOR");
    expect(byte == 0xA5 && item == 5, "a number of no operation writes");
}

/* A view of zeros is the empty set, and a builder of zeros one without room. Nothing is read through a pointer to no items. */
static void empty(void)
{
    bitpacking_set set = BITPACKING_SET_EMPTY;
    bitpacking_set_builder pushed = BITPACKING_SET_BUILDER_EMPTY;
    bitpacking_set_description described;
    uint8_t byte = 0xA5;
    uint32_t id = 77;

    position = 77;
    bitpacking_set_describe(&set, &described);
    expect(described.ids == 0 && described.bytes == 1 && described.chunks == 0, "zeros are described as another set");
    expect(bitpacking_set_unpack(&set, NULL, 0) == 0 && bitpacking_set_slice(&set, 0, NULL, 0) == 0, "zeros have ids");
    expect(bitpacking_set_get(&set, 0, &id) == 0 && bitpacking_set_seek(&set, 0, &position, &id) == 0, "zeros have an id");
    expect(bitpacking_set_unpack_wide(&set, 0, NULL, 0) == 0 && bitpacking_set_add(&set, 0, NULL, 0) == 0, "zeros have wide ids");
    expect(bitpacking_set_retain(&set, NULL, 0) == 0 && bitpacking_set_remove(&set, NULL, 0) == 0, "an empty array");
    expect(bitpacking_set_intersect(NULL, 0, NULL, 0) == 0 && bitpacking_set_unite(NULL, 0, NULL, 0) == 0, "no set has ids");
    expect(bitpacking_set_subtract(NULL, 0, NULL, 0) == 0 && bitpacking_set_symmetric_difference(&set, &set, NULL, 0) == 0, "ids of no set");
    expect(bitpacking_set_combine_room(&set, 1) == 0 && bitpacking_set_combine_room(NULL, 0) == 0, "zeros need work space");
    expect(bitpacking_set_combine(BITPACKING_OR, &set, 1, NULL, 0, &byte, 1) == 1 && byte == 0x80, "zeros have other bytes together");
    expect(bitpacking_set_combine(BITPACKING_AND, NULL, 0, NULL, 0, &byte, 0) == BITPACKING_SHORT, "the set of no set needs no byte");
    expect(bitpacking_set_count_common(NULL, 0) == 0 && bitpacking_set_count_any(NULL, 0) == 0, "no set has ids in common");
    expect(bitpacking_set_append(&set, NULL, 0, NULL, 0, &byte, 1, NULL) == 1 && byte == 0x80, "nothing after nothing");
    expect(bitpacking_set_open(NULL, 0, &set) == BITPACKING_TRUNCATED && set.bytes == NULL, "no bytes are a set");
    expect(bitpacking_set_builder_push(&pushed, 5) == BITPACKING_SHORT, "a builder of zeros has room");
    expect(bitpacking_set_builder_finish(&pushed, NULL, 0) == BITPACKING_SHORT, "the set of a builder needs no byte");
    expect(id == 77 && position == 77, "something is written for no id");
}

int main(void)
{
    size_t sets = 0, refusals = 0, two = 0, cut;
    char *column[COLUMNS];

    empty();
    packs_ranges();
    query_errors();
    pairs_of_forms();
    memset(packed, 0xA5, sizeof packed);
    while (next_row(column))
        if (table == REFUSED_BYTES) {
            bitpacking_set set;

            read_row(column[2]);
            REFUSES_TO_OPEN(set, bitpacking_set_open(bytes, size, &set));
            refusals++;
        } else if (table == COMBINED_ID_SETS) {
            count = read_values(column[0], values);
            others_len = read_values(column[1], others);
            both_len = read_values(column[2], both);
            pairs();
            two++;
        } else {
            count = read_values(column[0], values);
            read_row(column[1]);
            packs();
            accepts();
            for (cut = 0; cut <= count; cut += 1 + count / 7) {
                bitpacking_set_builder pushed = BITPACKING_SET_BUILDER_EMPTY;

                bitpacking_set_builder_start(&pushed, work, count);
                builds(&pushed, cut, cut > 0 ? &values[cut - 1] : NULL);
                appends(cut);
            }
            sets++;
        }
    printf("%lu sets, %lu refusals, %lu pairs\n", (unsigned long)sets, (unsigned long)refusals, (unsigned long)two);
    return failed;
}
