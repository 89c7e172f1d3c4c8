/* Reads the tables vectors/wide_sets.tsv and refused_wide_sets.tsv. The ids of each set are measured and written, which has to give its bytes, and read
   from these. The set is combined with the one before it, with every third of its ids, and with none. Each call refuses what it has to, and writes
   nothing then. Prints what is wrong, and last how many sets it read. */
#include "bitpacking.h"

enum { MOST = 300000, ROOM = BITPACKING_WIDE_SET_ROOM(MOST) };

#include "tables.h"

static uint64_t ids[MOST + 1], found[2 * MOST + 1];
static uint32_t space[2 * MOST + 1];
static uint8_t bytes[ROOM], packed[2 * ROOM + 1];
/* Another set, and what both give. */
static uint64_t others[MOST + 1], right[2 * MOST + 1];
static size_t others_len;
static uint8_t other_bytes[ROOM], answer_bytes[2 * ROOM];

/* The ids between commas, as read_values reads them. */
static size_t read_ids(char *text)
{
    size_t len = 0;
    char *end;

    for (; *text != '-' && *text != 0; text = *end == ',' ? end + 1 : end) {
        const uint64_t first = strtoull(text, &end, 10);
        const uint64_t last = *end == '-' ? strtoull(end + 1, &end, 10) : first;
        const uint64_t step = *end == '/' ? strtoull(end + 1, &end, 10) : 1;
        const uint64_t steps = (last - first) / step;
        uint64_t i;

        for (i = 0; i <= steps; i++)
            ids[len++] = first + i * step;
    }
    return len;
}

/* A call wrote `size` bytes, and none after them. */
static void wrote(ptrdiff_t answer, size_t size, const char *what)
{
    expect(answer == (ptrdiff_t)size && memcmp(packed, bytes, size) == 0 && packed[size] == 0xA5, what);
    memset(packed, 0xA5, size);
}

/* A call refused, and wrote nothing. */
static void refused(ptrdiff_t answer, ptrdiff_t number, const char *what)
{
    expect(answer == number && packed[0] == 0xA5, what);
}

static void packs(size_t count, size_t size)
{
    size_t position = 77;

    expect(size <= BITPACKING_WIDE_SET_ROOM(count), "there is more than the room that is enough");
    expect(bitpacking_wide_set_size(ids, count, space, count, NULL) == (ptrdiff_t)size, "another size");
    wrote(bitpacking_wide_set_pack(ids, count, packed, size, space, count, &position), size, "other bytes are packed");
    wrote(bitpacking_wide_set_pack(ids, count, packed, ROOM, space, MOST, NULL), size, "other bytes are packed with more room");
    refused(bitpacking_wide_set_pack(ids, count, packed, size - 1, space, count, &position), BITPACKING_SHORT, "no room");
    expect(position == 77, "a position is written");
}

static void refuses(size_t count)
{
    const size_t at = count / 2;
    const uint64_t id = ids[at];
    size_t position = 77;

    refused(bitpacking_wide_set_pack(ids, count, packed, ROOM, space, count - 1, &position), BITPACKING_SHORT, "no work space");
    expect(bitpacking_wide_set_size(ids, count, space, count - 1, &position) == BITPACKING_SHORT && position == 77, "it is measured");
    if (count < 2)
        return;
    ids[at] = ids[at - 1];
    refused(bitpacking_wide_set_pack(ids, count, packed, 0, space, count, &position), BITPACKING_NOT_SORTED, "an id that is not above");
    expect(position == at, "another position");
    position = 77;
    expect(bitpacking_wide_set_size(ids, count, space, count, &position) == BITPACKING_NOT_SORTED && position == at, "it is measured");
    ids[at] = id;
}

/* What is at a position, and around it. */
static void reads_at(const bitpacking_wide_set *set, size_t count, size_t at)
{
    const uint64_t id = ids[at], next = id + 1;
    const int has_next = at + 1 < count && ids[at + 1] == next;
    size_t position = 77;
    uint64_t it = 77;

    expect(bitpacking_wide_set_get(set, at, &it) == 1 && it == id, "another id");
    expect(bitpacking_wide_set_contains(set, id) == 1, "an id is not there");
    expect(bitpacking_wide_set_rank(set, id) == at, "another rank");
    expect(bitpacking_wide_set_seek(set, id, &position, &it) == 1 && position == at && it == id, "an id is not found");
    if (next == 0)
        return;
    expect(bitpacking_wide_set_contains(set, next) == has_next, "the number after an id");
    expect(bitpacking_wide_set_rank(set, next) == at + 1, "the rank of the number after an id");
    position = 77, it = 77;
    if (at + 1 < count)
        expect(bitpacking_wide_set_seek(set, next, &position, &it) == 1 && position == at + 1 && it == ids[at + 1], "the next id is not found");
    else
        expect(bitpacking_wide_set_seek(set, next, &position, &it) == 0 && position == 77 && it == 77, "an id after the last is found");
}

/* The ids of an opened set, whole and in parts. */
static void unpacks(const bitpacking_wide_set *set, size_t count)
{
    const size_t from = count / 3, part = count < 100 ? count : 100, fit = count - from < part ? count - from : part;
    uint64_t it = 77;

    found[count] = 0xA5;
    expect(bitpacking_wide_set_unpack(set, found, count) == (ptrdiff_t)count && memcmp(found, ids, count * sizeof *ids) == 0, "other ids");
    expect(found[count] == 0xA5, "more than the ids is written");
    if (count > 0) {
        memset(found, 0, sizeof *found);
        expect(bitpacking_wide_set_unpack(set, found, count - 1) == BITPACKING_SHORT && found[0] == 0, "there is no room");
    }
    found[fit] = 0xA5;
    expect(bitpacking_wide_set_slice(set, from, found, part) == (ptrdiff_t)fit && memcmp(found, ids + from, fit * sizeof *ids) == 0, "another slice");
    expect(found[fit] == 0xA5, "more than the slice is written");
    expect(bitpacking_wide_set_slice(set, count, found, MOST) == 0, "a slice after the last id");
    expect(bitpacking_wide_set_get(set, count, &it) == 0 && it == 77, "an id after the last");
}

static void reads(size_t count, size_t size)
{
    bitpacking_wide_set set = BITPACKING_WIDE_SET_EMPTY, tested = BITPACKING_WIDE_SET_EMPTY;
    const size_t step = count / 200 + 1;
    size_t at;

    unpacks(&set, 0);
    expect(bitpacking_wide_set_open(bytes, size, &set) == 0 && set.bytes == bytes && set.bytes_len == size, "it is refused");
    bitpacking_wide_set_open_tested(bytes, size, &tested);
    expect(memcmp(&set, &tested, sizeof set) == 0, "the view of tested bytes is another");
    expect(bitpacking_wide_set_len(&set) == count, "another count");
    unpacks(&set, count);
    for (at = 0; at < count; at += step)
        reads_at(&set, count, at);
    if (count > 0) {
        reads_at(&set, count, count - 1);
        expect(bitpacking_wide_set_contains(&set, 0) == (ids[0] == 0) && bitpacking_wide_set_rank(&set, 0) == 0, "0 is not as it is");
    }
}

/* ---- two sets */

static bitpacking_wide_set opened(const uint64_t *given, size_t given_len, uint8_t *room)
{
    bitpacking_wide_set set = BITPACKING_WIDE_SET_EMPTY;
    const ptrdiff_t size = bitpacking_wide_set_pack(given, given_len, room, ROOM, space, MOST, NULL);

    expect(size > 0 && bitpacking_wide_set_open(room, (size_t)size, &set) == 0, "a set is not packed");
    return set;
}

/* Puts the ids of both sets at `right`: those of the first alone, of both, and of the second alone, as far as they are wanted. */
static size_t merged(size_t count, int first, int of_both, int second)
{
    size_t i = 0, j = 0, len = 0;

    while (i < count || j < others_len) {
        const int in_one = j == others_len || (i < count && ids[i] <= others[j]), in_two = i == count || (j < others_len && others[j] <= ids[i]);

        if (in_one && in_two ? of_both : in_one ? first : second)
            right[len++] = in_one ? ids[i] : others[j];
        i += (size_t)in_one, j += (size_t)in_two;
    }
    return len;
}

/* An operation writes the ids at `right` into as much room as they need, and into more, and nothing after the room. It refuses less. */
static void lists(uint32_t operation, const bitpacking_wide_set *one, const bitpacking_wide_set *two, size_t len)
{
    const size_t rooms[] = {len, len + 1, bitpacking_wide_set_len(one) + bitpacking_wide_set_len(two)};
    size_t i;

    for (i = 0; i < 3; i++) {
        const size_t room = rooms[i];

        found[room] = 0xA5, space[room] = 0xA5;
        expect(bitpacking_wide_set_combine_ids(operation, one, two, found, room, space, room) == (ptrdiff_t)len, "another number of ids");
        expect(memcmp(found, right, len * sizeof *right) == 0 && found[room] == 0xA5 && space[room] == 0xA5, "other ids are combined");
        expect(room == 0 || bitpacking_wide_set_combine_ids(operation, one, two, found, room, space, room - 1) == BITPACKING_SHORT, "no work space");
    }
    expect(bitpacking_wide_set_combine_count(operation, one, two) == (ptrdiff_t)len, "another number is counted");
    if (len == 0) {
        expect(bitpacking_wide_set_combine_ids(operation, one, two, NULL, 0, NULL, 0) == 0, "no ids need room");
        return;
    }
    found[len - 1] = 0xA5, space[len - 1] = 0xA5;
    expect(bitpacking_wide_set_combine_ids(operation, one, two, found, len - 1, space, len - 1) == BITPACKING_SHORT, "room for one id less");
    expect(found[len - 1] == 0xA5 && space[len - 1] == 0xA5, "something after the room is written");
}

/* An operation writes the set of the ids at `right` into as much room as it needs, and into more. It refuses less. */
static void gives(uint32_t operation, const bitpacking_wide_set *one, const bitpacking_wide_set *two, size_t len)
{
    const ptrdiff_t wanted = bitpacking_wide_set_pack(right, len, answer_bytes, 2 * ROOM, space, len, NULL);
    const size_t size = (size_t)wanted, all = 2 * MOST;

    lists(operation, one, two, len);
    refused(bitpacking_wide_set_combine(operation, one, two, found, len, space, len, packed, size - 1), BITPACKING_SHORT, "a byte too few");
    refused(bitpacking_wide_set_combine(operation, one, two, found, len, space, len, NULL, 0), BITPACKING_SHORT, "no byte is enough");
    if (len > 0) {
        refused(bitpacking_wide_set_combine(operation, one, two, found, len - 1, space, all, packed, size), BITPACKING_SHORT, "an id too few");
        refused(bitpacking_wide_set_combine(operation, one, two, found, len, space, len - 1, packed, size), BITPACKING_SHORT, "too little space");
    }
    expect(bitpacking_wide_set_combine(operation, one, two, found, len, space, len, packed, size) == wanted, "another size is combined");
    expect(memcmp(packed, answer_bytes, size) == 0 && packed[size] == 0xA5, "other bytes are combined");
    memset(packed, 0xA5, size);
    expect(bitpacking_wide_set_combine(operation, one, two, found, all, space, all, packed, 2 * ROOM) == wanted, "another size with more room");
    expect(memcmp(packed, answer_bytes, size) == 0 && packed[size] == 0xA5, "other bytes with more room");
    memset(packed, 0xA5, size);
}

/* Each operation on the set of the row and another one, which are also compared. */
static void combines(const bitpacking_wide_set *set, size_t count)
{
    const bitpacking_wide_set other = opened(others, others_len, other_bytes);
    const size_t both = merged(count, 0, 1, 0);

    gives(BITPACKING_AND, set, &other, both);
    gives(BITPACKING_OR, set, &other, merged(count, 1, 1, 1));
    gives(BITPACKING_AND_NOT, set, &other, merged(count, 1, 0, 0));
    gives(BITPACKING_AND_NOT, &other, set, merged(count, 0, 0, 1));
    gives(BITPACKING_XOR, set, &other, merged(count, 1, 0, 1));
    expect(bitpacking_wide_set_is_disjoint(set, &other) == (both == 0), "sets share other ids");
    expect(bitpacking_wide_set_is_subset(set, &other) == (both == count), "a set is within another");
    expect(bitpacking_wide_set_is_subset(&other, set) == (both == others_len), "another is within a set");
}

/* The set of the row with the others, which are the ids of the row before; with every third of its ids, which are within it; with itself; and with
   none. Its ids are the next others. */
static void pairs(size_t count, size_t size)
{
    const bitpacking_wide_set none = BITPACKING_WIDE_SET_EMPTY;
    bitpacking_wide_set set = BITPACKING_WIDE_SET_EMPTY;

    bitpacking_wide_set_open_tested(bytes, size, &set);
    combines(&set, count);
    for (others_len = 0; 3 * others_len < count; others_len++)
        others[others_len] = ids[3 * others_len];
    combines(&set, count);
    others_len = 0;
    gives(BITPACKING_AND, &none, &set, merged(count, 0, 1, 0));
    gives(BITPACKING_AND_NOT, &set, &none, merged(count, 1, 0, 0));
    gives(BITPACKING_XOR, &none, &set, merged(count, 1, 1, 1));
    gives(BITPACKING_OR, &set, &set, merged(count, 1, 1, 1));
    expect(bitpacking_wide_set_is_subset(&none, &set) == 1 && bitpacking_wide_set_is_disjoint(&set, &none) == 1, "none of its ids");
    expect(bitpacking_wide_set_is_subset(&set, &none) == (count == 0) && bitpacking_wide_set_is_subset(&set, &set) == 1, "all of its ids");
    memcpy(others, ids, count * sizeof *ids);
    others_len = count;
}

/* Two arrays of ids give a set whose bytes docs/FORMAT.md works. */
static void works(uint32_t operation, const uint64_t *one, size_t one_len, const uint64_t *two, size_t two_len, const uint8_t *text, size_t size)
{
    const bitpacking_wide_set first = opened(one, one_len, bytes), second = opened(two, two_len, other_bytes);

    expect(bitpacking_wide_set_combine(operation, &first, &second, found, 16, space, 16, packed, size) == (ptrdiff_t)size, "another worked size");
    expect(memcmp(packed, text, size) == 0 && packed[size] == 0xA5, "other worked bytes");
    memset(packed, 0xA5, size);
}

/* Of both forms: 8 ids with one high word are in words, and fewer than 8 for each high word are spread out. */
static void worked(void)
{
    static const uint64_t low[] = {5000000000, 5000000002, 5000000004, 5000000005}, high[] = {5000000001, 5000000003, 5000000006, 5000000007};
    static const uint64_t first[] = {0, 1, 2, 3, 4, 5, 6, 7}, last[] = {8, 9, 10, 11, 12, 13, 14, UINT64_C(1) << 63};
    static const uint64_t few[] = {1, 7, (UINT64_C(1) << 32) + 1, UINT64_C(1) << 33}, five[] = {5, UINT64_C(1) << 40};
    static const uint8_t eight[] = {8, 8, 1, 0x11, 1, 0, 0, 0, 7, 8, 0x88, 0x80, 0xE4, 0x97, 0xD0, 2, 0};
    static const uint8_t sixteen[] = {8, 16, 2, 0x11, 0, 0, 0, 0, 0, 0, 0, 0x80, 3, 5, 15, 16, 0x8F, 0, 0, 0x81, 0};
    static const uint8_t three[] = {9, 3, 0x63, 0, 1, 3, 1, 0, 0, 0, 1, 0, 0, 0, 0, 0, 0, 0};
    static const uint8_t only_five[] = {9, 1, 0x61, 0, 5, 0, 0, 0}, none[] = {9, 0, 0x60};

    works(BITPACKING_OR, low, 4, high, 4, eight, sizeof eight);
    works(BITPACKING_XOR, first, 8, last, 8, sixteen, sizeof sixteen);
    works(BITPACKING_AND_NOT, few, 4, first + 4, 4, three, sizeof three);
    works(BITPACKING_AND, first, 8, five, 2, only_five, sizeof only_five);
    works(BITPACKING_AND, first, 8, last, 8, none, sizeof none);
}

/* A number that is no operation writes nothing. Zeros are two empty sets, of which nothing is read or written. */
static void combines_none(void)
{
    const bitpacking_wide_set none = BITPACKING_WIDE_SET_EMPTY, zeros = {0};
    uint32_t operation;

    found[0] = 0xA5, space[0] = 0xA5;
    for (operation = 0; operation < 5; operation++) {
        expect(bitpacking_wide_set_combine_ids(operation, &none, &none, found, 1, space, 1) == BITPACKING_BAD_KIND, "ids of no operation");
        expect(bitpacking_wide_set_combine_count(operation, &none, &none) == BITPACKING_BAD_KIND, "a count of no operation");
        refused(bitpacking_wide_set_combine(operation, &none, &none, found, 1, space, 0, packed, 0), BITPACKING_BAD_KIND, "a set of no operation");
    }
    expect(bitpacking_wide_set_combine_count(BITPACKING_XOR - 1, &none, &none) == BITPACKING_BAD_KIND, "a number below XOR");
    expect(found[0] == 0xA5 && space[0] == 0xA5, "a number that is no operation writes");
    expect(bitpacking_wide_set_combine_ids(BITPACKING_OR, &zeros, &none, NULL, 0, NULL, 0) == 0, "zeros have ids");
    expect(bitpacking_wide_set_combine(BITPACKING_XOR, &none, &zeros, NULL, 0, NULL, 0, packed, 3) == 3, "zeros have more bytes");
    expect(packed[0] == 9 && packed[1] == 0 && packed[2] == 0x60 && packed[3] == 0xA5, "zeros have other bytes");
    memset(packed, 0xA5, 3);
    expect(bitpacking_wide_set_is_subset(&zeros, &none) == 1 && bitpacking_wide_set_is_disjoint(&none, &zeros) == 1, "zeros share ids");
}

/* Bytes with a fault leave the view as it is. */
static void opens_none(size_t size, long number)
{
    const bitpacking_wide_set before = {packed, 3, 5, 7, packed, 2};
    bitpacking_wide_set set = before;

    expect(bitpacking_wide_set_open(bytes, size, &set) == -20 - number, "another number of a fault");
    expect(memcmp(&set, &before, sizeof set) == 0, "the view changes");
}

int main(void)
{
    size_t sets = 0, refusals = 0;
    char *column[COLUMNS];

    memset(packed, 0xA5, sizeof packed);
    combines_none();
    worked();
    while (next_row(column)) {
        if (table == REFUSED_BYTES) {
            opens_none(read_bytes(column[2], bytes), strtol(column[0], NULL, 10));
            refusals++;
        } else {
            const size_t size = read_bytes(column[1], bytes), count = read_ids(column[0]);

            packs(count, size);
            reads(count, size);
            pairs(count, size);
            if (count > 0)
                refuses(count);
            sets++;
        }
    }
    printf("%u wide sets, %u refusals\n", (unsigned)sets, (unsigned)refusals);
    return failed;
}
