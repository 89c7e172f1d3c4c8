/* Reads the tables vectors/columns.tsv and vectors/refused_columns.tsv. The values of each column are written in each way that there is, which has to
   give its bytes, and these are opened and asked for what plain loops over the values find: at each position, at many positions, from targets and
   ranges on that are drawn of a fixed seed, and for each block. Each call refuses what it has to, and writes nothing then. Prints what is wrong,
   and last how many columns and refusals it read. */
#include "bitpacking.h"

enum { MOST = 1600, ROOM = BITPACKING_COLUMN_ROOM(MOST), BLOCK = BITPACKING_4X_BLOCK_LEN, DRAWN = 24 };

typedef bitpacking_column view;
typedef bitpacking_column_builder builder;
#define CALL(name) bitpacking_column_##name
#include "written.h"

static uint8_t first_bytes[ROOM], other_bytes[ROOM], kind;
static uint32_t moved[MOST + 2];
static size_t positions[MOST + 2], right[MOST + 2];

static bitpacking_column opened(uint8_t its_kind, const uint32_t *given, size_t given_len, uint8_t *room)
{
    bitpacking_column column = BITPACKING_COLUMN_EMPTY;
    const ptrdiff_t len = bitpacking_column_pack(its_kind, given, given_len, room, ROOM, NULL);

    expect(len > 0 && bitpacking_column_open(room, (size_t)len, &column) == 0, "a part is not packed");
    return column;
}

/* A call left these values at the start of `found`, and nothing after them. */
static void leaves(ptrdiff_t answer, const uint32_t *its, size_t len, const char *what)
{
    expect(answer == (ptrdiff_t)len && memcmp(found, its, len * sizeof *its) == 0, what);
    expect(all_are(found + len, sizeof found - len * sizeof *found, 0xA5), what);
    memset(found, 0xA5, sizeof found);
}

/* ---- writing */

/* Whether a sorted column has a value before a position that can fall. */
static int can_fall(size_t at)
{
    return kind == BITPACKING_SORTED && at > 0 && values[at - 1] > 0;
}

static void packs(void)
{
    const size_t at = count > 0 ? count - 1 : 0;

    expect(size <= BITPACKING_COLUMN_ROOM(count), "there is more than the room that is enough");
    expect(bitpacking_column_size(kind, values, count, NULL) == (ptrdiff_t)size, "another size");
    WRITES(bitpacking_column_pack(kind, values, count, packed, len, &position), "other bytes are packed");
    REFUSES(bitpacking_column_size(BITPACKING_SORTED + 1, values, count, &position), BITPACKING_BAD_KIND, 77, "no kind");
    REFUSES(bitpacking_column_pack((uint8_t)(kind + 2), values, count, packed, 0, &position), BITPACKING_BAD_KIND, 77, "a kind");
    if (can_fall(at)) {
        const uint32_t it = values[at];

        values[at] = values[at - 1] - 1;
        REFUSES(bitpacking_column_pack(BITPACKING_SORTED, values, count, packed, 0, &position), BITPACKING_NOT_SORTED, at, "a fall");
        REFUSES(bitpacking_column_size(BITPACKING_SORTED, values, count, &position), BITPACKING_NOT_SORTED, at, "its size");
        values[at] = it;
    }
}

/* The values from a cut on are appended to those before it. */
static void appends(size_t cut)
{
    const bitpacking_column first = opened(kind, values, cut, first_bytes);

    WRITES(bitpacking_column_append(&first, values + cut, count - cut, packed, len, &position), "other bytes are appended");
    if (can_fall(cut)) {
        const uint32_t falls[2] = {values[cut - 1], values[cut - 1] - 1};

        REFUSES(bitpacking_column_append(&first, falls, 2, packed, 0, &position), BITPACKING_NOT_SORTED, cut + 1, "a fall is appended");
    }
}

/* The values from a cut on, less a base, are joined to those before it. The other column may be plain. */
static void joins(size_t cut, uint8_t other_kind)
{
    const bitpacking_column first = opened(kind, values, cut, first_bytes);
    const size_t left = count - cut;
    bitpacking_column other;
    uint32_t base = left > 0 ? values[cut] : 5;
    size_t i;

    for (i = cut; i < count; i++)
        base = values[i] < base ? values[i] : base;
    for (i = 0; i < left; i++)
        moved[i] = values[cut + i] - base;
    other = opened(other_kind, moved, left, other_bytes);
    if (left > 0)
        refused(bitpacking_column_join(&first, base, &other, work, left - 1, packed, ROOM, NULL), BITPACKING_SHORT, "no work space");
    WRITES(bitpacking_column_join(&first, base, &other, work, len == ROOM ? MOST : left, packed, len, &position), "other bytes are joined");
    if (left > 0 && moved[left - 1] > 0)
        refused(bitpacking_column_join(&first, UINT32_MAX, &other, work, left, packed, ROOM, NULL), BITPACKING_BAD_BASE, "a base is too great");
    if (can_fall(cut) && left > 0 && moved[0] < values[cut - 1])
        REFUSES(bitpacking_column_join(&first, 0, &other, work, left, packed, 0, &position), BITPACKING_NOT_SORTED, cut, "a join falls");
}

/* A builder of the kind of the row, with room for it. */
static void starts(size_t cut)
{
    bitpacking_column_builder it = BITPACKING_COLUMN_BUILDER_EMPTY;
    const uint32_t fall = can_fall(cut) ? values[cut - 1] - 1 : 0;

    expect(bitpacking_column_builder_start(&it, kind, work, count) == 0, "no builder");
    builds(&it, cut, can_fall(cut) ? &fall : NULL);
}

/* ---- reading */

/* The values from a position on, into this room. */
static void ranges(const bitpacking_column *column, size_t from, size_t room)
{
    const size_t left = from < count ? count - from : 0;

    leaves(bitpacking_column_range(column, from, found, room), values + (left > 0 ? from : 0), left < room ? left : room, "values from on");
}

/* The values at positions that are drawn, in order or in any. */
static void gathers(const bitpacking_column *column, size_t len, int in_order)
{
    size_t i, at = 0;

    for (i = 0; i < len; i++) {
        at = in_order ? at + drawn(3) : drawn(count);
        positions[i] = at < count ? at : count - 1;
        moved[i] = values[positions[i]];
    }
    expect(len == 0 || bitpacking_column_gather(column, positions, len, found, len - 1) == BITPACKING_SHORT, "no room at positions");
    positions[len] = count + drawn(2) * 1000;
    expect(bitpacking_column_gather(column, positions, len + 1, found, MOST) == BITPACKING_BAD_POSITION, "a position after the last");
    leaves(bitpacking_column_gather(column, positions, len, found, len), moved, len, "other values at positions");
}

/* ---- searching */

static void seeks(const bitpacking_column *column, uint32_t target)
{
    size_t at = 0;
    uint32_t item = 78;

    for (at = kind == BITPACKING_PLAIN ? count : 0; at < count && values[at] < target; at++)
        continue;
    position = 77;
    expect(bitpacking_column_seek(column, target, &position, &item) == (kind == BITPACKING_PLAIN ? BITPACKING_BAD_KIND : at < count), "a search");
    expect(position == (at < count ? at : 77) && item == (at < count ? values[at] : 78), "another value is found");
}

/* The positions of the values of a range: all, or from a position on as many as there is room for. */
static void finds(const bitpacking_column *column, uint32_t low, uint32_t high)
{
    const size_t room = drawn(40), start = drawn(count + 2);
    size_t len = 0, before = 0, i;

    for (i = 0; i < count; i++)
        if (low <= values[i] && values[i] <= high) {
            right[len++] = i;
            before += i < start;
        }
    expect(bitpacking_column_count_between(column, low, high) == len, "another count of a range");
    for (i = 0; i < 2; i++) {
        const size_t from = i * before, most = i == 0 ? MOST : room, wanted = len - from < most ? len - from : most;

        memset(positions, 0xA5, sizeof positions);
        expect(bitpacking_column_between(column, low, high, i * start, positions, most) == wanted, "another number of a range");
        expect(memcmp(positions, right + from, wanted * sizeof *right) == 0, "other positions of a range");
        expect(all_are(&positions[wanted], sizeof *positions, 0xA5), "more positions of a range");
    }
    expect(bitpacking_column_between(column, low, high, count, positions, 1) == 0, "a position from the length on");
}

/* A number that is there, or next to one, or any. */
static uint32_t near(void)
{
    return count > 0 && drawn(4) > 0 ? values[drawn(count)] + drawn(3) - 1 : drawn((uint64_t)1 << 32);
}

/* All values of a block are within its bounds. rust/src/tests/column_searching.rs tests which they are. */
static void bounds(const bitpacking_column *column)
{
    uint32_t least = 77, greatest = 78;
    size_t i;

    expect(bitpacking_column_bounds(column, count / BLOCK, &least, &greatest) == BITPACKING_BAD_BLOCK, "bounds of a tail");
    expect(bitpacking_column_bounds(column, SIZE_MAX, &least, &greatest) == BITPACKING_BAD_BLOCK, "bounds of the greatest block");
    expect(least == 77 && greatest == 78, "bounds of no block are written");
    for (i = 0; i < count / BLOCK * BLOCK; i++) {
        expect(bitpacking_column_bounds(column, i / BLOCK, &least, &greatest) == 0, "a block has no bounds");
        expect(least <= values[i] && values[i] <= greatest, "a value is out of the bounds of its block");
    }
}

static void accepts(void)
{
    bitpacking_column column = BITPACKING_COLUMN_EMPTY, tested = BITPACKING_COLUMN_EMPTY;
    int i;

    expect(bitpacking_column_open(bytes, size, &column) == 0 && column.bytes == bytes && column.bytes_len == size, "it is refused");
    bitpacking_column_open_tested(bytes, size, &tested);
    expect(memcmp(&tested, &column, offsetof(bitpacking_column, kind) + 1) == 0, "it is opened otherwise");
    expect(bitpacking_column_len(&column) == count && bitpacking_column_kind(&column) == kind, "another length or kind");
    gets_each(&column);
    unpacks(&column);
    unpacks(&tested);
    ranges(&column, 0, MOST);
    ranges(&column, SIZE_MAX, MOST);
    gathers(&column, 0, 0);
    seeks(&column, 0);
    seeks(&column, UINT32_MAX);
    finds(&column, 0, UINT32_MAX);
    finds(&column, UINT32_MAX, 0);
    for (i = 0; i < DRAWN; i++) {
        const uint32_t low = near(), high = i % 3 == 0 ? low + drawn(4) : near();

        ranges(&column, drawn(count + 3), drawn(count + 3));
        gathers(&column, count > 0 ? drawn(200) : 0, i % 2);
        seeks(&column, low);
        finds(&column, low, high);
    }
    bounds(&column);
    expect(bitpacking_column_open(bytes, size + 1, &column) == BITPACKING_TRAILING && column.bytes_len == size, "a byte is left over");
    expect(bitpacking_column_open(bytes, size - 1, &column) < 0 && column.bytes_len == size, "its last byte is not needed");
}

/* Nothing is read through a pointer to no items. A view of zeros is the empty plain column, and a builder of zeros one without room. */
static void empty(void)
{
    bitpacking_column column = BITPACKING_COLUMN_EMPTY;
    bitpacking_column_builder pushed = BITPACKING_COLUMN_BUILDER_EMPTY;
    uint8_t byte = 0xA5;
    uint32_t item = 77, high = 79;

    position = 78;
    expect(bitpacking_column_unpack(&column, NULL, 0) == 0 && bitpacking_column_range(&column, 0, NULL, 0) == 0, "a view of zeros has values");
    expect(bitpacking_column_kind(&column) == BITPACKING_PLAIN && bitpacking_column_get(&column, 0, &item) == 0, "a value of zeros");
    expect(bitpacking_column_seek(&column, 0, &position, &item) == BITPACKING_BAD_KIND, "zeros are searched");
    expect(bitpacking_column_gather(&column, NULL, 0, NULL, 0) == 0, "values of zeros at no position");
    expect(bitpacking_column_gather(&column, &position, 1, &item, 1) == BITPACKING_BAD_POSITION, "values of zeros at a position");
    expect(bitpacking_column_between(&column, 0, UINT32_MAX, 0, &position, 1) == 0, "zeros have positions within a range");
    expect(bitpacking_column_bounds(&column, 0, &item, &high) == BITPACKING_BAD_BLOCK, "zeros have a block");
    expect(bitpacking_column_append(&column, NULL, 0, &byte, 1, NULL) == 1 && byte == 0x40, "no value is not appended to zeros");
    expect(bitpacking_column_join(&column, 9, &column, NULL, 0, &byte, 1, NULL) == 1 && byte == 0x40, "zeros are not joined");
    expect(bitpacking_column_pack(BITPACKING_PLAIN, NULL, 0, NULL, 0, NULL) == BITPACKING_SHORT, "the empty column needs no byte");
    expect(bitpacking_column_open(NULL, 0, &column) == BITPACKING_TRUNCATED && column.bytes == NULL, "no bytes are a column");
    expect(bitpacking_column_builder_push(&pushed, 1) == BITPACKING_SHORT, "it is pushed");
    expect(bitpacking_column_builder_start(&pushed, 2, &item, 1) == BITPACKING_BAD_KIND && pushed.values == NULL, "no kind");
    expect(bitpacking_column_builder_finish(&pushed, &byte, 1) == 1 && byte == 0x40, "another empty plain column");
    expect(item == 77 && position == 78 && high == 79, "something is written for no value");
}

int main(void)
{
    size_t columns = 0, refusals = 0, cut;
    char *column[COLUMNS];

    memset(packed, 0xA5, sizeof packed);
    memset(found, 0xA5, sizeof found);
    empty();
    while (next_row(column))
        if (table == REFUSED_BYTES) {
            bitpacking_column view;

            read_row(column[2]);
            REFUSES_TO_OPEN(view, bitpacking_column_open(bytes, size, &view));
            refusals++;
        } else {
            kind = kind_of(column[0]);
            count = read_values(column[1], values);
            read_row(column[2]);
            packs();
            accepts();
            for (cut = 0; cut <= count; cut += 1 + count / 5) {
                starts(cut);
                appends(cut);
                joins(cut, kind);
                joins(cut, BITPACKING_PLAIN);
            }
            columns++;
        }
    printf("%lu columns, %lu refusals\n", (unsigned long)columns, (unsigned long)refusals);
    return failed;
}
