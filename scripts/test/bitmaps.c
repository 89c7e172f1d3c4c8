/* Reads the tables vectors/bitmaps.tsv and vectors/refused_bitmaps.tsv, of bitmaps in Roaring's portable format. Each is written as the set of its ids
   with the work space and the room that it needs, with more and with less, and is refused if it is cut or goes on. Its set is written as a bitmap, as
   CRoaring does if the table says so. Other bytes are refused for their fault, also without work space and room. Prints what is wrong, and last how many
   bitmaps and refusals it read. */
#include "bitpacking.h"

#include "tables.h"

enum { CONTAINERS = 4097, MOST = 320000, ITEMS = 4 * CONTAINERS, LEN = 1 << 18, ROOM = BITPACKING_SET_ROOM(MOST) };

static uint8_t roaring[LEN], written[LEN], set[ROOM + 1], right[ROOM];
static uint32_t ids[MOST], room[ITEMS + 1];

/* A bitmap is written as the set in `right`. */
static void reads(size_t len, ptrdiff_t wanted)
{
    const size_t items = bitpacking_set_from_roaring_room(roaring, len), size = (size_t)wanted;

    expect(wanted > 0 && items < ITEMS, "too much work space");
    room[items] = 77;
    set[size] = 0xA5;
    expect(bitpacking_set_from_roaring(roaring, len, room, items, set, size) == wanted, "another size");
    expect(memcmp(set, right, size) == 0 && set[size] == 0xA5 && room[items] == 77, "other bytes");
    memset(set, 0, size);
    expect(bitpacking_set_from_roaring(roaring, len, room, ITEMS, set, ROOM) == wanted, "another size with more room");
    expect(memcmp(set, right, size) == 0, "other bytes with more room");
    expect(bitpacking_set_from_roaring(roaring, len, room, items, set, size - 1) == BITPACKING_SHORT, "a byte too few");
    expect(bitpacking_set_from_roaring(roaring, len, room, items, NULL, 0) == BITPACKING_SHORT, "no byte is enough");
    if (items > 0)
        expect(bitpacking_set_from_roaring(roaring, len, room, items - 1, set, ROOM) == BITPACKING_SHORT, "too little work space");
}

/* The set in `right` is written as a bitmap: this one, if CRoaring writes it. */
static void writes(size_t len, ptrdiff_t size, int by_croaring)
{
    bitpacking_set view = BITPACKING_SET_EMPTY;
    size_t wanted;

    expect(bitpacking_set_open(right, (size_t)size, &view) == 0, "a set is not opened");
    wanted = bitpacking_set_roaring_size(&view);
    expect(!by_croaring || wanted == len, "a bitmap of another size");
    memset(written, 0xA5, LEN);
    expect(bitpacking_set_to_roaring(&view, NULL, 0) == wanted, "another size without room");
    expect(bitpacking_set_to_roaring(&view, written, wanted - 1) == wanted && written[0] == 0xA5, "written with a byte too few");
    expect(bitpacking_set_to_roaring(&view, written, wanted) == wanted && written[wanted] == 0xA5, "another size of a bitmap");
    expect(!by_croaring || memcmp(written, roaring, wanted) == 0, "other bytes of a bitmap");
    expect(bitpacking_set_from_roaring(written, wanted, room, ITEMS, set, ROOM) == size && memcmp(set, right, (size_t)size) == 0, "another set");
}

/* Bytes are refused for a fault, which comes before a lack of room. */
static void refuses(size_t len, ptrdiff_t number)
{
    const size_t items = bitpacking_set_from_roaring_room(roaring, len);

    expect(bitpacking_set_from_roaring(roaring, len, room, ITEMS, set, ROOM) == number, "another fault");
    expect(bitpacking_set_from_roaring(roaring, len, NULL, 0, NULL, 0) == number, "another fault without room");
    expect(items <= ITEMS, "too much work space for a fault");
    expect(strcmp(bitpacking_error_text(number), bitpacking_error_text(1)) != 0, "an error without a text");
}

static void cuts(size_t len)
{
    refuses(len - 1, BITPACKING_TRUNCATED);
    refuses(len / 2, BITPACKING_TRUNCATED);
    refuses(0, BITPACKING_TRUNCATED);
    expect(bitpacking_set_from_roaring_room(roaring, 3) == 0, "work space for a cookie of three bytes");
    roaring[len] = 0;
    refuses(len + 1, BITPACKING_TRAILING);
}

static size_t put(size_t at, size_t len, uint32_t value)
{
    size_t i;

    for (i = 0; i < len; i++)
        roaring[at + i] = (uint8_t)(value >> 8 * i);
    return at + len;
}

/* The bitmap of all numbers of the first `count` keys, each a container of one run. Returns its length. */
static size_t all_of(uint32_t count)
{
    const size_t flags = ((size_t)count + 7) / 8, bodies = 4 + flags + 8 * (size_t)count;
    size_t at = put(put(0, 2, 12347), 2, count - 1);
    uint32_t key;

    memset(roaring + at, 0xFF, flags);
    for (at += flags, key = 0; key < count; key++)
        at = put(put(at, 2, key), 2, 65535);
    for (key = 0; key < count; key++)
        at = put(at, 4, (uint32_t)bodies + 6 * key);
    for (key = 0; key < count; key++)
        at = put(put(put(at, 2, 1), 2, 0), 2, 65535);
    return at;
}

/* As many ids as a set has, and more. */
static void most(void)
{
    size_t len = all_of(CONTAINERS - 1);
    ptrdiff_t size;

    size = bitpacking_set_pack_range(0, 268435456, right, ROOM);
    reads(len, size);
    writes(len, size, 1);
    len = all_of(CONTAINERS);
    expect(bitpacking_set_from_roaring_room(roaring, len) == ITEMS, "work space for each container");
    expect(bitpacking_set_from_roaring(roaring, len, room, ITEMS, set, ROOM) == BITPACKING_TOO_LONG, "too many ids");
    expect(bitpacking_set_from_roaring(roaring, len, room, ITEMS - 1, set, ROOM) == BITPACKING_SHORT, "work space comes before it");
}

int main(void)
{
    size_t bitmaps = 0, refusals = 0;
    char *column[COLUMNS];

    most();
    while (next_row(column))
        if (table == REFUSED_BYTES) {
            refuses(read_bytes(column[2], roaring), -20 - atoi(column[0]));
            refusals++;
        } else {
            const size_t len = read_bytes(column[1], roaring);
            const ptrdiff_t size = bitpacking_set_pack(ids, read_values(column[0], ids), right, ROOM, NULL);

            reads(len, size);
            writes(len, size, strcmp(column[2], "yes") == 0);
            cuts(len);
            bitmaps++;
        }
    printf("%u bitmaps, %u refusals\n", (unsigned)bitmaps, (unsigned)refusals);
    return failed;
}
