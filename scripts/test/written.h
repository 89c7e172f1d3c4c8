/* What the programs over sets and over columns share: they compare what calls write with the bytes of a row, and what views and builders say with its
   values. A program sets MOST and ROOM, the most values of a row and bytes of a call, and `view`, `builder` and CALL, before it includes this. */
#ifndef WRITTEN_H
#define WRITTEN_H

#include "tables.h"

enum { MORE = 64 };

/* The bytes of the row and how many they are, and what a call writes. */
static uint8_t bytes[ROOM + MORE], packed[ROOM + MORE];
static size_t size;
/* Where a call puts a position. */
static size_t position;
/* The values of the row, what a call finds, and room for its work. */
static uint32_t values[MOST + 2], found[2 * MOST + 2], work[MOST + 2];
static uint64_t sums[MOST + 2];
static size_t count;

/* Reads the bytes of the row. */
static void read_row(const char *digits)
{
    size = read_bytes(digits, bytes);
    bytes[size] = 0;
}

static int all_are(const void *given, size_t len, uint8_t byte)
{
    const uint8_t *text = (const uint8_t *)given;
    size_t i;

    for (i = 0; i < len && text[i] == byte; i++)
        continue;
    return i == len;
}

/* A call wrote the bytes of the row at the start of `packed`, and nothing after them. */
static void wrote(ptrdiff_t answer, const char *what)
{
    expect(answer == (ptrdiff_t)size && memcmp(packed, bytes, size) == 0 && all_are(packed + size, MORE, 0xA5), what);
    memset(packed, 0xA5, size);
}

/* A call refused, and wrote nothing. */
static void refused(ptrdiff_t answer, ptrdiff_t number, const char *what)
{
    expect(answer == number && all_are(packed, size + MORE, 0xA5), what);
}

/* A call whose room is `len` bytes writes the bytes of the row into their length and into more, and refuses less. */
#define WRITES(call, what) \
    do { \
        size_t len = size - 1; \
        position = 77; \
        refused(call, BITPACKING_SHORT, what); \
        len = size; \
        wrote(call, what); \
        len = ROOM; \
        wrote(call, what); \
        expect(position == 77, what); \
    } while (0)

/* A call refuses what it is given at a position. */
#define REFUSES(call, error, at, what) \
    do { \
        position = 77; \
        refused(call, error, what); \
        expect(position == (at), what); \
    } while (0)

/* Opening refuses the bytes for their fault, and leaves the view as it was. The error has a text. */
#define REFUSES_TO_OPEN(view, call) \
    do { \
        const int number = -20 - atoi(column[0]); \
        memset(&view, 0, sizeof view); \
        expect(call == number && all_are(&view, sizeof view, 0), "it is opened, or has another fault"); \
        expect(strcmp(bitpacking_error_text(number), bitpacking_error_text(1)) != 0, "an error without a text"); \
    } while (0)

/* Each value by its position, also above a base, and none after the last. */
static void gets_each(const view *it)
{
    const uint64_t bases[3] = {0, UINT64_C(1) << 40, BITPACKING_MAX_BASE};
    uint32_t item = 77;
    uint64_t sum = 77;
    size_t i;

    for (i = 0; i < count; i += 1 + count / 30000) {
        expect(CALL(get)(it, i, &item) == 1 && item == values[i], "another value");
        expect(CALL(get_wide)(it, bases[i % 3], i, &sum) == 1 && sum == bases[i % 3] + values[i], "another sum");
    }
    item = 77, sum = 77;
    expect(CALL(get)(it, count, &item) == 0 && CALL(get)(it, SIZE_MAX, &item) == 0, "a value after the last");
    expect(CALL(get_wide)(it, 5, count, &sum) == 0, "a sum after the last");
    expect(CALL(get_wide)(it, BITPACKING_MAX_BASE + 1, 0, &sum) == BITPACKING_BAD_BASE, "a sum of too great a base");
    expect(item == 77 && sum == 77, "what is not there is written");
}

/* All values at once, also above a base, into room for them and into less. */
static void unpacks(const view *it)
{
    const uint64_t base = BITPACKING_MAX_BASE - 7;
    size_t i;

    memset(found, 0xA5, (count + 1) * sizeof *found);
    expect(count == 0 || CALL(unpack)(it, found, count - 1) == BITPACKING_SHORT, "too little room");
    expect(all_are(found, (count + 1) * sizeof *found, 0xA5), "values are written without room");
    expect(CALL(unpack)(it, found, MOST) == (ptrdiff_t)count && memcmp(found, values, count * sizeof *found) == 0, "other values");
    memset(sums, 0xA5, (count + 1) * sizeof *sums);
    expect(count == 0 || CALL(unpack_wide)(it, base, sums, count - 1) == BITPACKING_SHORT, "too little room for sums");
    expect(CALL(unpack_wide)(it, BITPACKING_MAX_BASE + 1, sums, count) == BITPACKING_BAD_BASE, "a base of all is too great");
    expect(all_are(sums, (count + 1) * sizeof *sums, 0xA5), "sums are written");
    expect(CALL(unpack_wide)(it, base, sums, count + 1) == (ptrdiff_t)count, "another number of sums");
    for (i = 0; i < count && sums[i] == base + values[i]; i++)
        continue;
    expect(i == count && all_are(sums + count, sizeof *sums, 0xA5), "other sums");
}

/* The row is pushed to a builder: the first values one by one, and those from a cut on at once. `wrong` may not come after those before the cut. */
static void builds(builder *it, size_t cut, const uint32_t *wrong)
{
    size_t i;

    for (i = 0; i < cut; i++)
        expect(CALL(builder_push)(it, values[i]) == (ptrdiff_t)i + 1, "a value is not pushed");
    if (wrong) {
        expect(CALL(builder_push)(it, *wrong) == BITPACKING_NOT_SORTED, "a value that is too low is pushed");
        expect(CALL(builder_extend)(it, wrong, 1, &position) == BITPACKING_NOT_SORTED && position == cut, "a value that is too low is appended");
    }
    position = 77;
    expect(CALL(builder_len)(it) == cut, "another number of pushed values");
    expect(CALL(builder_extend)(it, values + cut, count - cut, &position) == (ptrdiff_t)count, "values are not pushed");
    if (count == 0 || values[count - 1] < UINT32_MAX)
        expect(CALL(builder_push)(it, UINT32_MAX) == BITPACKING_SHORT, "a value is pushed without room");
    expect(CALL(builder_len)(it) == count && position == 77, "a refusal changes a builder");
    WRITES(CALL(builder_finish)(it, packed, len), "a builder writes other bytes");
}

#endif
