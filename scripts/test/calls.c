/* Calls on blocks that scripts/test/c.py runs as C99 and as C++, also under the address sanitizer: bytes worked by hand, each error with nothing
   written, null pointers. Every width and kind is tested in rust/src/tests.rs. Prints what is wrong, and last that it made all calls. */
#include "bitpacking.h"

#include <stdio.h>
#include <string.h>

static int failed;

static void expect(const char *call, ptrdiff_t found, ptrdiff_t right)
{
    if (found != right) {
        printf("%s: %ld and not %ld\n", call, (long)found, (long)right);
        failed = 1;
    }
}

#define EXPECT(call, right) expect(#call, call, right)

/* The values 0 to 7, four times: at three bits each, the lowest bit first, 000 100 010 110 001 101 011 111 are 88 C6 FA. */
static void worked(void)
{
    static const uint8_t right[3] = {0x88, 0xC6, 0xFA};
    uint32_t values[32], back[32];
    uint8_t bytes[12], width = 77;
    int i;

    for (i = 0; i < 32; i++)
        values[i] = (uint32_t)i % 8;
    EXPECT(bitpacking_1x_num_bits(values, 32), 3);
    EXPECT(bitpacking_1x_pack(values, 32, bytes, 12, &width), 12);
    EXPECT(width, 3);
    for (i = 0; i < 12; i++)
        EXPECT(bytes[i], right[i % 3]);
    memset(bytes, 0, sizeof bytes);
    EXPECT(bitpacking_1x_compress(values, 32, bytes, 12, 3), 12);
    for (i = 0; i < 12; i++)
        EXPECT(bytes[i], right[i % 3]);
    EXPECT(bitpacking_1x_decompress(bytes, 12, back, 32, 3), 12);
    EXPECT(memcmp(values, back, sizeof values), 0);
}

/* A strictly sorted block from 0 on has the width 0 and no bytes. */
static void none(void)
{
    uint32_t values[128], back[128];
    uint8_t width = 77;
    int i;

    for (i = 0; i < 128; i++)
        values[i] = (uint32_t)i;
    EXPECT(bitpacking_no_initial() == BITPACKING_NO_INITIAL, 1);
    EXPECT(bitpacking_version(), BITPACKING_VERSION);
    EXPECT(bitpacking_4x_pack_strictly_sorted(BITPACKING_NO_INITIAL, values, 128, NULL, 0, &width), 0);
    EXPECT(width, 0);
    EXPECT(bitpacking_4x_decompress_strictly_sorted(BITPACKING_NO_INITIAL, NULL, 0, back, 128, 0), 0);
    EXPECT(memcmp(values, back, sizeof values), 0);
}

/* Kinds and rooms, whose values programs may store. A room is a constant expression, also of a sum. */
static void constants(void)
{
    uint8_t set[BITPACKING_SET_ROOM(30 + 3)], column[BITPACKING_COLUMN_ROOM(30 + 3)];

    EXPECT(BITPACKING_PLAIN, 0);
    EXPECT(BITPACKING_SORTED, 1);
    EXPECT(BITPACKING_SET_ROOM(0), 10);
    EXPECT(sizeof set, 10 + 33 * 9 / 2);
    EXPECT(BITPACKING_COLUMN_ROOM(0), 16);
    EXPECT(sizeof column, 16 + 33 * 4 + 33 / 4);
}

/* Each error of the calls on blocks, and that the buffers are as they were. */
static void errors(void)
{
    uint32_t values[BITPACKING_MAX_BLOCK_LEN], back[BITPACKING_MAX_BLOCK_LEN];
    uint8_t bytes[BITPACKING_MAX_BLOCK_SIZE], width = 77;
    int i;

    for (i = 0; i < 256; i++)
        values[i] = 4294967295u, back[i] = 9;
    memset(bytes, 9, sizeof bytes);
    EXPECT(bitpacking_8x_pack(values, 255, bytes, sizeof bytes, &width), BITPACKING_BAD_LENGTH);
    EXPECT(bitpacking_8x_pack(values, 256, bytes, 1023, &width), BITPACKING_SHORT);
    EXPECT(bitpacking_8x_compress(NULL, 0, NULL, 0, BITPACKING_MAX_WIDTH + 1), BITPACKING_BAD_WIDTH);
    EXPECT(bitpacking_8x_compress(values, 128, NULL, 0, 31), BITPACKING_BAD_LENGTH);
    EXPECT(bitpacking_8x_compress(values, 256, bytes, 991, 31), BITPACKING_SHORT);
    EXPECT(bitpacking_8x_compress(values, 256, bytes, 992, 31), BITPACKING_UNFIT);
    EXPECT(bitpacking_8x_num_bits(NULL, 0), BITPACKING_BAD_LENGTH);
    EXPECT(bitpacking_8x_decompress(bytes, 1024, back, 255, 33), BITPACKING_BAD_LENGTH);
    EXPECT(bitpacking_8x_decompress(bytes, 1024, back, 256, 33), BITPACKING_BAD_WIDTH);
    EXPECT(bitpacking_8x_decompress(bytes, 31, back, 256, 1), BITPACKING_SHORT);
    EXPECT(width, 77);
    for (i = 0; i < 256; i++)
        EXPECT(back[i], 9);
    for (i = 0; i < 1024; i++)
        EXPECT(bytes[i], 9);
    EXPECT(bitpacking_8x_compress(values, 256, bytes, 1024, BITPACKING_MAX_WIDTH), 1024);
    EXPECT(sizeof values / sizeof *values, BITPACKING_8X_BLOCK_LEN);
    EXPECT(BITPACKING_MAX_LANES * BITPACKING_LANE_LEN, BITPACKING_8X_BLOCK_LEN);
    EXPECT(BITPACKING_1X_BLOCK_LEN + BITPACKING_4X_BLOCK_LEN, 160);
    EXPECT(BITPACKING_1X_BLOCK_SIZE(1 + 1) + BITPACKING_4X_BLOCK_SIZE(1 + 1) + BITPACKING_8X_BLOCK_SIZE(1 + 1), 8 + 32 + 64);
}

/* A chain of one lane, worked by hand: 32 gaps of 1 at one bit each, and 32 gaps of 2 at two bits each. */
static void chains(void)
{
    static const uint8_t right[13] = {0xFF, 0xFF, 0xFF, 0xFF, 0xAA, 0xAA, 0xAA, 0xAA, 0xAA, 0xAA, 0xAA, 0xAA, 9};
    uint32_t values[64], back[64];
    uint8_t bytes[256], widths[2] = {9, 9}, wide[2] = {1, 33};
    int i;

    for (i = 0; i < 64; i++)
        values[i] = i < 32 ? (uint32_t)i + 1 : (uint32_t)(2 * i - 30), back[i] = 9;
    memset(bytes, 9, sizeof bytes);
    EXPECT(bitpacking_1x_pack_all_sorted(0, values, 63, widths, 2, bytes, 256), BITPACKING_BAD_LENGTH);
    EXPECT(bitpacking_1x_pack_all_sorted(0, values, 64, widths, 1, bytes, 256), BITPACKING_BAD_LENGTH);
    EXPECT(bitpacking_1x_pack_all_sorted(0, values, 64, widths, 2, bytes, 11), BITPACKING_SHORT);
    for (i = 0; i < 256; i++)
        EXPECT(bytes[i], 9);
    EXPECT(widths[0] + widths[1], 18);
    EXPECT(bitpacking_1x_pack_all_sorted(0, values, 64, widths, 2, bytes, 12), 12);
    EXPECT(widths[0] * 10 + widths[1], 12);
    EXPECT(memcmp(bytes, right, sizeof right), 0);
    EXPECT(bitpacking_1x_unpack_all_sorted(0, wide, 2, bytes, 256, back, 64), BITPACKING_BAD_WIDTH);
    EXPECT(bitpacking_1x_unpack_all_sorted(0, widths, 2, bytes, 11, back, 64), BITPACKING_SHORT);
    EXPECT(bitpacking_1x_unpack_all_sorted(0, widths, 2, bytes, 12, back, 63), BITPACKING_BAD_LENGTH);
    EXPECT(back[0] + back[31] + back[63], 27);
    EXPECT(bitpacking_1x_unpack_all_sorted(0, widths, 2, bytes, 12, back, 64), 12);
    EXPECT(memcmp(values, back, sizeof values), 0);
    EXPECT(bitpacking_1x_pack_all(NULL, 0, NULL, 0, NULL, 0), 0);
    EXPECT(bitpacking_1x_unpack_all(NULL, 0, NULL, 0, NULL, 0), 0);
}

/* Each error of the header has its number and its sentence, and no other number has one of these. */
static void texts(void)
{
    static const struct {
        ptrdiff_t number, right;
    } errors[] = {{BITPACKING_BAD_LENGTH, -1},       {BITPACKING_BAD_WIDTH, -2},    {BITPACKING_SHORT, -3},
                  {BITPACKING_UNFIT, -4},            {BITPACKING_BAD_POSITION, -5}, {BITPACKING_BAD_BLOCK, -6},
                  {BITPACKING_BAD_BASE, -7},         {BITPACKING_NO_SET, -8},       {BITPACKING_TOO_DEEP, -9},
                  {BITPACKING_NO_OPERAND, -10},      {BITPACKING_LEFT_OVER, -11},   {BITPACKING_TRUNCATED, -21},
                  {BITPACKING_BAD_VERSION, -22},     {BITPACKING_BAD_KIND, -23},    {BITPACKING_TOO_LONG, -25},
                  {BITPACKING_BAD_GROUP_WIDTH, -26}, {BITPACKING_LOOSE_WIDTH, -27}, {BITPACKING_BAD_OFFSET, -28},
                  {BITPACKING_BAD_LAST, -29},        {BITPACKING_NOT_SORTED, -30},  {BITPACKING_TRAILING, -31},
                  {BITPACKING_BAD_NUMBER, -33},      {BITPACKING_PADDING, -34},     {BITPACKING_BAD_SIZES, -36},
                  {BITPACKING_BAD_KEY, -38},         {BITPACKING_BAD_SUM, -39},     {BITPACKING_BAD_BODY, -40},
                  {BITPACKING_LOOSE_BODY, -41},      {BITPACKING_LOOSE_FORM, -42},     {BITPACKING_BAD_TABLE, -12}};
    enum { COUNT = sizeof errors / sizeof *errors };
    const char *const no_error = "No error has this number.";
    ptrdiff_t number;
    size_t others = 0, i, j;

    for (i = 0; i < COUNT; i++) {
        EXPECT(errors[i].number, errors[i].right);
        for (j = 0; j < i; j++)
            EXPECT(strcmp(bitpacking_error_text(errors[i].number), bitpacking_error_text(errors[j].number)) != 0, 1);
    }
    EXPECT(strcmp(bitpacking_error_text(BITPACKING_TRUNCATED), "Bytes are missing."), 0);
    for (number = -100; number <= 100; number++)
        others += strcmp(bitpacking_error_text(number), no_error) == 0;
    EXPECT(others, 201 - COUNT);
}

int main(void)
{
    worked();
    none();
    constants();
    errors();
    chains();
    texts();
    printf("all calls\n");
    return failed;
}
