/* Times blocks and columns for scripts/bench/block_speed.py, as often as its argument says: the best round counts. Prints lines with tabs. Of each packer,
   kind and call: integers a second, over 2,048 in the first cache, the harmonic mean over the widths 1 to 32. Of columns of a million values: bits
   of a value, and for each call nanoseconds. */
#define _POSIX_C_SOURCE 199309L
#include "bitpacking.h"

#include <stdio.h>
#include <stdlib.h>
#include <time.h>

enum { FEW = 2048, AGAIN = 40, MANY = 1000000, MORE = 1000, ASKED = 20000 };

static uint32_t values[MANY + MORE], back[MANY + MORE], targets[ASKED];
static uint8_t bytes[BITPACKING_COLUMN_ROOM(MANY)], grown[BITPACKING_COLUMN_ROOM(MANY + MORE)];
static size_t positions[ASKED];
static volatile ptrdiff_t seen;

static uint32_t number(void)
{
    static uint64_t state = 1;

    state = state * 6364136223846793005u + 1442695040888963407u;
    return (uint32_t)(state >> 32);
}

static double now(void)
{
    struct timespec time;

    clock_gettime(CLOCK_THREAD_CPUTIME_ID, &time);
    return (double)time.tv_sec + 1e-9 * (double)time.tv_nsec;
}

/* Values whose codes have this width: the highest bit is set in one code of each row of eight. */
static void fill(int kind, int width)
{
    uint32_t mask = width == 32 ? 0xFFFFFFFFu : (1u << width) - 1, code, last = kind == 2 ? 0xFFFFFFFFu : 0;
    size_t i;

    for (i = 0; i < FEW; i++) {
        code = (number() & mask) | (i % 8 == 0 ? mask ^ (mask >> 1) : 0);
        last = kind == 0 ? code : last + code + (kind == 2);
        values[i] = last;
    }
}

/* The least time of calls at the places from 0 up to an end, in seconds. */
#define LEAST(again, end, step, call) \
    do { \
        int round_, again_; \
        size_t at; \
        double start_, took_; \
        for (round_ = 0; round_ < rounds; round_++) { \
            start_ = now(); \
            for (again_ = 0; again_ < (again); again_++) \
                for (at = 0; at < (end); at += (step)) \
                    seen = (ptrdiff_t)(call); \
            took_ = (now() - start_) / (again); \
            if (round_ == 0 || took_ < least) \
                least = took_; \
        } \
    } while (0)

/* A packer and a kind: `FIRST` is the value before the first one of a block and a comma, or nothing. */
#define BLOCKS(lanes, name, suffix, kind, FIRST) \
    do { \
        const size_t len = 32 * (lanes); \
        double least = 0, sums[3] = {0, 0, 0}; \
        uint8_t bits; \
        int width; \
        for (width = 1; width <= 32; width++) { \
            const size_t size = len * (size_t)width / 8; \
            fill(kind, width); \
            LEAST(AGAIN, FEW, len, bitpacking_##name##_pack##suffix(FIRST values + at, len, bytes + at * 4, 4 * len, &bits)); \
            sums[0] += least; \
            for (size_t at = 0; at < FEW; at += len) \
                if (bitpacking_##name##_compress##suffix(FIRST values + at, len, bytes + at * 4, 4 * len, 32) < 0) \
                    exit(EXIT_FAILURE); \
            LEAST(AGAIN, FEW, len, bitpacking_##name##_decompress##suffix(FIRST bytes + at * 4, size, back + at, len, (uint8_t)width)); \
            sums[1] += least; \
            LEAST(AGAIN, FEW, len, bitpacking_##name##_num_bits##suffix(FIRST values + at, len)); \
            sums[2] += least; \
        } \
        printf("block\t" #name "\t" #kind "\t%.9g\t%.9g\t%.9g\n", 32 * FEW / sums[0], 32 * FEW / sums[1], 32 * FEW / sums[2]); \
    } while (0)

/* A column of numbers below a bound, or of sums of such gaps. */
static void time_column(uint8_t kind, uint32_t bound, int rounds)
{
    bitpacking_column column = BITPACKING_COLUMN_EMPTY;
    double least = 0;
    uint32_t value;
    ptrdiff_t size;
    size_t i, place;

    for (i = 0; i < MANY + MORE; i++)
        values[i] = number() % bound + (kind == BITPACKING_SORTED && i > 0 ? values[i - 1] : 0);
    for (i = 0; i < ASKED; i++) {
        positions[i] = number() % MANY;
        targets[i] = values[positions[i]];
    }
    size = bitpacking_column_pack(kind, values, MANY, bytes, sizeof bytes, NULL);
    if (size < 0 || bitpacking_column_open(bytes, (size_t)size, &column) != 0)
        exit(EXIT_FAILURE);
    printf("column\t%d\t%u\t%.3g", kind, (unsigned)bound, 8.0 * (double)size / MANY);
#define TIME(end, each, call) \
    do { \
        LEAST(1, end, 1, call); \
        printf("\t%.3g", 1e9 * least / (each)); \
    } while (0)
    TIME(1, MANY, bitpacking_column_pack(kind, values, MANY, bytes, sizeof bytes, NULL));
    TIME(1, MANY, bitpacking_column_open(bytes, (size_t)size, &column));
    TIME(1, MANY, bitpacking_column_unpack(&column, back, MANY));
    TIME(ASKED, ASKED, bitpacking_column_get(&column, positions[at], &value));
    TIME(1, ASKED, bitpacking_column_gather(&column, positions, ASKED, back, ASKED));
    TIME(ASKED, ASKED, bitpacking_column_seek(&column, targets[at], &place, &value));
    TIME(100, 100, bitpacking_column_count_between(&column, targets[at], targets[at] + bound / 100));
    TIME(1, 1, bitpacking_column_append(&column, values + MANY, MORE, grown, sizeof grown, NULL));
    printf("\n");
}

#define BEFORE at == 0 ? BITPACKING_NO_INITIAL : values[at - 1],
#define SORTED_BEFORE at == 0 ? 0 : values[at - 1],

int main(int count, char **words)
{
    const int rounds = count > 1 ? atoi(words[1]) : 5;

    BLOCKS(1, 1x, , 0, );
    BLOCKS(1, 1x, _sorted, 1, SORTED_BEFORE);
    BLOCKS(1, 1x, _strictly_sorted, 2, BEFORE);
    BLOCKS(4, 4x, , 0, );
    BLOCKS(4, 4x, _sorted, 1, SORTED_BEFORE);
    BLOCKS(4, 4x, _strictly_sorted, 2, BEFORE);
    BLOCKS(8, 8x, , 0, );
    BLOCKS(8, 8x, _sorted, 1, SORTED_BEFORE);
    BLOCKS(8, 8x, _strictly_sorted, 2, BEFORE);
    time_column(BITPACKING_PLAIN, 1 << 5, rounds);
    time_column(BITPACKING_PLAIN, 1 << 20, rounds);
    time_column(BITPACKING_SORTED, 20, rounds);
    time_column(BITPACKING_SORTED, 2000, rounds);
    return EXIT_SUCCESS;
}
