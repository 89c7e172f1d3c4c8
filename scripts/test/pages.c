/* Counts the pages of sets and columns that calls read: scripts/test/c.py runs it. All pages are protected before each call. One that is read
   faults, is counted, and can be read from then on. Prints what is wrong, and last that it made all calls. */
#define _DEFAULT_SOURCE
#include "bitpacking.h"

#include <signal.h>
#include <stdint.h>
#include <stdio.h>
#include <stdlib.h>
#include <sys/mman.h>

enum { PAGE = 4096, ALL = 16 << 20, CHUNKS = 40000, HALF = 40, VALUES = 2000000, MOST = 2000000 };

static uint8_t *bytes;
static size_t used, pages;
static int failed;

static void on_fault(int number, siginfo_t *info, void *context)
{
    const uintptr_t offset = (uintptr_t)info->si_addr - (uintptr_t)bytes;

    (void)context;
    if (offset < used) {
        pages++;
        mprotect(bytes + offset / PAGE * PAGE, PAGE, PROT_READ | PROT_WRITE);
    } else {
        signal(number, SIG_DFL);
    }
}

static void protect(void)
{
    pages = 0;
    mprotect(bytes, ALL, PROT_NONE);
}

static void expect(const char *call, int64_t found, int64_t right, size_t most)
{
    if (found != right || pages == 0 || pages > most) {
        printf("%s: %ld and not %ld, %lu pages of at most %lu\n", call, (long)found, (long)right, (unsigned long)pages, (unsigned long)most);
        failed = 1;
    }
}

/* A call, what it returns, and how many pages it may read. */
#define READS(call, right, most) (protect(), expect(#call, call, right, most))

static void must(int is, const char *what)
{
    if (!is) {
        puts(what);
        exit(1);
    }
}

/* Reserves the pages of a set or a column from the next page on, and returns how many there are. */
static size_t taken(ptrdiff_t size)
{
    const size_t count = ((size_t)size + PAGE - 1) / PAGE;

    must(size > 0, "a set or a column is not packed");
    used += count * PAGE;
    return count;
}

static size_t add_set(const uint32_t *ids, size_t count, bitpacking_set *view)
{
    uint8_t *start = bytes + used;
    const ptrdiff_t size = bitpacking_set_pack(ids, count, start, ALL - used, NULL);

    must(size > 0 && bitpacking_set_open(start, (size_t)size, view) == 0, "a set is not opened");
    return taken(size);
}

static size_t add_column(uint8_t kind, const uint32_t *values, size_t count, bitpacking_column *view)
{
    uint8_t *start = bytes + used;
    const ptrdiff_t size = bitpacking_column_pack(kind, values, count, start, ALL - used, NULL);

    must(size > 0 && bitpacking_column_open(start, (size_t)size, view) == 0, "a column is not opened");
    return taken(size);
}

/* 40,000 chunks of 4 ids, which are numbers. Before the keys are 8 bytes. The keys have 20 pages, the ends 30, the sums 30, and the bodies 79.
   To halve 30 pages reads at most 6 of them, and of 20 also 6. Beside them a search in a chunk reads the first page, two of ends or of sums each, if two
   neighbours are on two pages, a key, and two of the body. */
static void many_chunks(uint32_t *ids, uint32_t *out)
{
    enum { SEARCH = 1 + 6 + 2 + 2 + 2 };
    const uint32_t late = CHUNKS - 1000;
    bitpacking_set views[2] = {BITPACKING_SET_EMPTY, BITPACKING_SET_EMPTY};
    const uint32_t steps[] = {0, 1, BITPACKING_AND}, from[] = {0};
    uint64_t space[BITPACKING_QUERY_SPACE(2)], next = 0;
    size_t i, all, position;
    uint32_t id, few[2];

    for (i = 0; i < 4 * CHUNKS; i++)
        ids[i] = (uint32_t)(i << 14);
    all = add_set(ids, 4 * CHUNKS, &views[0]);
    must(all == 157, "a set of many chunks has other pages");
    for (i = 0; i < 128; i++)
        ids[i] = (uint32_t)((late << 16) + 0x4000 + i);
    add_set(ids, 128, &views[1]);
    few[0] = 7;
    few[1] = ids[0];

    READS(bitpacking_set_unpack(&views[0], out, MOST), 4 * CHUNKS, all);
    must(pages == all, "a page of a set that is unpacked is not counted");
    for (i = 1; i < 4 * CHUNKS; i += 9999) {
        READS(bitpacking_set_get(&views[0], i, &id), 1, SEARCH);
        must(id == i << 14, "another id");
        READS(bitpacking_set_contains(&views[0], (uint32_t)(i << 14)), 1, SEARCH);
        READS((int64_t)bitpacking_set_rank(&views[0], (uint32_t)(i << 14)), (int64_t)i, SEARCH);
        /* It also halves the sums. */
        READS(bitpacking_set_seek(&views[0], (uint32_t)(i << 14) - 1, &position, &id), 1, SEARCH + 6);
        must(id == i << 14 && position == i, "another id is found");
        READS(bitpacking_set_slice(&views[0], i, out, 1), 1, SEARCH);
    }
    /* A chunk is looked for from the first on, and the end from this one on; and one page of the other set. */
    READS(bitpacking_set_count_common(views, 2), 1, SEARCH + 6 + 1);
    READS(bitpacking_set_intersect(views, 2, out, MOST), 1, SEARCH + 6 + 1);
    READS(bitpacking_set_is_disjoint(&views[0], &views[1]), 0, SEARCH + 6 + 1);
    READS(bitpacking_set_is_disjoint(&views[1], &views[0]), 0, SEARCH + 6 + 1);
    READS(bitpacking_set_is_subset(&views[1], &views[0]), 0, SEARCH + 6 + 1);
    READS(bitpacking_set_query(views, 2, steps, 3, space, BITPACKING_QUERY_SPACE(2), &next, out, 9, &position), 1, SEARCH + 6 + 1);
    next = (uint64_t)late << 16;
    READS(bitpacking_set_query(views, 1, from, 1, space, BITPACKING_QUERY_SPACE(2), &next, out, 9, &position), 9, SEARCH + 6);
    must((out[0] >> 16) == late && (out[8] >> 16) == late + 2, "other ids of a query");
    /* Each of two ids is looked for. */
    READS(bitpacking_set_retain(&views[0], few, 2), 1, 2 * SEARCH);
    READS(bitpacking_set_remove(&views[0], few, 1), 0, SEARCH);
}

/* 40 chunks of each second id, or of all others. A body has a byte, 256 counts and 256 slices of 32 bytes, 8,449 bytes; before them are 326. The first page has
   the directory, and the first chunk is on three. A search in a chunk reads its counts and one slice, which may be on two pages each. */
static void great_chunks(uint32_t *ids, uint32_t *out)
{
    bitpacking_set even = BITPACKING_SET_EMPTY, odd = BITPACKING_SET_EMPTY, views[2];
    size_t i, position, all;
    uint32_t id;

    for (i = 0; i < HALF << 15; i++)
        ids[i] = (uint32_t)(2 * i);
    all = add_set(ids, HALF << 15, &even);
    must(all == 83, "a set of great chunks has other pages");
    for (i = 0; i < HALF << 15; i++)
        ids[i] = (uint32_t)(2 * i + 1);
    add_set(ids, HALF << 15, &odd);
    for (i = 1; i < HALF << 15; i += 99999) {
        READS(bitpacking_set_get(&even, i, &id), 1, 5);
        READS(bitpacking_set_contains(&even, (uint32_t)(2 * i)), 1, 5);
        READS((int64_t)bitpacking_set_rank(&even, (uint32_t)(2 * i)), (int64_t)i, 5);
        READS(bitpacking_set_seek(&even, (uint32_t)(2 * i - 1), &position, &id), 1, 5);
        must(id == 2 * i && position == i, "another id is found");
        /* Two chunks, if it ends with the first. */
        READS(bitpacking_set_slice(&even, i, out, 100), 100, 1 + 2 * 4);
    }
    READS(bitpacking_set_is_subset(&even, &odd), 0, 2 * 3);
    READS(bitpacking_set_is_disjoint(&even, &even), 0, 3);
    views[0] = views[1] = even;
    READS(bitpacking_set_count_common(views, 2), HALF << 15, all);
    protect();
    bitpacking_set_open_tested(bytes + used - all * PAGE, all * PAGE, &odd);
    expect("bitpacking_set_open_tested", 0, 0, 1);
}

/* 2,000,000 values in 15,625 blocks. Plain, each block has width 10, 160 bytes; e is 3 and z is 2. Sorted, each has width 3; e is 2 and z is 3, so that the
   marks have 12 pages. A block is read with two of ends, two of marks, and one or two of its body. */
static void columns(uint32_t *values, uint32_t *out)
{
    enum { BLOCK = 1 + 2 + 2 + 2, HALVING = 5 };
    bitpacking_column plain = BITPACKING_COLUMN_EMPTY, sorted = BITPACKING_COLUMN_EMPTY;
    size_t i, all, position, positions[3];
    uint32_t item, least, greatest;

    for (i = 0; i < VALUES; i++)
        values[i] = (uint32_t)(1000 + i * 301 % 1000);
    all = add_column(BITPACKING_PLAIN, values, VALUES, &plain);
    for (i = 0; i < VALUES; i++)
        values[i] = (uint32_t)(7 * i);
    add_column(BITPACKING_SORTED, values, VALUES, &sorted);
    READS(bitpacking_column_unpack(&plain, out, MOST), VALUES, all);
    must(pages == all && all > 600, "a page of a column that is unpacked is not counted");
    for (i = 1; i < VALUES - 400; i += 99999) {
        READS(bitpacking_column_get(&plain, i, &item), 1, BLOCK);
        READS(bitpacking_column_get(&sorted, i, &item), 1, BLOCK);
        must(item == 7 * i, "another value");
        READS(bitpacking_column_seek(&sorted, (uint32_t)(7 * i - 3), &position, &item), 1, BLOCK + HALVING);
        must(item == 7 * i && position == i, "another value is found");
        READS((int64_t)bitpacking_column_count_between(&sorted, (uint32_t)(7 * i), (uint32_t)(7 * i + 700)), 101, 2 * (BLOCK + HALVING));
        READS(bitpacking_column_bounds(&plain, i / 128, &least, &greatest), 0, 1 + 2 + 2);
        READS(bitpacking_column_range(&plain, i, out, 300), 300, BLOCK);
        positions[0] = positions[1] = i;
        positions[2] = VALUES - 1;
        READS(bitpacking_column_gather(&plain, positions, 3, out, 3), 3, 2 * BLOCK);
    }
}

int main(void)
{
    static uint32_t values[MOST], out[MOST];
    struct sigaction action = {0};

    bytes = mmap(NULL, ALL, PROT_READ | PROT_WRITE, MAP_PRIVATE | MAP_ANONYMOUS, -1, 0);
    must(bytes != MAP_FAILED, "no memory");
    action.sa_sigaction = on_fault;
    action.sa_flags = SA_SIGINFO;
    sigaction(SIGSEGV, &action, NULL);
    many_chunks(values, out);
    mprotect(bytes, ALL, PROT_READ | PROT_WRITE);
    great_chunks(values, out);
    mprotect(bytes, ALL, PROT_READ | PROT_WRITE);
    columns(values, out);
    if (!failed)
        puts("all calls");
    return failed;
}
