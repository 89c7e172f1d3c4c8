/* The methods that search a set for many ids. */
#include "core.h"

static size_t least_of(size_t one, size_t other) { return one < other ? one : other; }

/* What a call searches: a set, or all its ids as bits from the least on, with the number of ids before each word of them if it wants ranks. */
typedef struct {
    const bitpacking_set *view;
    uint64_t *bits, first, span;
    uint32_t *before;
} Search;

/* Sets the bits of some ids from a position on, and the number of ids before each word up to that of the last one. */
static void mark(const Search *it, size_t from, size_t len, size_t *words)
{
    uint32_t part[MANY];
    size_t done, count, i, at;

    for (done = 0; done < len; done += count) {
        count = (size_t)bitpacking_set_slice(it->view, from + done, part, least_of(len - done, MANY));
        for (i = 0; i < count; i++) {
            at = part[i] - it->first;
            it->bits[at / 64] |= (uint64_t)1 << at % 64;
            for (; it->before && *words <= at / 64; ++*words)
                it->before[*words] = (uint32_t)(from + done + i);
        }
    }
}

static void free_bits(Search *it)
{
    PyMem_Free(it->bits);
    PyMem_Free(it->before);
}

/* Makes the bits of all ids if there is an integer for each 16 of them, and for each 512 bits: from there on that is faster than to search for each,
 * as was measured. Returns -1 with an exception. */
static int make_bits(Search *it, size_t asked, int are_ranked)
{
    const size_t len = bitpacking_set_len(it->view);
    uint32_t first, last;
    size_t done, words = 0;

    if (len / 16 > asked || bitpacking_set_get(it->view, 0, &first) != 1 || bitpacking_set_get(it->view, len - 1, &last) != 1)
        return 0;
    it->first = first;
    it->span = (uint64_t)last - first + 1;
    if (it->span / 512 > asked)
        return 0;
    it->bits = PyMem_Calloc(it->span / 64 + 1, 8);
    it->before = are_ranked ? PyMem_Malloc(4 * (it->span / 64 + 1)) : NULL;
    if (!it->bits || (are_ranked && !it->before)) {
        PyErr_NoMemory();
        return -1;
    }
    for (done = 0; done < len; done += PART) {
        UNLOCKED(least_of(len - done, PART), mark(it, done, least_of(len - done, PART), &words));
        if (PyErr_CheckSignals() < 0)
            return -1;
    }
    return 0;
}

/* Writes a byte for each integer: whether the set has it. One below 0 is one above all ids here. */
static void find(const void *search, const uint64_t *items, size_t len, void *out)
{
    const Search *it = search;
    uint8_t *found = out;
    size_t i;

    for (i = 0; i < len; i++) {
        uint64_t at = items[i] - it->first;
        if (it->bits)
            found[i] = at < it->span && (it->bits[at / 64] >> at % 64 & 1);
        else
            found[i] = items[i] <= UINT32_MAX && bitpacking_set_contains(it->view, (uint32_t)items[i]);
    }
}

static unsigned ones_of(uint64_t bits)
{
    bits -= bits >> 1 & 0x5555555555555555;
    bits = (bits & 0x3333333333333333) + (bits >> 2 & 0x3333333333333333);
    return (unsigned)(((bits + (bits >> 4)) & 0x0F0F0F0F0F0F0F0F) * 0x0101010101010101 >> 56);
}

/* Writes how many ids are below each integer, as 8 bytes. */
static void rank(const void *search, const uint64_t *items, size_t len, void *out)
{
    const Search *it = search;
    int64_t *ranks = out;
    size_t i;

    for (i = 0; i < len; i++) {
        uint64_t at = items[i] - it->first;
        if (items[i] > UINT32_MAX || (it->bits && items[i] > it->first && at >= it->span))
            ranks[i] = (int64_t)bitpacking_set_len(it->view);
        else if (it->bits)
            ranks[i] = items[i] <= it->first ? 0 : it->before[at / 64] + ones_of(it->bits[at / 64] << 1 << (63 - at % 64));
        else
            ranks[i] = (int64_t)bitpacking_set_rank(it->view, (uint32_t)items[i]);
    }
}

/* A new array of what a call writes of each integer of an array. */
static PyObject *searched(PyObject *self, PyObject *items, size_t item, PyObject *type, write_found *write)
{
    Search search = {&((Set *)self)->view, NULL, 0, 0, NULL};
    PyObject *array = NULL;
    Py_buffer in;

    if (get_items(items, &in, item, 0) < 0)
        return NULL;
    if (make_bits(&search, (size_t)(in.len / in.itemsize), write == rank) == 0)
        array = found_of(&search, &in, type, write);
    free_bits(&search);
    PyBuffer_Release(&in);
    return array;
}

/* _contains(ids): of an array of 4 or 8 bytes each. */
PyObject *Set_contains_many(PyObject *self, PyObject *ids) { return searched(self, ids, 0, type_bool, find); }

/* _rank(targets): of an array of int64 from 0 on. */
PyObject *Set_rank_many(PyObject *self, PyObject *targets) { return searched(self, targets, 8, type_index, rank); }
