/* What the files of columns share. python/COLUMN.md has the bytes. */
#ifndef FIMULOWEN_COLUMN_H
#define FIMULOWEN_COLUMN_H

#include "core.h"

enum { CHUNK = 1 << 16, HEADER = 28, ROW = 32, PIECE = 4096 };

/* Faults of a chunk that the library has no number for. */
enum { BAD_SHAPE = 1, LOOSE_FORM = 2 };

/* At most 65,536 values. The code of a value is its difference to the least one, modulo 2^64. */
typedef struct {
    uint64_t least, greatest;
    bitpacking_set missing;
    bitpacking_column low, high; /* the lower 32 bits of the codes, and the upper ones of a wide chunk */
    int is_wide, is_sorted;
} Chunk;

/* A column in its packed bytes, with its opened chunks. */
typedef struct {
    Packed packed;
    Chunk *chunks;
    size_t count, len, missing;
    uint64_t sign; /* 2^63 if the values have a sign, or else 0: with it exchanged, values are in order as numbers without a sign */
    int is_sorted;
} Column;

/* column.c */
size_t chunk_len(const Chunk *it);
size_t missing_of(const Chunk *it);
uint32_t *missing_ids(const Chunk *it);
int falls(const uint32_t *values, size_t len);

/* column_testing.c */
int is_in_order(const Chunk *it);
ptrdiff_t test_chunk(Chunk *it, size_t len, uint64_t sign);

/* column_packing.c */
PyObject *column_pack(PyObject *m, PyObject *args);

/* column_reading.c, column_search.c: the methods. */
PyObject *Column_get(PyObject *self, PyObject *at);
PyObject *Column_read(PyObject *self, PyObject *args);
PyObject *Column_gather(PyObject *self, PyObject *args);
PyObject *Column_mark(PyObject *self, PyObject *args);
PyObject *Column_absent(PyObject *self, PyObject *unused);
PyObject *Column_between(PyObject *self, PyObject *args);
PyObject *Column_count_between(PyObject *self, PyObject *args);
PyObject *Column_seek(PyObject *self, PyObject *target);
PyObject *Column_limits(PyObject *self, PyObject *unused);
PyObject *Column_same(PyObject *self, PyObject *other);
uint64_t code_at(const Chunk *it, size_t within);
PyObject *as_number(const Column *self, uint64_t value);

#endif
