/* Values within limits, a search, and the comparison of columns. */
#include "column.h"
#include <stdlib.h>
#include <string.h>

static Column *of(PyObject *self) { return (Column *)self; }

/* The limits of codes in a chunk, both included. */
typedef struct {
    uint64_t from, to;
} Limits;

/* Positions: those in a chunk, and the array of all, which has room for each chunk that is searched. */
typedef struct {
    size_t *at, len;
    Py_buffer out;
} Found;

/* The limits of the codes of the values from low to high in a chunk, or 0 if it has none. Both are in the order of numbers without a sign. */
static int limits_in(const Column *self, const Chunk *it, uint64_t low, uint64_t high, Limits *found)
{
    uint64_t least = it->least ^ self->sign, greatest = it->greatest ^ self->sign;

    if (low > greatest || high < least || low > high || missing_of(it) == chunk_len(it))
        return 0;
    found->from = low > least ? low - least : 0;
    found->to = (high < greatest ? high : greatest) - least;
    return 1;
}

static int has_all(const Chunk *it, const Limits *limits) { return limits->from == 0 && limits->to == it->greatest - it->least; }

/* Writes the positions in a wide chunk, which has room for all. */
static size_t wide_between(const Chunk *it, const Limits *limits, size_t *found)
{
    uint32_t low[PIECE], high[PIECE];
    size_t done, count, i, len = chunk_len(it), used = 0;

    for (done = 0; done < len; done += count) {
        count = len - done < PIECE ? len - done : PIECE;
        bitpacking_column_range(&it->low, done, low, count);
        bitpacking_column_range(&it->high, done, high, count);
        for (i = 0; i < count; i++) {
            uint64_t code = (uint64_t)high[i] << 32 | low[i];
            found[used] = done + i;
            used += code - limits->from <= limits->to - limits->from;
        }
    }
    return used;
}

/* Retains the positions of values that are there. Returns their number, or -1 if memory ran out. */
static ptrdiff_t present(const Chunk *it, size_t *found, size_t count)
{
    uint8_t bits[CHUNK / 8] = {0};
    uint32_t *ids = missing_ids(it);
    size_t i, used = 0, absent = missing_of(it);

    if (!ids)
        return -1;
    for (i = 0; i < absent; i++)
        bits[ids[i] / 8] |= (uint8_t)(1 << ids[i] % 8);
    free(ids);
    for (i = 0; i < count; i++) {
        size_t at = found[i];
        found[used] = at;
        used += !(bits[at / 8] >> at % 8 & 1);
    }
    return (ptrdiff_t)used;
}

/* Writes the positions in a chunk, which has room for all. Returns their number, or -1 if memory ran out. */
static ptrdiff_t chunk_between(const Chunk *it, const Limits *limits, size_t *found)
{
    size_t len = chunk_len(it), count = 0;

    if (has_all(it, limits))
        for (; count < len; count++)
            found[count] = count;
    else if (it->is_wide)
        count = wide_between(it, limits, found);
    else
        count = bitpacking_column_between(&it->low, (uint32_t)limits->from, (uint32_t)limits->to, 0, found, len);
    return missing_of(it) > 0 ? present(it, found, count) : (ptrdiff_t)count;
}

/* Appends the positions of a chunk that begins at a position. Returns -1 if memory ran out. */
static int append_between(const Chunk *it, const Limits *limits, size_t begin, Found *found)
{
    ptrdiff_t count = chunk_between(it, limits, found->at), i;
    int64_t *to = (int64_t *)found->out.buf + found->len;

    for (i = 0; i < count; i++)
        to[i] = (int64_t)(found->at[i] + begin);
    found->len += count < 0 ? 0 : (size_t)count;
    return count < 0 ? -1 : 0;
}

/* Reads limits, as 64 bits of the type, in the order of numbers without a sign. */
static int get_limits(const Column *self, PyObject *args, uint64_t *low, uint64_t *high)
{
    PyObject *least, *greatest;

    if (!PyArg_ParseTuple(args, "OO", &least, &greatest))
        return -1;
    *low = PyLong_AsUnsignedLongLongMask(least) ^ self->sign;
    *high = PyLong_AsUnsignedLongLongMask(greatest) ^ self->sign;
    return PyErr_Occurred() ? -1 : 0;
}

/* between(low, high): the positions of values within limits that fit the type. */
PyObject *Column_between(PyObject *self, PyObject *args)
{
    Found found = {0};
    Limits limits;
    PyObject *array;
    uint64_t low, high;
    size_t m, room = 0;
    int failed = get_limits(of(self), args, &low, &high);

    if (failed)
        return NULL;
    for (m = 0; m < of(self)->count; m++)
        if (limits_in(of(self), &of(self)->chunks[m], low, high, &limits))
            room += chunk_len(&of(self)->chunks[m]);
    if (!(array = new_array(room, type_index, &found.out)))
        return NULL;
    found.at = malloc(sizeof(size_t) * (room < CHUNK ? room + 1 : CHUNK));
    if (!found.at)
        failed = (PyErr_NoMemory(), -1);
    for (m = 0; m < of(self)->count && !failed; m++) {
        const Chunk *it = &of(self)->chunks[m];
        if (!limits_in(of(self), it, low, high, &limits))
            continue;
        UNLOCKED(chunk_len(it), failed = append_between(it, &limits, m * CHUNK, &found));
        if (failed)
            PyErr_NoMemory();
        else
            failed = PyErr_CheckSignals();
    }
    free(found.at);
    if (!failed)
        return first_of(array, &found.out, found.len);
    PyBuffer_Release(&found.out);
    Py_DECREF(array);
    return NULL;
}

/* How many values of a chunk are within limits, or -1 if memory ran out. */
static ptrdiff_t count_in(const Chunk *it, const Limits *limits)
{
    size_t *found;
    ptrdiff_t count;

    if (has_all(it, limits))
        return (ptrdiff_t)(chunk_len(it) - missing_of(it));
    if (!it->is_wide && missing_of(it) == 0)
        return (ptrdiff_t)bitpacking_column_count_between(&it->low, (uint32_t)limits->from, (uint32_t)limits->to);
    found = malloc(sizeof(size_t) * chunk_len(it));
    count = found ? chunk_between(it, limits, found) : -1;
    free(found);
    return count;
}

/* count_between(low, high): how many values are within limits that fit the type. */
PyObject *Column_count_between(PyObject *self, PyObject *args)
{
    Limits limits;
    uint64_t low, high;
    size_t m, all = 0;
    ptrdiff_t count = 0;
    int failed = get_limits(of(self), args, &low, &high);

    for (m = 0; m < of(self)->count && !failed; m++) {
        const Chunk *it = &of(self)->chunks[m];
        if (!limits_in(of(self), it, low, high, &limits))
            continue;
        UNLOCKED(chunk_len(it), count = count_in(it, &limits));
        all += (size_t)count;
        failed = count < 0 ? (PyErr_NoMemory(), -1) : PyErr_CheckSignals();
    }
    return failed ? NULL : PyLong_FromSize_t(all);
}

/* The first position of a chunk in order whose code is at least this one. There is one. */
static size_t seek_in(const Chunk *it, uint64_t code)
{
    size_t from = 0, to = chunk_len(it), middle;
    uint32_t value;

    if (!it->is_wide)
        bitpacking_column_seek(&it->low, (uint32_t)code, &from, &value);
    else
        while (from < to) {
            middle = from + (to - from) / 2;
            if (code_at(it, middle) < code)
                from = middle + 1;
            else
                to = middle;
        }
    return from;
}

/* How many values at the start of a chunk are missing. */
static size_t missing_first(const Chunk *it)
{
    size_t from = 0, to = missing_of(it), middle;
    uint32_t id = 0;

    while (from < to) {
        middle = from + (to - from) / 2;
        bitpacking_set_get(&it->missing, middle, &id);
        if (id == middle)
            from = middle + 1;
        else
            to = middle;
    }
    return from;
}

/* seek(target): the position and the value of the first from a target on, which fits the type, or None. */
PyObject *Column_seek(PyObject *self, PyObject *target)
{
    uint64_t wanted = PyLong_AsUnsignedLongLongMask(target) ^ of(self)->sign;
    size_t m, at, first;

    if (PyErr_Occurred())
        return NULL;
    if (!of(self)->is_sorted)
        return fail_as("The values of the column are not in order: sort them before they are packed, or ask `between`.", "BadKind");
    for (m = 0; m < of(self)->count; m++) {
        const Chunk *it = &of(self)->chunks[m];
        uint64_t least = it->least ^ of(self)->sign;
        if (missing_of(it) == chunk_len(it) || (it->greatest ^ of(self)->sign) < wanted)
            continue;
        at = seek_in(it, wanted > least ? wanted - least : 0);
        first = missing_first(it);
        at = at < first ? first : at;
        return Py_BuildValue("nN", (Py_ssize_t)(m * CHUNK + at), as_number(of(self), it->least + code_at(it, at)));
    }
    Py_RETURN_NONE;
}

/* limits(): the least and the greatest value, or None if none is there. */
PyObject *Column_limits(PyObject *self, PyObject *unused)
{
    uint64_t least = UINT64_MAX, greatest = 0, sign = of(self)->sign;
    size_t m;

    (void)unused;
    if (of(self)->missing == of(self)->len)
        Py_RETURN_NONE;
    for (m = 0; m < of(self)->count; m++) {
        const Chunk *it = &of(self)->chunks[m];
        if (missing_of(it) == chunk_len(it))
            continue;
        least = (it->least ^ sign) < least ? it->least ^ sign : least;
        greatest = (it->greatest ^ sign) > greatest ? it->greatest ^ sign : greatest;
    }
    return Py_BuildValue("NN", as_number(of(self), least ^ sign), as_number(of(self), greatest ^ sign));
}

/* Whether both have the same bytes: then they have the same values of the same type. */
PyObject *Column_same(PyObject *self, PyObject *other)
{
    if (PyObject_TypeCheck(other, Column_type))
        return PyBool_FromLong(are_same((Packed *)self, (Packed *)other));
    PyErr_SetString(PyExc_TypeError, "a column expected");
    return NULL;
}
