/* Many sets in one buffer. */
#include "core.h"
#include <string.h>

/* The ids of many sets, and where packing them failed. */
typedef struct {
    const uint32_t *ids;
    const int64_t *bounds;
    size_t sets, set, position;
    uint8_t *to;
    size_t room, used;
} Many;

/* Packs sets end to end, as long as they have no more than PART ids in all, and writes their bounds. Returns an error, or 0. */
static ptrdiff_t pack_some(Many *many, int64_t *ends)
{
    int64_t begin = many->bounds[many->set];

    while (many->set < many->sets && many->bounds[many->set] - begin <= PART) {
        size_t from = (size_t)many->bounds[many->set], len = (size_t)many->bounds[many->set + 1] - from;
        ptrdiff_t size = bitpacking_set_pack(many->ids + from, len, many->to + many->used, many->room - many->used, &many->position);
        if (size < 0)
            return size;
        many->used += (size_t)size;
        ends[++many->set] = (int64_t)many->used;
    }
    return 0;
}

/* Two values: the bytes, and the bounds of the sets in them. */
static PyObject *packed_sets(Many *many)
{
    size_t len = (size_t)(many->bounds[many->sets] - many->bounds[0]);
    Py_buffer out;
    PyObject *ends, *bytes = NULL;
    ptrdiff_t answer = 0;

    /* Room for all ids, and for the first bytes of each set. */
    many->room = BITPACKING_SET_ROOM(len) + BITPACKING_SET_ROOM(0) * many->sets;
    many->to = PyMem_Malloc(many->room);
    ends = many->to ? new_array(many->sets + 1, type_index, &out) : PyErr_NoMemory();
    if (!ends)
        return NULL;
    *(int64_t *)out.buf = 0;
    while (many->set < many->sets && answer == 0) {
        UNLOCKED(len + many->sets, answer = pack_some(many, out.buf));
        if (answer < 0)
            fail_at(answer, answer == BITPACKING_NOT_SORTED ? (Py_ssize_t)many->position : -1, (Py_ssize_t)many->set);
        else
            answer = PyErr_CheckSignals();
    }
    PyBuffer_Release(&out);
    if (answer == 0)
        bytes = PyBytes_FromStringAndSize((const char *)many->to, (Py_ssize_t)many->used);
    if (bytes)
        return Py_BuildValue("NN", bytes, ends);
    Py_DECREF(ends);
    return NULL;
}

/* set_pack_many(ids, bounds): bytes and an array. Nothing else writes the ids. */
static PyObject *set_pack_many(PyObject *m, PyObject *args)
{
    PyObject *ids, *bounds, *answer = NULL;
    Py_buffer in, at;
    Many many = {0};

    (void)m;
    if (!PyArg_ParseTuple(args, "OO", &ids, &bounds) || get_items(ids, &in, 4, 0) < 0)
        return NULL;
    if (get_items(bounds, &at, 8, 0) < 0) {
        PyBuffer_Release(&in);
        return NULL;
    }
    many.ids = in.buf;
    many.bounds = at.buf;
    if (are_bounds(at.buf, (size_t)at.len / 8, (size_t)in.len / 4)) {
        many.sets = (size_t)at.len / 8 - 1;
        answer = packed_sets(&many);
    } else
        PyErr_SetString(PyExc_IndexError, "bounds fall, or lie outside of the ids, or there are none");
    PyMem_Free(many.to);
    PyBuffer_Release(&in);
    PyBuffer_Release(&at);
    return answer;
}

/* Counts the positions of each code, and adds up the counts to bounds: those of code k begin at bounds[k]. Returns the first position of a wrong code,
 * or the number of codes. */
static size_t count_codes(const int64_t *codes, size_t len, int64_t *bounds, size_t groups)
{
    size_t i, k;

    memset(bounds, 0, 8 * (groups + 1));
    for (i = 0; i < len; i++) {
        if (codes[i] < -1 || codes[i] >= (int64_t)groups)
            return i;
        if (codes[i] >= 0)
            bounds[codes[i] + 1]++;
    }
    for (k = 0; k < groups; k++)
        bounds[k + 1] += bounds[k];
    return len;
}

/* Writes the positions of each code, one code after another. `next` has the bounds, and changes. */
static void place_codes(const int64_t *codes, size_t from, size_t len, int64_t *next, uint32_t *positions)
{
    size_t i;

    for (i = from; i < from + len; i++)
        if (codes[i] >= 0)
            positions[next[codes[i]]++] = (uint32_t)i;
}

/* The positions of each code as an array, and writes their bounds; or NULL with an exception. */
static PyObject *placed(const int64_t *codes, size_t len, int64_t *bounds, size_t groups)
{
    int64_t *next = PyMem_Malloc(8 * (groups + 1));
    PyObject *array = NULL;
    Py_buffer out;
    size_t done = 0, count;

    if (!next)
        return PyErr_NoMemory();
    UNLOCKED(len, done = count_codes(codes, len, bounds, groups));
    if (done < len)
        PyErr_Format(PyExc_IndexError, "position %zu: the code %lld is below -1, or not below %zu", done, (long long)codes[done], groups);
    else if ((array = new_array((size_t)bounds[groups], type_u32, &out))) {
        memcpy(next, bounds, 8 * (groups + 1));
        for (done = 0; done < len && PyErr_CheckSignals() == 0; done += count) {
            count = len - done < PART ? len - done : PART;
            UNLOCKED(count, place_codes(codes, done, count, next, out.buf));
        }
        PyBuffer_Release(&out);
        if (done < len)
            Py_CLEAR(array);
    }
    PyMem_Free(next);
    return array;
}

/* set_group(codes, groups): an array of positions, and one of bounds. The codes are private to the call. */
static PyObject *set_group(PyObject *m, PyObject *args)
{
    PyObject *codes, *positions = NULL, *bounds = NULL;
    Py_buffer in, out;
    Py_ssize_t groups;

    (void)m;
    if (!PyArg_ParseTuple(args, "On", &codes, &groups) || get_items(codes, &in, 8, 0) < 0)
        return NULL;
    if (groups < 0 || (size_t)in.len / 8 > (size_t)UINT32_MAX + 1)
        PyErr_SetString(PyExc_ValueError, "the number of groups is below 0, or there are more than 2^32 codes");
    else if ((bounds = new_array((size_t)groups + 1, type_index, &out))) {
        positions = placed(in.buf, (size_t)in.len / 8, out.buf, (size_t)groups);
        PyBuffer_Release(&out);
    }
    PyBuffer_Release(&in);
    if (positions)
        return Py_BuildValue("NN", positions, bounds);
    Py_XDECREF(bounds);
    return NULL;
}

PyMethodDef many_functions[] = {
    {"set_pack_many", set_pack_many, METH_VARARGS, SIGNED("set_pack_many(ids, bounds, /)", "Bytes, and bounds in them.")},
    {"set_group", set_group, METH_VARARGS, SIGNED("set_group(codes, groups, /)", "The positions of each code, and bounds in them.")},
    {NULL, NULL, 0, NULL},
};
