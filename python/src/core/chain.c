/* Chains: blocks end to end, without a header. */
#include "core.h"

/* KINDS of fimulowen/values.py. */
enum { PLAIN, SORTED, STRICTLY_SORTED };

typedef ptrdiff_t plain_pack(const uint32_t *, size_t, uint8_t *, size_t, uint8_t *, size_t);
typedef ptrdiff_t pack_after(uint32_t, const uint32_t *, size_t, uint8_t *, size_t, uint8_t *, size_t);
typedef ptrdiff_t plain_unpack(const uint8_t *, size_t, const uint8_t *, size_t, uint32_t *, size_t);
typedef ptrdiff_t unpack_after(uint32_t, const uint8_t *, size_t, const uint8_t *, size_t, uint32_t *, size_t);

/* The functions of a packer, those of the sorted kinds in the order of their numbers. */
typedef struct {
    int lanes;
    plain_pack *pack;
    pack_after *pack_after[2];
    plain_unpack *unpack;
    unpack_after *unpack_after[2];
} Packer;

#define PACKER(lanes, name)                                                                                                            \
    {                                                                                                                                  \
        lanes, bitpacking_##name##_pack_all, {bitpacking_##name##_pack_all_sorted, bitpacking_##name##_pack_all_strictly_sorted},      \
            bitpacking_##name##_unpack_all, {bitpacking_##name##_unpack_all_sorted, bitpacking_##name##_unpack_all_strictly_sorted}    \
    }

static const Packer packers[] = {PACKER(1, 1x), PACKER(4, 4x), PACKER(8, 8x)};

static const Packer *packer_of(int lanes, int kind)
{
    size_t i;

    if (kind >= PLAIN && kind <= STRICTLY_SORTED)
        for (i = 0; i < sizeof packers / sizeof *packers; i++)
            if (packers[i].lanes == lanes)
                return packers + i;
    PyErr_SetString(PyExc_ValueError, "lanes is 1, 4 or 8");
    return NULL;
}

/* chain_pack(values, kind, lanes, initial): the width of each block, and the bytes. */
static PyObject *chain_pack(PyObject *m, PyObject *args)
{
    PyObject *values, *answer = NULL;
    const Packer *packer;
    Py_buffer in;
    int kind, lanes;
    unsigned long initial;
    ptrdiff_t size;
    size_t len, blocks;
    uint8_t *to;

    (void)m;
    if (!PyArg_ParseTuple(args, "Oiik", &values, &kind, &lanes, &initial) || !(packer = packer_of(lanes, kind)) ||
        get_items(values, &in, 4, 0) < 0)
        return NULL;
    len = (size_t)in.len / 4;
    blocks = len / (BITPACKING_LANE_LEN * (size_t)lanes);
    to = PyMem_Malloc(4 * len + blocks + 1); /* the bytes, and then the widths */
    if (to) {
        UNLOCKED(len, size = kind == PLAIN ? packer->pack(in.buf, len, to + 4 * len, blocks, to, 4 * len)
                                                      : packer->pack_after[kind - 1]((uint32_t)initial, in.buf, len, to + 4 * len, blocks,
                                                                                     to, 4 * len));
        if (size < 0)
            fail(size);
        else
            answer = Py_BuildValue("y#y#", (char *)to + 4 * len, (Py_ssize_t)blocks, (char *)to, (Py_ssize_t)size);
        PyMem_Free(to);
    } else
        PyErr_NoMemory();
    PyBuffer_Release(&in);
    return answer;
}

/* chain_unpack(widths, bytes, kind, lanes, initial): an array. Both are bytes, which nothing writes. */
static PyObject *chain_unpack(PyObject *m, PyObject *args)
{
    const char *widths, *bytes;
    Py_ssize_t blocks, size;
    const Packer *packer;
    Py_buffer out;
    PyObject *array;
    int kind, lanes;
    unsigned long initial;
    ptrdiff_t answer;
    size_t len;

    (void)m;
    if (!PyArg_ParseTuple(args, "y#y#iik", &widths, &blocks, &bytes, &size, &kind, &lanes, &initial) ||
        !(packer = packer_of(lanes, kind)))
        return NULL;
    len = (size_t)blocks * BITPACKING_LANE_LEN * (size_t)lanes;
    array = new_array(len, type_u32, &out);
    if (!array)
        return NULL;
    UNLOCKED(len, answer = kind == PLAIN
                               ? packer->unpack((const uint8_t *)widths, (size_t)blocks, (const uint8_t *)bytes, (size_t)size, out.buf, len)
                               : packer->unpack_after[kind - 1]((uint32_t)initial, (const uint8_t *)widths, (size_t)blocks,
                                                                (const uint8_t *)bytes, (size_t)size, out.buf, len));
    PyBuffer_Release(&out);
    if (answer >= 0)
        return array;
    Py_DECREF(array);
    return fail(answer);
}

PyMethodDef chain_functions[] = {
    {"chain_pack", chain_pack, METH_VARARGS, SIGNED("chain_pack(values, kind, lanes, initial, /)", "Widths and bytes.")},
    {"chain_unpack", chain_unpack, METH_VARARGS, SIGNED("chain_unpack(widths, data, kind, lanes, initial, /)", "An array.")},
    {NULL, NULL, 0, NULL},
};
