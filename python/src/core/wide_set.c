/* The type of a wide set, whose ids have 64 bits. */
#define ID uint64_t
#define VIEW bitpacking_wide_set
#define OBJECT WideSet
#define CALL(name) bitpacking_wide_set_##name
#define METHOD(name) WideSet_##name
#define IDS_TYPE type_u64
#define ITEM 8
#define NO_ID "2^64 - 1"
#include "ids_reading.h"

/* Writes a byte for each integer: whether the set has it. */
static void find(const void *view, const uint64_t *items, size_t len, void *out)
{
    uint8_t *found = out;
    size_t i;

    for (i = 0; i < len; i++)
        found[i] = (uint8_t)bitpacking_wide_set_contains(view, items[i]);
}

/* Writes how many ids are below each integer, as 8 bytes. */
static void rank(const void *view, const uint64_t *items, size_t len, void *out)
{
    int64_t *ranks = out;
    size_t i;

    for (i = 0; i < len; i++)
        ranks[i] = (int64_t)bitpacking_wide_set_rank(view, items[i]);
}

/* A new array of what a call writes of each integer of an array of uint64. */
static PyObject *searched(PyObject *self, PyObject *items, PyObject *type, write_found *write)
{
    PyObject *array;
    Py_buffer in;

    if (get_items(items, &in, 8, 0) < 0)
        return NULL;
    array = found_of(view_of(self), &in, type, write);
    PyBuffer_Release(&in);
    return array;
}

PyObject *WideSet_contains_many(PyObject *self, PyObject *ids) { return searched(self, ids, type_bool, find); }

PyObject *WideSet_rank_many(PyObject *self, PyObject *targets) { return searched(self, targets, type_index, rank); }

PyMethodDef WideSet_methods[] = {READING_METHODS, {NULL, NULL, 0, NULL}};

static PyType_Slot WideSet_slots[] = SLOTS_OF(WideSet, "The packed bytes of a wide set, with the calls of the C library.");

PyType_Spec WideSet_spec = {"fimulowen._core.WideSet", sizeof(WideSet), 0,
                            Py_TPFLAGS_DEFAULT | Py_TPFLAGS_BASETYPE | Py_TPFLAGS_DISALLOW_INSTANTIATION, WideSet_slots};

/* An array of the values of an opened column. */
static PyObject *values_of(const bitpacking_column *view)
{
    size_t len = bitpacking_column_len(view);
    Py_buffer out;
    PyObject *array = new_array(len, type_u32, &out);

    if (!array)
        return NULL;
    bitpacking_column_unpack(view, out.buf, len);
    PyBuffer_Release(&out);
    return array;
}

/* wide_high_words(data): the values of the sorted column that a wide set has, or None if these bytes are no such column. */
static PyObject *wide_high_words(PyObject *m, PyObject *data)
{
    bitpacking_column view = BITPACKING_COLUMN_EMPTY;
    PyObject *array;
    Py_buffer in;

    (void)m;
    if (PyObject_GetBuffer(data, &in, PyBUF_SIMPLE) < 0)
        return NULL;
    if (bitpacking_column_open(in.buf, (size_t)in.len, &view) == 0 && bitpacking_column_kind(&view) == BITPACKING_SORTED)
        array = values_of(&view);
    else
        array = Py_NewRef(Py_None);
    PyBuffer_Release(&in);
    return array;
}

PyMethodDef wide_functions[] = {
    {"wide_high_words", wide_high_words, METH_O, SIGNED("wide_high_words(data, /)", "The values of a sorted column, or None.")},
    {NULL, NULL, 0, NULL},
};
