/* The type of the chunks of a column, and how they are opened. column.py reads the header and compares the checksums. */
#include "column.h"
#include <stdlib.h>
#include <string.h>

size_t chunk_len(const Chunk *it) { return bitpacking_column_len(&it->low); }

size_t missing_of(const Chunk *it) { return bitpacking_set_len(&it->missing); }

/* The positions in a chunk of its missing values, of which there are some, to be freed; or NULL if memory ran out. */
uint32_t *missing_ids(const Chunk *it)
{
    uint32_t *ids = malloc(4 * missing_of(it));

    if (ids)
        bitpacking_set_unpack(&it->missing, ids, missing_of(it));
    return ids;
}

/* Whether a value is below the one before it. */
int falls(const uint32_t *values, size_t len)
{
    size_t i;

    for (i = 1; i < len; i++)
        if (values[i - 1] > values[i])
            return 1;
    return 0;
}

static uint64_t number(const uint8_t *from, size_t size)
{
    uint64_t value = 0;

    while (size-- > 0)
        value = value << 8 | from[size];
    return value;
}

uint64_t code_at(const Chunk *it, size_t within)
{
    uint32_t low = 0, high = 0;

    bitpacking_column_get(&it->low, within, &low);
    if (it->is_wide)
        bitpacking_column_get(&it->high, within, &high);
    return (uint64_t)high << 32 | low;
}

PyObject *as_number(const Column *self, uint64_t value)
{
    return self->sign ? PyLong_FromLongLong((long long)value) : PyLong_FromUnsignedLongLong(value);
}

/* Opens the parts of a chunk of len values. Returns a fault, or 0. */
static ptrdiff_t open_chunk(Chunk *it, const uint8_t *row, const uint8_t *bytes, size_t len, uint64_t sign, int are_tested)
{
    size_t sizes[3], i;
    const uint8_t *low, *high;
    ptrdiff_t answer = 0;

    for (i = 0; i < 3; i++)
        sizes[i] = (size_t)number(row + 16 + 4 * i, 4);
    it->least = number(row, 8);
    it->greatest = number(row + 8, 8);
    it->is_wide = sizes[2] > 0;
    low = bytes + sizes[0];
    high = low + sizes[1];
    if (are_tested) {
        if (sizes[0] > 0)
            bitpacking_set_open_tested(bytes, sizes[0], &it->missing);
        bitpacking_column_open_tested(low, sizes[1], &it->low);
        if (it->is_wide)
            bitpacking_column_open_tested(high, sizes[2], &it->high);
        it->is_sorted = is_in_order(it);
        return 0;
    }
    if (sizes[0] > 0 && (answer = bitpacking_set_open(bytes, sizes[0], &it->missing)) < 0)
        return answer;
    if ((sizes[0] > 0 && missing_of(it) == 0) || sizes[1] == 0)
        return BAD_SHAPE;
    if ((answer = bitpacking_column_open(low, sizes[1], &it->low)) < 0)
        return answer;
    if (it->is_wide && (answer = bitpacking_column_open(high, sizes[2], &it->high)) < 0)
        return answer;
    return test_chunk(it, len, sign);
}

/* Raises the error of a chunk. */
static void fail_chunk(ptrdiff_t fault, size_t chunk)
{
    const char *text = fault == BAD_SHAPE ? "The parts of a chunk do not have its values." : "A chunk is not in the only form of its values.";
    PyObject *made;

    if (fault > 0) {
        made = PyObject_CallFunction(Refusal, "ssOn", text, fault == BAD_SHAPE ? "BadShape" : "LooseForm", Py_None, (Py_ssize_t)chunk);
        if (made)
            PyErr_SetObject(Refusal, made);
        Py_XDECREF(made);
    } else if (fault == BITPACKING_SHORT)
        PyErr_NoMemory();
    else
        fail_at(fault, -1, (Py_ssize_t)chunk);
}

/* Opens each chunk. Returns -1 with an exception if one has a fault. */
static int open_chunks(Column *self, int are_tested)
{
    const uint8_t *row = self->packed.bytes + HEADER, *at = row + ROW * self->count;
    uint64_t before = 0;
    size_t m;

    self->is_sorted = 1;
    for (m = 0; m < self->count; m++, row += ROW) {
        Chunk *it = &self->chunks[m];
        size_t len = m + 1 < self->count ? CHUNK : self->len - CHUNK * m;
        ptrdiff_t fault;
        UNLOCKED(len, fault = open_chunk(it, row, at, len, self->sign, are_tested));
        if (fault != 0)
            fail_chunk(fault, m);
        if (fault != 0 || PyErr_CheckSignals() < 0)
            return -1;
        at += number(row + 16, 4) + number(row + 20, 4) + number(row + 24, 4);
        self->missing += missing_of(it);
        if (missing_of(it) == len)
            continue;
        self->is_sorted &= it->is_sorted && before <= (it->least ^ self->sign);
        before = it->greatest ^ self->sign;
    }
    return 0;
}

/* Whether the bytes have the rows of the chunks, and all their parts. */
static int has_room(const Column *self)
{
    size_t used = HEADER + ROW * self->count, m, i;

    if (self->packed.len < HEADER || (self->packed.len - HEADER) / ROW < self->count)
        return 0;
    for (m = 0; m < self->count; m++)
        for (i = 0; i < 3; i++)
            used += number(self->packed.bytes + HEADER + ROW * m + 16 + 4 * i, 4);
    return used == self->packed.len;
}

/* column_open(type, data, len, has_sign, are_tested): column.py has read the header of the data, and compared the checksums. */
static PyObject *column_open(PyObject *m, PyObject *args)
{
    PyObject *type, *data;
    Py_ssize_t len;
    int has_sign, are_tested;
    Column *self;

    (void)m;
    if (!PyArg_ParseTuple(args, "OOnpp", &type, &data, &len, &has_sign, &are_tested) || !subtype_of(Column_type, type))
        return NULL;
    self = (Column *)holding((PyTypeObject *)type, data, 0, SIZE_MAX);
    if (!self)
        return NULL;
    self->len = len < 0 ? 0 : (size_t)len;
    self->count = self->len / CHUNK + (self->len % CHUNK > 0);
    self->sign = has_sign ? (uint64_t)1 << 63 : 0;
    if (!has_room(self))
        PyErr_SetString(PyExc_ValueError, "the bytes are not those of the header");
    else if (!(self->chunks = PyMem_Calloc(self->count + 1, sizeof(Chunk))))
        PyErr_NoMemory();
    else if (open_chunks(self, are_tested) == 0)
        return (PyObject *)self;
    Py_DECREF((PyObject *)self);
    return NULL;
}

static void Column_dealloc(PyObject *self)
{
    PyTypeObject *type = Py_TYPE(self);

    PyMem_Free(((Column *)self)->chunks);
    PyBuffer_Release(&((Packed *)self)->buffer);
    ((freefunc)PyType_GetSlot(type, Py_tp_free))(self);
    Py_DECREF((PyObject *)type);
}

static Py_ssize_t Column_length(PyObject *self) { return (Py_ssize_t)((Column *)self)->len; }

static PyObject *get_missing(PyObject *self, void *unused)
{
    (void)unused;
    return PyLong_FromSize_t(((Column *)self)->missing);
}

static PyObject *get_sorted(PyObject *self, void *unused)
{
    (void)unused;
    return PyBool_FromLong(((Column *)self)->is_sorted);
}

static PyMethodDef methods[] = {
    {"_get", Column_get, METH_O, SIGNED("_get($self, position, /)", "The value at a position, or None.")},
    {"_read", Column_read, METH_VARARGS, SIGNED("_read($self, out, start, fill, /)", "Fills a buffer with values from a position on.")},
    {"_gather", Column_gather, METH_VARARGS, SIGNED("_gather($self, positions, out, mask, /)", "Fills buffers with values at positions.")},
    {"_mark", Column_mark, METH_VARARGS, SIGNED("_mark($self, out, start, /)", "Sets a byte for each missing value from a position on.")},
    {"_absent", Column_absent, METH_NOARGS, SIGNED("_absent($self, /)", "The positions of missing values, as an array.")},
    {"_between", Column_between, METH_VARARGS, SIGNED("_between($self, low, high, /)", "The positions of values within limits.")},
    {"_count_between", Column_count_between, METH_VARARGS, SIGNED("_count_between($self, low, high, /)", "How many these are.")},
    {"_seek", Column_seek, METH_O, SIGNED("_seek($self, target, /)", "The first value from a target on, with its position.")},
    {"_limits", Column_limits, METH_NOARGS, SIGNED("_limits($self, /)", "The least and the greatest value, or None.")},
    {"_same", Column_same, METH_O, SIGNED("_same($self, other, /)", "Whether both have the same bytes.")},
    {NULL, NULL, 0, NULL},
};

static PyGetSetDef members[] = {
    {"_missing", get_missing, NULL, "How many values are missing.", NULL},
    {"_sorted", get_sorted, NULL, "Whether no value is below the one before it.", NULL},
    {NULL, NULL, NULL, NULL, NULL},
};

static PyType_Slot slots[] = {
    {Py_tp_doc, "The packed bytes of a column, with its chunks."},
    {Py_tp_dealloc, Column_dealloc},
    {Py_tp_methods, methods},
    {Py_tp_getset, members},
    {Py_sq_length, Column_length},
    {0, NULL},
};

PyType_Spec Column_spec = {"fimulowen._core.Column", sizeof(Column), 0,
                           Py_TPFLAGS_DEFAULT | Py_TPFLAGS_BASETYPE | Py_TPFLAGS_DISALLOW_INSTANTIATION, slots};

PyMethodDef column_functions[] = {
    {"column_open", column_open, METH_VARARGS, SIGNED("column_open(type, data, len, has_sign, are_tested, /)", "A column.")},
    {"column_pack", column_pack, METH_VARARGS, SIGNED("column_pack(values, mask, has_sign, /)", "Rows and bytes of chunks, in turn.")},
    {NULL, NULL, 0, NULL},
};
