/* The type of an id set, and how one is packed and opened, of 32 or of 64 bits. */
#include "core.h"

static int is_wide(PyTypeObject *type) { return PyType_IsSubtype(type, WideSet_type); }

/* The bytes of an id of a type, or 0 with an exception. */
static size_t item_of(PyObject *type)
{
    if (PyType_Check(type) && is_wide((PyTypeObject *)type))
        return 8;
    return subtype_of(Set_type, type) ? 4 : 0;
}

/* Opens bytes, and tests all of them. */
static PyObject *opened(PyTypeObject *type, PyObject *data, size_t from, size_t to, Py_ssize_t number)
{
    Packed *self = holding(type, data, from, to);
    ptrdiff_t answer;

    if (!self)
        return NULL;
    if (is_wide(type))
        UNLOCKED(self->len, answer = bitpacking_wide_set_open(self->bytes, self->len, &((WideSet *)self)->view));
    else
        UNLOCKED(self->len, answer = bitpacking_set_open(self->bytes, self->len, &((Set *)self)->view));
    if (answer < 0) {
        fail_to_open(answer, self, number);
        Py_CLEAR(self);
    }
    return (PyObject *)self;
}

static PyObject *set_open(PyObject *m, PyObject *args)
{
    PyObject *type, *data;

    (void)m;
    if (!PyArg_ParseTuple(args, "OO", &type, &data) || !item_of(type))
        return NULL;
    return opened((PyTypeObject *)type, data, 0, SIZE_MAX, -1);
}

static PyObject *set_open_many(PyObject *m, PyObject *args)
{
    PyObject *type, *data, *bounds;

    (void)m;
    if (!PyArg_ParseTuple(args, "OOO", &type, &data, &bounds) || !item_of(type))
        return NULL;
    return opened_parts((PyTypeObject *)type, data, bounds, opened);
}

/* A set of bytes that the library wrote, which need no test. They are copied. */
Packed *set_of(PyTypeObject *type, const uint8_t *bytes, size_t len)
{
    Packed *made = copy_of(type, bytes, len);

    if (made && is_wide(type))
        bitpacking_wide_set_open_tested(made->bytes, made->len, &((WideSet *)made)->view);
    else if (made)
        bitpacking_set_open_tested(made->bytes, made->len, &((Set *)made)->view);
    return made;
}

/* Packs a buffer of ids to new memory. Returns the number of bytes, or an error: SHORT if there is no memory. */
static ptrdiff_t packed(const Py_buffer *ids, size_t item, uint8_t **to)
{
    size_t len = (size_t)ids->len / item, room = item == 8 ? BITPACKING_WIDE_SET_ROOM(len) : BITPACKING_SET_ROOM(len);
    uint32_t *space = item == 8 ? PyMem_Malloc(4 * len + 4) : NULL;
    ptrdiff_t size = BITPACKING_SHORT;

    *to = PyMem_Malloc(room);
    if (*to && item == 4)
        UNLOCKED(len, size = bitpacking_set_pack(ids->buf, len, *to, room, NULL));
    else if (*to && space)
        UNLOCKED(len, size = bitpacking_wide_set_pack(ids->buf, len, *to, room, space, len, NULL));
    PyMem_Free(space);
    return size;
}

/* set_pack(type, ids): a set, or None if the ids do not increase. Nothing else writes the ids. */
static PyObject *set_pack(PyObject *m, PyObject *args)
{
    PyObject *type, *ids, *made = NULL;
    Py_buffer in;
    size_t item;
    uint8_t *to;
    ptrdiff_t size;

    (void)m;
    if (!PyArg_ParseTuple(args, "OO", &type, &ids) || !(item = item_of(type)) || get_items(ids, &in, item, 0) < 0)
        return NULL;
    size = packed(&in, item, &to);
    PyBuffer_Release(&in);
    if (size >= 0)
        made = (PyObject *)set_of((PyTypeObject *)type, to, (size_t)size);
    else if (size == BITPACKING_NOT_SORTED)
        made = Py_NewRef(Py_None);
    else if (size == BITPACKING_SHORT)
        PyErr_NoMemory();
    else
        fail(size);
    PyMem_Free(to);
    return made;
}

/* set_range(type, first, end): the set of the ids from `first` to before `end`. */
static PyObject *set_range(PyObject *m, PyObject *args)
{
    PyObject *type, *made = NULL;
    unsigned int first;
    unsigned long long end;
    ptrdiff_t size;
    uint8_t *to;

    (void)m;
    if (!PyArg_ParseTuple(args, "OIK", &type, &first, &end) || !subtype_of(Set_type, type))
        return NULL;
    size = bitpacking_set_range_size(first, end);
    if (size < 0)
        return fail(size);
    to = PyMem_Malloc((size_t)size);
    if (!to)
        return PyErr_NoMemory();
    size = bitpacking_set_pack_range(first, end, to, (size_t)size);
    made = size < 0 ? fail(size) : (PyObject *)set_of((PyTypeObject *)type, to, (size_t)size);
    PyMem_Free(to);
    return made;
}

/* The set that a call writes. `room` bytes are usually enough. The room doubles until it is. */
Packed *set_written(PyTypeObject *type, set_writer *call, const Source *from, size_t items, size_t room)
{
    uint32_t *work = PyMem_Malloc(4 * items + 4);
    uint8_t *to = NULL;
    Packed *made = NULL;
    ptrdiff_t size = BITPACKING_SHORT;

    for (; work && size == BITPACKING_SHORT; room *= 2) {
        PyMem_Free(to);
        if (!(to = PyMem_Malloc(room)))
            break;
        UNLOCKED(from->count, size = call(from, work, items, to, room));
    }
    if (!work || !to)
        PyErr_NoMemory();
    else if (size < 0)
        fail(size);
    else
        made = set_of(type, to, (size_t)size);
    PyMem_Free(work);
    PyMem_Free(to);
    return made;
}

static ptrdiff_t write_of_roaring(const Source *from, uint32_t *work, size_t items, uint8_t *to, size_t room)
{
    return bitpacking_set_from_roaring(from->data, from->len, work, items, to, room);
}

/* set_from_roaring(type, data): the set of a bitmap. Nothing else writes the data. */
static PyObject *set_from_roaring(PyObject *m, PyObject *args)
{
    PyObject *type, *data;
    Packed *made;
    Py_buffer in;
    Source from;

    (void)m;
    if (!PyArg_ParseTuple(args, "OO", &type, &data) || !subtype_of(Set_type, type) || PyObject_GetBuffer(data, &in, PyBUF_SIMPLE) < 0)
        return NULL;
    from = (Source){in.buf, (size_t)in.len, 0, (size_t)in.len};
    made = set_written((PyTypeObject *)type, write_of_roaring, &from, bitpacking_set_from_roaring_room(in.buf, from.len), from.len / 4 * 5 + 16);
    PyBuffer_Release(&in);
    return (PyObject *)made;
}

static ptrdiff_t write_shifted(const Source *from, uint32_t *work, size_t items, uint8_t *to, size_t room)
{
    return bitpacking_set_shift(from->data, from->number, work, items, to, room);
}

/* set_shift(type, set, by): the set with a number added to each id. */
static PyObject *set_shift(PyObject *m, PyObject *args)
{
    PyObject *type, *it;
    const bitpacking_set *view;
    long long by;
    Source from;

    (void)m;
    if (!PyArg_ParseTuple(args, "OO!L", &type, Set_type, &it, &by) || !subtype_of(Set_type, type))
        return NULL;
    view = &((Set *)it)->view;
    from = (Source){view, 1, by, bitpacking_set_len(view)};
    return (PyObject *)set_written((PyTypeObject *)type, write_shifted, &from, bitpacking_set_shift_room(view), view->bytes_len / 4 * 5 + 16);
}

/* set_front_len(data): the length of the set at the front of the data, or 0. Nothing else writes the data. */
static PyObject *set_front_len(PyObject *m, PyObject *data)
{
    Py_buffer in;
    size_t len;

    (void)m;
    if (PyObject_GetBuffer(data, &in, PyBUF_SIMPLE) < 0)
        return NULL;
    len = bitpacking_set_front_len(in.buf, (size_t)in.len);
    PyBuffer_Release(&in);
    return PyLong_FromSize_t(len);
}

/* The set of the ids of a view and of these after them. */
static Packed *appended(PyTypeObject *type, const bitpacking_set *view, const uint32_t *ids, size_t len)
{
    size_t before = bitpacking_set_len(view), space = before < 1 << 18 ? before + len : len + (1 << 18);
    size_t room = BITPACKING_SET_ROOM(before + len), position = 0;
    uint32_t *work = PyMem_Malloc(4 * space + 4);
    uint8_t *to = PyMem_Malloc(room);
    Packed *made = NULL;
    ptrdiff_t size;

    if (work && to) {
        UNLOCKED(before + len, size = bitpacking_set_append(view, ids, len, work, space, to, room, &position));
        if (size >= 0)
            made = set_of(type, to, (size_t)size);
        else
            fail_at(size, size == BITPACKING_NOT_SORTED ? (Py_ssize_t)(position - before) : -1, -1);
    } else
        PyErr_NoMemory();
    PyMem_Free(work);
    PyMem_Free(to);
    return made;
}

/* set_append(type, set, ids): a set of the ids of the set and of these after them. Nothing else writes the ids. */
static PyObject *set_append(PyObject *m, PyObject *args)
{
    PyObject *type, *it, *ids;
    Packed *made = NULL;
    Py_buffer in;

    (void)m;
    if (!PyArg_ParseTuple(args, "OO!O", &type, Set_type, &it, &ids) || !subtype_of(Set_type, type) || get_items(ids, &in, 4, 0) < 0)
        return NULL;
    made = appended((PyTypeObject *)type, &((Set *)it)->view, in.buf, (size_t)in.len / 4);
    PyBuffer_Release(&in);
    return (PyObject *)made;
}

static PyType_Slot Set_slots[] = SLOTS_OF(Set, "The packed bytes of a set, with the calls of the C library.");

PyType_Spec Set_spec = {"fimulowen._core.Set", sizeof(Set), 0,
                        Py_TPFLAGS_DEFAULT | Py_TPFLAGS_BASETYPE | Py_TPFLAGS_DISALLOW_INSTANTIATION, Set_slots};

PyMethodDef set_functions[] = {
    {"set_open", set_open, METH_VARARGS, SIGNED("set_open(type, data, /)", "A set.")},
    {"set_open_many", set_open_many, METH_VARARGS, SIGNED("set_open_many(type, data, bounds, /)", "Sets.")},
    {"set_range", set_range, METH_VARARGS, SIGNED("set_range(type, first, end, /)", "The set of the ids of a range.")},
    {"set_from_roaring", set_from_roaring, METH_VARARGS, SIGNED("set_from_roaring(type, data, /)", "The set of a bitmap.")},
    {"set_shift", set_shift, METH_VARARGS, SIGNED("set_shift(type, set, by, /)", "A set.")},
    {"set_front_len", set_front_len, METH_O, SIGNED("set_front_len(data, /)", "The length of the set at the front, or 0.")},
    {"set_pack", set_pack, METH_VARARGS, SIGNED("set_pack(type, ids, /)", "A set, or None if the ids do not increase.")},
    {"set_append", set_append, METH_VARARGS, SIGNED("set_append(type, set, ids, /)", "A set.")},
    {NULL, NULL, 0, NULL},
};
