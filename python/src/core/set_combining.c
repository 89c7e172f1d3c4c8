/* AND, OR, NOT and XOR of sets. */
#include "core.h"

/* More bytes than a chunk has. */
enum { CHUNK = 8500 };

uint32_t operation_of(int call)
{
    static const uint32_t operations[] = {BITPACKING_AND, BITPACKING_OR, BITPACKING_AND_NOT, BITPACKING_XOR};

    if (call >= INTERSECT && call <= XOR)
        return operations[call];
    PyErr_SetString(PyExc_ValueError, "there is no such call");
    return 0;
}

/* Copies the views of a tuple of sets into new memory. */
static bitpacking_set *views_of(PyObject *sets)
{
    Py_ssize_t len = PyTuple_Size(sets), i;
    bitpacking_set *views = len < 0 ? NULL : PyMem_Malloc(sizeof *views * (size_t)(len ? len : 1));

    if (!views && len >= 0)
        PyErr_NoMemory();
    for (i = 0; views && i < len; i++) {
        PyObject *it = PyTuple_GetItem(sets, i);
        if (!PyObject_TypeCheck(it, Set_type)) {
            PyErr_SetString(PyExc_TypeError, "a set expected");
            PyMem_Free(views);
            return NULL;
        }
        views[i] = ((Set *)it)->view;
    }
    return views;
}

/* How many ids the sets have in all. */
static size_t all_of(const bitpacking_set *views, size_t len)
{
    size_t all = 0, i;

    for (i = 0; i < len; i++)
        all += bitpacking_set_len(views + i);
    return all;
}

/* The room that is always enough for the result. */
static size_t room_of(int call, const bitpacking_set *views, size_t len)
{
    size_t room = len > 0 ? bitpacking_set_len(views) : 0, i;

    if (call == UNITE || call == XOR)
        return all_of(views, len);
    for (i = 1; i < len && call == INTERSECT; i++)
        if (bitpacking_set_len(views + i) < room)
            room = bitpacking_set_len(views + i);
    return room;
}

static ptrdiff_t combined(int call, const bitpacking_set *views, size_t len, uint32_t *ids, size_t room)
{
    switch (call) {
    case INTERSECT:
        return bitpacking_set_intersect(views, len, ids, room);
    case UNITE:
        return bitpacking_set_unite(views, len, ids, room);
    case SUBTRACT:
        return bitpacking_set_subtract(views, len, ids, room);
    default:
        return bitpacking_set_symmetric_difference(views, views + 1, ids, room);
    }
}

/* set_combine(call, sets): an array. The tuple holds the sets: for XOR these are two. */
static PyObject *set_combine(PyObject *m, PyObject *args)
{
    PyObject *sets, *array = NULL;
    bitpacking_set *views;
    Py_buffer out;
    size_t len, room;
    ptrdiff_t answer;
    int call;

    (void)m;
    if (!PyArg_ParseTuple(args, "iO", &call, &sets) || !(views = views_of(sets)))
        return NULL;
    len = (size_t)PyTuple_Size(sets);
    if (call < INTERSECT || call > XOR || (call == XOR && len != 2))
        PyErr_SetString(PyExc_ValueError, "there is no such call");
    else {
        room = room_of(call, views, len);
        array = new_array(room, type_u32, &out);
    }
    if (array) {
        UNLOCKED(all_of(views, len), answer = combined(call, views, len, out.buf, room));
        array = first_of(array, &out, answer < 0 ? 0 : (size_t)answer);
        if (answer < 0) {
            Py_CLEAR(array);
            fail(answer);
        }
    }
    PyMem_Free(views);
    return array;
}

static ptrdiff_t write_joined(const Source *from, uint32_t *work, size_t items, uint8_t *to, size_t room)
{
    return bitpacking_set_combine((uint32_t)from->number, from->data, from->len, work, items, to, room);
}

/* The set that an operation on sets gives. Room for the bytes of all, and of a chunk more, is usually enough. */
static Packed *joined(PyTypeObject *type, uint32_t operation, const bitpacking_set *views, size_t len)
{
    const Source from = {views, len, operation, all_of(views, len)};
    size_t room = CHUNK, i;

    for (i = 0; i < len; i++)
        room += views[i].bytes_len;
    return set_written(type, write_joined, &from, bitpacking_set_combine_room(views, len), room);
}

/* set_join(type, call, sets): the set that an operation on a tuple of sets gives. */
static PyObject *set_join(PyObject *m, PyObject *args)
{
    PyObject *type, *sets, *made = NULL;
    bitpacking_set *views;
    uint32_t operation;
    int call;

    (void)m;
    if (!PyArg_ParseTuple(args, "OiO", &type, &call, &sets) || !subtype_of(Set_type, type) || !(views = views_of(sets)))
        return NULL;
    if ((operation = operation_of(call)))
        made = (PyObject *)joined((PyTypeObject *)type, operation, views, (size_t)PyTuple_Size(sets));
    PyMem_Free(views);
    return made;
}

/* set_count(call, sets): how many ids all sets have, or any. */
static PyObject *set_count(PyObject *m, PyObject *args)
{
    PyObject *sets;
    bitpacking_set *views;
    ptrdiff_t answer;
    size_t len;
    int call;

    (void)m;
    if (!PyArg_ParseTuple(args, "iO", &call, &sets) || !(views = views_of(sets)))
        return NULL;
    len = (size_t)PyTuple_Size(sets);
    UNLOCKED(all_of(views, len),
             answer = call == INTERSECT ? bitpacking_set_count_common(views, len) : bitpacking_set_count_any(views, len));
    PyMem_Free(views);
    return answer < 0 ? fail(answer) : PyLong_FromSsize_t(answer);
}

PyMethodDef combining_functions[] = {
    {"set_combine", set_combine, METH_VARARGS, SIGNED("set_combine(call, sets, /)", "An array.")},
    {"set_join", set_join, METH_VARARGS, SIGNED("set_join(type, call, sets, /)", "A set.")},
    {"set_count", set_count, METH_VARARGS, SIGNED("set_count(call, sets, /)", "How many ids all sets have, or any.")},
    {NULL, NULL, 0, NULL},
};
