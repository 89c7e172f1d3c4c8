/* AND, OR, NOT and XOR of two wide sets. */
#include "core.h"

/* A set has at most MOST_IDS ids. For each id of an answer a call allocates at most EACH bytes: an id, its work space, and packed bytes. */
enum { MOST_IDS = 1 << 28, EACH = 8 + 4 + 9 };

/* Two wide sets, and the operation that combines them. */
typedef struct {
    const bitpacking_wide_set *one, *other;
    uint32_t operation;
} Pair;

/* Reads a call and two sets, which stay where they are as long as the objects live. Returns whether they are right. */
static int get_pair(int call, PyObject *one, PyObject *other, Pair *pair)
{
    pair->one = &((WideSet *)one)->view;
    pair->other = &((WideSet *)other)->view;
    return (pair->operation = operation_of(call)) != 0;
}

/* How many ids both have in all. */
static size_t all_of(const Pair *it) { return bitpacking_wide_set_len(it->one) + bitpacking_wide_set_len(it->other); }

static size_t count_of(const Pair *it)
{
    ptrdiff_t count;

    UNLOCKED(all_of(it), count = bitpacking_wide_set_combine_count(it->operation, it->one, it->other));
    return (size_t)count;
}

/* The room that is always enough for the ids of the answer. */
static size_t bound_of(const Pair *it)
{
    size_t one = bitpacking_wide_set_len(it->one), other = bitpacking_wide_set_len(it->other);

    if (it->operation == BITPACKING_AND)
        return one < other ? one : other;
    return it->operation == BITPACKING_AND_NOT ? one : one + other;
}

/* Room for the ids of the answer. To count them takes about as long as to find them, so that is only done if there is no memory for more. */
static size_t room_of(const Pair *it)
{
    size_t bound = bound_of(it);
    void *tried = bound <= MOST_IDS ? PyMem_Malloc(EACH * bound + 64) : NULL;

    PyMem_Free(tried);
    return tried ? bound : count_of(it);
}

/* wide_combine(call, one, other): an array. */
static PyObject *wide_combine(PyObject *m, PyObject *args)
{
    PyObject *one, *other, *array;
    uint32_t *space;
    ptrdiff_t answer = BITPACKING_SHORT;
    Py_buffer out;
    size_t room;
    Pair it;
    int call;

    (void)m;
    if (!PyArg_ParseTuple(args, "iO!O!", &call, WideSet_type, &one, WideSet_type, &other) || !get_pair(call, one, other, &it))
        return NULL;
    room = room_of(&it);
    array = new_array(room, type_u64, &out);
    if (!array)
        return NULL;
    space = PyMem_Malloc(4 * room + 4);
    if (space)
        UNLOCKED(all_of(&it), answer = bitpacking_wide_set_combine_ids(it.operation, it.one, it.other, out.buf, room, space, room));
    array = first_of(array, &out, answer < 0 ? 0 : (size_t)answer);
    if (answer < 0) {
        Py_CLEAR(array);
        space ? fail(answer) : PyErr_NoMemory();
    }
    PyMem_Free(space);
    return array;
}

/* Of the work space, which has 3 items for an id, 2 are for the id itself. */
static ptrdiff_t write_paired(const Source *from, uint32_t *work, size_t items, uint8_t *to, size_t room)
{
    const Pair *it = from->data;

    return bitpacking_wide_set_combine(it->operation, it->one, it->other, (uint64_t *)work, items / 3, work + items / 3 * 2, items / 3, to, room);
}

/* wide_join(type, call, one, other): a set. */
static PyObject *wide_join(PyObject *m, PyObject *args)
{
    PyObject *type, *one, *other;
    size_t room;
    Source from;
    Pair it;
    int call;

    (void)m;
    if (!PyArg_ParseTuple(args, "OiO!O!", &type, &call, WideSet_type, &one, WideSet_type, &other) || !subtype_of(WideSet_type, type) ||
        !get_pair(call, one, other, &it))
        return NULL;
    room = room_of(&it);
    if (room > MOST_IDS)
        return fail(BITPACKING_TOO_LONG);
    from = (Source){&it, 2, 0, all_of(&it)};
    return (PyObject *)set_written((PyTypeObject *)type, write_paired, &from, 3 * room, BITPACKING_WIDE_SET_ROOM(room));
}

/* wide_count(call, one, other): how many ids the answer has. */
static PyObject *wide_count(PyObject *m, PyObject *args)
{
    PyObject *one, *other;
    Pair it;
    int call;

    (void)m;
    if (!PyArg_ParseTuple(args, "iO!O!", &call, WideSet_type, &one, WideSet_type, &other) || !get_pair(call, one, other, &it))
        return NULL;
    return PyLong_FromSize_t(count_of(&it));
}

PyMethodDef pair_functions[] = {
    {"wide_combine", wide_combine, METH_VARARGS, SIGNED("wide_combine(call, one, other, /)", "An array.")},
    {"wide_join", wide_join, METH_VARARGS, SIGNED("wide_join(type, call, one, other, /)", "A set.")},
    {"wide_count", wide_count, METH_VARARGS, SIGNED("wide_count(call, one, other, /)", "How many ids the answer has.")},
    {NULL, NULL, 0, NULL},
};
