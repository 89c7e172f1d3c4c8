/* The methods of a set. */
#define ID uint32_t
#define VIEW bitpacking_set
#define OBJECT Set
#define CALL(name) bitpacking_set_##name
#define METHOD(name) Set_##name
#define IDS_TYPE type_u32
#define ITEM 0
#define NO_ID "-1"
#include "ids_reading.h"

/* Room for the bitmap of fewer than 128 ids, which take few bytes as a set: 127 containers of one id each take 1,278. */
enum { FEW_ROOM = 1278 };

/* Sets the byte of each of some ids from a position on. */
static void mark(const bitpacking_set *view, size_t from, size_t len, uint8_t *out)
{
    uint32_t part[MANY];
    size_t done, count, i;

    for (done = 0; done < len; done += count) {
        count = (size_t)bitpacking_set_slice(view, from + done, part, least_of(len - done, MANY));
        for (i = 0; i < count; i++)
            out[part[i]] = 1;
    }
}

/* _mask(count): an array of as many bools, which are true at the ids. */
static PyObject *Set_mask(PyObject *self, PyObject *count)
{
    const size_t room = PyLong_AsSize_t(count), len = (size_t)Set_length(self);
    PyObject *array;
    Py_buffer out;
    uint32_t last;
    size_t done;

    if (room == (size_t)-1 && PyErr_Occurred())
        return NULL;
    if (len > 0 && (bitpacking_set_get(view_of(self), len - 1, &last) != 1 || last >= room)) {
        PyErr_Format(PyExc_IndexError, "the id %u is not below %zu", (unsigned)last, room);
        return NULL;
    }
    array = new_array(room, type_bool, &out);
    if (!array)
        return NULL;
    memset(out.buf, 0, room);
    for (done = 0; done < len && PyErr_CheckSignals() == 0; done += PART)
        UNLOCKED(least_of(len - done, PART), mark(view_of(self), done, least_of(len - done, PART), out.buf));
    PyBuffer_Release(&out);
    if (done < len)
        Py_CLEAR(array);
    return array;
}

/* _remove(ids): keeps those that the set lacks at the front of an increasing array of uint32. Nothing else reads or writes it. */
static PyObject *Set_remove(PyObject *self, PyObject *ids)
{
    Py_buffer in;
    ptrdiff_t answer;

    if (get_items(ids, &in, 4, PyBUF_WRITABLE) < 0)
        return NULL;
    UNLOCKED(in.len / 4, answer = bitpacking_set_remove(view_of(self), in.buf, (size_t)in.len / 4));
    PyBuffer_Release(&in);
    return answer < 0 ? fail(answer) : PyLong_FromSsize_t(answer);
}

/* Its bitmap in Roaring's portable format. To measure it first takes half as long as to write it, and to copy it far less. Room for twice the bytes of
 * the set, or for few ids, is usually enough. */
static PyObject *Set_to_roaring(PyObject *self, PyObject *none)
{
    size_t len = (size_t)Set_length(self), size = 2 * view_of(self)->bytes_len + FEW_ROOM, room = 0;
    uint8_t *bytes = NULL;
    PyObject *made;

    (void)none;
    while (size > room) {
        room = size;
        PyMem_Free(bytes);
        if (!(bytes = PyMem_Malloc(room)))
            return PyErr_NoMemory();
        UNLOCKED(len, size = bitpacking_set_to_roaring(view_of(self), bytes, room));
    }
    made = PyBytes_FromStringAndSize((const char *)bytes, (Py_ssize_t)size);
    PyMem_Free(bytes);
    return made;
}

/* _count_between(low, high): how many ids are from low to high, both included. */
static PyObject *Set_count_between(PyObject *self, PyObject *args)
{
    unsigned int low, high;

    if (!PyArg_ParseTuple(args, "II", &low, &high))
        return NULL;
    return PyLong_FromSize_t(bitpacking_set_count_between(view_of(self), low, high));
}

/* _describe(): how many ids, bytes and chunks, and how many bodies of each form. */
static PyObject *Set_describe(PyObject *self, PyObject *none)
{
    bitpacking_set_description it;

    (void)none;
    UNLOCKED(Set_length(self), bitpacking_set_describe(view_of(self), &it));
    return Py_BuildValue("KKKKKK", (unsigned long long)it.ids, (unsigned long long)it.bytes, (unsigned long long)it.chunks,
                         (unsigned long long)it.numbers, (unsigned long long)it.blocks, (unsigned long long)it.runs);
}

PyMethodDef Set_methods[] = {
    READING_METHODS,
    {"_mask", Set_mask, METH_O, SIGNED("_mask($self, count, /)", "As many bools, which are true at the ids.")},
    {"_remove", Set_remove, METH_O, SIGNED("_remove($self, ids, /)", "Keeps the ids that the set lacks; returns how many.")},
    {"_to_roaring", Set_to_roaring, METH_NOARGS, SIGNED("_to_roaring($self, /)", "The bitmap of the ids.")},
    {"_count_between", Set_count_between, METH_VARARGS, SIGNED("_count_between($self, low, high, /)", "How many ids are from low to high, both included.")},
    {"_describe", Set_describe, METH_NOARGS, SIGNED("_describe($self, /)", "What the set is like, as six numbers.")},
    {NULL, NULL, 0, NULL},
};
