/* Packed bytes that an object holds: what sets and columns have in common. */
#include "core.h"
#include <string.h>

/* A type that is the base or below it, or NULL with an exception. */
PyTypeObject *subtype_of(PyTypeObject *base, PyObject *type)
{
    if (PyType_Check(type) && PyType_IsSubtype((PyTypeObject *)type, base))
        return (PyTypeObject *)type;
    PyErr_SetString(PyExc_TypeError, "another class expected");
    return NULL;
}

/* Acquires a buffer of the object for good. Writable memory is copied, since packed bytes must not change. */
static int hold(PyObject *data, Py_buffer *buffer)
{
    PyObject *copy;
    int answer;

    if (PyObject_GetBuffer(data, buffer, PyBUF_SIMPLE) < 0)
        return -1;
    if (buffer->readonly)
        return 0;
    copy = PyBytes_FromStringAndSize(buffer->buf, buffer->len);
    PyBuffer_Release(buffer);
    if (!copy)
        return -1;
    answer = PyObject_GetBuffer(copy, buffer, PyBUF_SIMPLE);
    Py_DECREF(copy); /* the buffer holds it */
    return answer;
}

/* A new object of the type that holds the bytes from `from` up to `to`, or up to their end if `to` is SIZE_MAX. It is not opened yet. */
Packed *holding(PyTypeObject *type, PyObject *data, size_t from, size_t to)
{
    Packed *self = (Packed *)((allocfunc)PyType_GetSlot(type, Py_tp_alloc))(type, 0);

    if (!self)
        return NULL;
    if (hold(data, &self->buffer) == 0) {
        if (to == SIZE_MAX)
            to = (size_t)self->buffer.len;
        if (from <= to && to <= (size_t)self->buffer.len) {
            self->bytes = (const uint8_t *)self->buffer.buf + from;
            self->len = to - from;
            return self;
        }
        PyErr_SetString(PyExc_IndexError, "bounds lie outside of the data");
    }
    Py_DECREF((PyObject *)self);
    return NULL;
}

/* A new object of the type that holds a copy of bytes. */
Packed *copy_of(PyTypeObject *type, const uint8_t *bytes, size_t len)
{
    PyObject *copy = PyBytes_FromStringAndSize((const char *)bytes, (Py_ssize_t)len);
    Packed *self = copy ? holding(type, copy, 0, len) : NULL;

    Py_XDECREF(copy);
    return self;
}

/* Whether two have the same bytes, which are the only ones for their values. */
int are_same(const Packed *one, const Packed *other)
{
    int same = one->len == other->len;

    if (same && one->bytes != other->bytes)
        UNLOCKED(one->len, same = memcmp(one->bytes, other->bytes, one->len) == 0);
    return same;
}

static void Packed_dealloc(PyObject *self)
{
    PyTypeObject *type = Py_TYPE(self);

    PyBuffer_Release(&((Packed *)self)->buffer);
    ((freefunc)PyType_GetSlot(type, Py_tp_free))(self);
    Py_DECREF((PyObject *)type);
}

/* The bytes for a memoryview. A set itself has no buffer: numpy.asarray(set) would be its bytes, and not its ids. */
typedef struct {
    PyObject_HEAD
    Packed *packed;
} Raw;

static void Raw_dealloc(PyObject *self)
{
    PyTypeObject *type = Py_TYPE(self);

    Py_XDECREF((PyObject *)((Raw *)self)->packed);
    ((freefunc)PyType_GetSlot(type, Py_tp_free))(self);
    Py_DECREF((PyObject *)type);
}

static int Raw_getbuffer(PyObject *self, Py_buffer *view, int flags)
{
    Packed *packed = ((Raw *)self)->packed;

    return PyBuffer_FillInfo(view, self, (void *)packed->bytes, (Py_ssize_t)packed->len, 1, flags);
}

static PyType_Slot Raw_slots[] = {{Py_tp_dealloc, Raw_dealloc}, {Py_bf_getbuffer, Raw_getbuffer}, {0, NULL}};

PyType_Spec Raw_spec = {"fimulowen._core.Raw", sizeof(Raw), 0, Py_TPFLAGS_DEFAULT | Py_TPFLAGS_DISALLOW_INSTANTIATION, Raw_slots};

static PyObject *Packed_data(PyObject *self, void *unused)
{
    Raw *raw = (Raw *)((allocfunc)PyType_GetSlot(Raw_type, Py_tp_alloc))(Raw_type, 0);
    PyObject *view;

    (void)unused;
    if (!raw)
        return NULL;
    raw->packed = (Packed *)Py_NewRef(self);
    view = PyMemoryView_FromObject((PyObject *)raw);
    Py_DECREF((PyObject *)raw);
    return view;
}

static PyObject *Packed_tobytes(PyObject *self, PyObject *unused)
{
    (void)unused;
    return PyBytes_FromStringAndSize((const char *)((Packed *)self)->bytes, (Py_ssize_t)((Packed *)self)->len);
}

static PyObject *Packed_nbytes(PyObject *self, void *unused)
{
    (void)unused;
    return PyLong_FromSize_t(((Packed *)self)->len);
}

static PyMethodDef Packed_methods[] = {
    {"tobytes", Packed_tobytes, METH_NOARGS, SIGNED("tobytes($self, /)", "A copy of the packed bytes.")},
    {NULL, NULL, 0, NULL},
};

static PyGetSetDef Packed_getset[] = {
    {"data", Packed_data, NULL, "The packed bytes, as a memoryview that is read only.", NULL},
    {"nbytes", Packed_nbytes, NULL, "How many packed bytes there are.", NULL},
    {NULL, NULL, NULL, NULL, NULL},
};

static PyType_Slot Packed_slots[] = {
    {Py_tp_doc, "Packed bytes."},
    {Py_tp_dealloc, Packed_dealloc},
    {Py_tp_methods, Packed_methods},
    {Py_tp_getset, Packed_getset},
    {0, NULL},
};

PyType_Spec Packed_spec = {"fimulowen._core.Packed", sizeof(Packed), 0,
                           Py_TPFLAGS_DEFAULT | Py_TPFLAGS_BASETYPE | Py_TPFLAGS_DISALLOW_INSTANTIATION, Packed_slots};
