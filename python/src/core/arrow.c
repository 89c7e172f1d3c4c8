/* Arrays of numpy as arrays of Arrow: two capsules, by the Arrow C data interface. Their memory is that of the arrays, which they hold. */
#include "core.h"
#include <stdlib.h>
#include <string.h>

/* The structs of https://arrow.apache.org/docs/format/CDataInterface.html. */
struct ArrowSchema {
    const char *format, *name, *metadata;
    int64_t flags, n_children;
    struct ArrowSchema **children, *dictionary;
    void (*release)(struct ArrowSchema *);
    void *private_data;
};

struct ArrowArray {
    int64_t length, null_count, offset, n_buffers, n_children;
    const void **buffers;
    struct ArrowArray **children, *dictionary;
    void (*release)(struct ArrowArray *);
    void *private_data;
};

enum { NULLABLE = 2 };

/* The format, which the schema names as its own. */
static void release_schema(struct ArrowSchema *it)
{
    free(it->private_data);
    it->release = NULL;
}

/* What an array of Arrow holds: a bit for each value that is there, or nothing, and the values. */
typedef struct {
    Py_buffer held[2];
    const void *buffers[2];
} Buffers;

/* A consumer may release an array on any thread. */
static void release_array(struct ArrowArray *it)
{
    Buffers *buffers = it->private_data;
    PyGILState_STATE state = PyGILState_Ensure();

    PyBuffer_Release(&buffers->held[0]);
    PyBuffer_Release(&buffers->held[1]);
    PyGILState_Release(state);
    free(buffers);
    it->release = NULL;
}

static void free_schema(PyObject *capsule)
{
    struct ArrowSchema *it = PyCapsule_GetPointer(capsule, "arrow_schema");

    if (it->release)
        it->release(it);
    free(it);
}

static void free_array(PyObject *capsule)
{
    struct ArrowArray *it = PyCapsule_GetPointer(capsule, "arrow_array");

    if (it->release)
        it->release(it);
    free(it);
}

/* A capsule of a struct, which frees it; or the struct is freed at once. */
static PyObject *capsule_of(void *it, const char *name, PyCapsule_Destructor destroy)
{
    PyObject *made = it ? PyCapsule_New(it, name, destroy) : PyErr_NoMemory();

    if (!made)
        free(it);
    return made;
}

/* arrow_schema(format, nullable): a capsule of the type. */
static PyObject *arrow_schema(PyObject *m, PyObject *args)
{
    const char *format;
    struct ArrowSchema *it;
    char *copy;
    int nullable;
    PyObject *made;

    (void)m;
    if (!PyArg_ParseTuple(args, "sp", &format, &nullable))
        return NULL;
    it = calloc(1, sizeof *it);
    made = capsule_of(it, "arrow_schema", free_schema);
    if (!made)
        return NULL;
    copy = malloc(strlen(format) + 1);
    if (!copy) {
        Py_DECREF(made);
        return PyErr_NoMemory();
    }
    *it = (struct ArrowSchema){strcpy(copy, format), "", NULL, nullable ? NULLABLE : 0, 0, NULL, NULL, release_schema, copy};
    return made;
}

/* Acquires the buffers of the values, and of the bits if these are not None. */
static int hold_buffers(Buffers *buffers, PyObject *bits, PyObject *values)
{
    if (PyObject_GetBuffer(values, &buffers->held[1], PyBUF_C_CONTIGUOUS | PyBUF_FORMAT) < 0)
        return -1;
    if (bits != Py_None && PyObject_GetBuffer(bits, &buffers->held[0], PyBUF_SIMPLE) < 0) {
        PyBuffer_Release(&buffers->held[1]);
        return -1;
    }
    buffers->buffers[0] = buffers->held[0].buf;
    buffers->buffers[1] = buffers->held[1].buf;
    return 0;
}

/* arrow_array(values, bits, nulls): a capsule of the array. Bit i % 8 of byte i / 8 of the bits is 1 if value i is there; None if all are. */
static PyObject *arrow_array(PyObject *m, PyObject *args)
{
    PyObject *values, *bits, *made;
    Py_ssize_t nulls;
    struct ArrowArray *it;
    Buffers *buffers;

    (void)m;
    if (!PyArg_ParseTuple(args, "OOn", &values, &bits, &nulls))
        return NULL;
    it = calloc(1, sizeof *it);
    made = capsule_of(it, "arrow_array", free_array);
    if (!made)
        return NULL;
    buffers = calloc(1, sizeof *buffers);
    if (!buffers) {
        Py_DECREF(made);
        return PyErr_NoMemory();
    }
    if (hold_buffers(buffers, bits, values) < 0) {
        free(buffers);
        Py_DECREF(made);
        return NULL;
    }
    it->length = buffers->held[1].len / buffers->held[1].itemsize;
    it->null_count = nulls;
    it->n_buffers = 2;
    it->buffers = buffers->buffers;
    it->release = release_array;
    it->private_data = buffers;
    return made;
}

PyMethodDef arrow_functions[] = {
    {"arrow_schema", arrow_schema, METH_VARARGS, SIGNED("arrow_schema(format, nullable, /)", "A capsule of the type of an array.")},
    {"arrow_array", arrow_array, METH_VARARGS, SIGNED("arrow_array(values, bits, nulls, /)", "A capsule of an array.")},
    {NULL, NULL, 0, NULL},
};
