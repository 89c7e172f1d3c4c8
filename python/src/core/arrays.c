/* Arrays of numpy, made and filled without its API. */
#include "core.h"
#include <string.h>

/* A new array of len items, with a buffer to fill. */
PyObject *new_array(size_t len, PyObject *type, Py_buffer *out)
{
    PyObject *array = PyObject_CallFunction(numpy_empty, "nO", (Py_ssize_t)len, type);

    if (array && PyObject_GetBuffer(array, out, PyBUF_C_CONTIGUOUS | PyBUF_WRITABLE) < 0)
        Py_CLEAR(array);
    return array;
}

/* The first len items of an array: all of it, a slice that shares its memory, or a copy if that is far too much. It releases the array and its
 * buffer. */
PyObject *first_of(PyObject *array, Py_buffer *out, size_t len)
{
    size_t all = (size_t)(out->len / out->itemsize);
    PyObject *part, *copy;

    PyBuffer_Release(out);
    if (len == all)
        return array;
    part = PySequence_GetSlice(array, 0, (Py_ssize_t)len);
    Py_DECREF(array);
    if (!part || len > all / 2)
        return part;
    copy = PyObject_CallMethod(part, "copy", NULL);
    Py_DECREF(part);
    return copy;
}

/* A buffer of aligned integers in C order, of 4 or 8 bytes each, or of either if `item` is 0. Those of 4 bytes are without a sign. Other
 * types are the caller's to convert. */
int get_items(PyObject *from, Py_buffer *to, size_t item, int flags)
{
    const char *format;
    size_t size;

    if (PyObject_GetBuffer(from, to, PyBUF_C_CONTIGUOUS | PyBUF_FORMAT | flags) < 0)
        return -1;
    format = to->format ? to->format : "B";
    size = (size_t)to->itemsize;
    if (*format == '@' || *format == '=')
        format++;
    if ((item == 0 || item == size) && (size == 4 || size == 8) && (uintptr_t)to->buf % size == 0 && format[0] && !format[1] &&
        strchr(size == 4 ? "IL" : "lLqQnN", *format))
        return 0;
    PyErr_Format(PyExc_TypeError, "aligned values of %s expected, not the format '%s' of %zd bytes",
                 item == 4 ? "uint32" : item == 8 ? "int64 or uint64" : "uint32, int64 or uint64", to->format ? to->format : "B", to->itemsize);
    PyBuffer_Release(to);
    return -1;
}

/* Reads a number from 2^63 on: 1 and the value, 2 if it has more than 64 bits, or -1 with an exception. */
static int get_large(PyObject *it, uint64_t *value)
{
    PyObject *index = PyNumber_Index(it);

    if (!index)
        return -1;
    *value = PyLong_AsUnsignedLongLong(index);
    Py_DECREF(index);
    if (!PyErr_Occurred())
        return 1;
    PyErr_Clear();
    return 2;
}

/* Reads a number to be searched: 1 and the value, 0 if it is below 0, 2 if it is above `most`, or -1 with an exception. */
int get_target(PyObject *it, uint64_t most, uint64_t *value)
{
    int overflow, read = 1;
    long long number = PyLong_AsLongLongAndOverflow(it, &overflow);

    if (number == -1 && !overflow && PyErr_Occurred())
        return -1;
    *value = 0;
    if (overflow < 0 || (!overflow && number < 0))
        return 0;
    if (overflow)
        read = get_large(it, value);
    else
        *value = (uint64_t)number;
    return read == 1 && *value > most ? 2 : read;
}

static size_t least_of(size_t one, size_t other) { return one < other ? one : other; }

/* Writes what a call writes of integers of 4 or 8 bytes. It copies them to private memory, since other threads may write theirs. */
static void write_all(const void *it, write_found *write, const Py_buffer *in, const Py_buffer *out, size_t done, size_t end)
{
    uint64_t part[512];
    uint32_t narrow;
    size_t count, i;

    for (; done < end; done += count) {
        count = least_of(end - done, 512);
        if (in->itemsize == 8)
            memcpy(part, (char *)in->buf + 8 * done, 8 * count);
        else
            for (i = 0; i < count; i++) {
                memcpy(&narrow, (char *)in->buf + 4 * (done + i), 4);
                part[i] = narrow;
            }
        write(it, part, count, (char *)out->buf + (size_t)out->itemsize * done);
    }
}

/* A new array of what a call writes of each integer of a buffer. */
PyObject *found_of(const void *it, const Py_buffer *in, PyObject *type, write_found *write)
{
    size_t len = (size_t)(in->len / in->itemsize), done, count;
    Py_buffer out;
    PyObject *array = new_array(len, type, &out);

    if (!array)
        return NULL;
    for (done = 0; done < len && PyErr_CheckSignals() == 0; done += count) {
        count = least_of(len - done, FEW);
        UNLOCKED(count, write_all(it, write, in, &out, done, done + count));
    }
    PyBuffer_Release(&out);
    if (done < len)
        Py_CLEAR(array);
    return array;
}

/* Whether the bounds do not fall, and are bounds of as many items. */
int are_bounds(const int64_t *bounds, size_t count, size_t len)
{
    size_t i;

    for (i = 0; i < count; i++)
        if (bounds[i] < (i > 0 ? bounds[i - 1] : 0) || (uint64_t)bounds[i] > len)
            return 0;
    return count > 0;
}

/* A list of what a call opens between each two bounds of the data, which is read only. */
PyObject *opened_parts(PyTypeObject *type, PyObject *data, PyObject *bounds, open_call *open)
{
    PyObject *all = NULL;
    Py_buffer at;
    Py_ssize_t i;

    if (get_items(bounds, &at, 8, 0) < 0)
        return NULL;
    if (!are_bounds(at.buf, (size_t)at.len / 8, PTRDIFF_MAX))
        PyErr_SetString(PyExc_IndexError, "bounds fall, or there are none");
    else
        all = PyList_New(at.len / 8 - 1);
    for (i = 0; all && i < at.len / 8 - 1; i++) {
        const int64_t *bound = at.buf;
        PyObject *it = i % 256 == 0 && PyErr_CheckSignals() < 0 ? NULL : open(type, data, (size_t)bound[i], (size_t)bound[i + 1], i);
        if (it)
            PyList_SetItem(all, i, it);
        else
            Py_CLEAR(all);
    }
    PyBuffer_Release(&at);
    return all;
}
