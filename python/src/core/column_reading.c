/* The values of a column: one, those of a range, those at positions; and which are missing. */
#include "column.h"
#include <stdlib.h>
#include <string.h>

static Column *of(PyObject *self) { return (Column *)self; }

PyObject *Column_get(PyObject *self, PyObject *at)
{
    Py_ssize_t position = PyNumber_AsSsize_t(at, PyExc_IndexError);
    Chunk *it;

    if (position == -1 && PyErr_Occurred())
        return NULL;
    if (position < 0)
        position += (Py_ssize_t)of(self)->len;
    if (position < 0 || (size_t)position >= of(self)->len) {
        PyErr_SetString(PyExc_IndexError, "position out of range");
        return NULL;
    }
    it = &of(self)->chunks[position / CHUNK];
    if (bitpacking_set_contains(&it->missing, (uint32_t)(position % CHUNK)))
        Py_RETURN_NONE;
    return as_number(of(self), it->least + code_at(it, (size_t)(position % CHUNK)));
}

/* Writes values to memory that other threads may write: the library unpacks to private memory first. */
static void read_values(const Chunk *it, size_t from, size_t len, char *out)
{
    uint32_t low[PIECE], high[PIECE];
    size_t done, count, i;
    uint64_t value;
    const uint64_t least = it->least; /* as far as the compiler knows, writing to `out` may change what `it` points to */
    const int is_wide = it->is_wide;

    for (done = 0; done < len; done += count) {
        count = len - done < PIECE ? len - done : PIECE;
        bitpacking_column_range(&it->low, from + done, low, count);
        if (is_wide)
            bitpacking_column_range(&it->high, from + done, high, count);
        for (i = 0; !is_wide && i < count; i++) {
            value = least + low[i];
            memcpy(out + 8 * (done + i), &value, 8);
        }
        for (; i < count; i++) {
            value = least + ((uint64_t)high[i] << 32 | low[i]);
            memcpy(out + 8 * (done + i), &value, 8);
        }
    }
}

/* Writes an item of one or eight bytes for each missing value from `from` up to `from + len`. Returns -1 if memory ran out. */
static int write_missing(const Chunk *it, size_t from, size_t len, char *out, const void *item, size_t size)
{
    size_t count = missing_of(it), i;
    uint32_t *ids = count > 0 ? missing_ids(it) : NULL;

    if (!ids)
        return count > 0 ? -1 : 0;
    for (i = 0; i < count; i++)
        if (ids[i] >= from && ids[i] - from < len)
            memcpy(out + size * (ids[i] - from), item, size);
    free(ids);
    return 0;
}

/* Calls for the part of each chunk from a position on, as many values as fit: with values, or only with those that are missing. */
static PyObject *each_part(Column *self, Py_buffer *out, size_t size, Py_ssize_t start, int with_values, const void *item)
{
    size_t len = (size_t)out->len / size, at = (size_t)start, done, count;
    int failed = 0;

    if (start < 0 || at > self->len || len > self->len - at) {
        PyErr_SetString(PyExc_IndexError, "position out of range");
        return NULL;
    }
    for (done = 0; done < len && !failed; done += count) {
        const Chunk *it = &self->chunks[(at + done) / CHUNK];
        size_t from = (at + done) % CHUNK;
        char *to = (char *)out->buf + size * done;
        count = len - done < CHUNK - from ? len - done : CHUNK - from;
        UNLOCKED(count, {
            if (with_values)
                read_values(it, from, count, to);
            failed = write_missing(it, from, count, to, item, size);
        });
        if (failed)
            PyErr_NoMemory();
        else
            failed = PyErr_CheckSignals();
    }
    return failed ? NULL : Py_NewRef(Py_None);
}

/* read(out, start, fill): fills a buffer of 8 bytes for each value. */
PyObject *Column_read(PyObject *self, PyObject *args)
{
    PyObject *to, *filling, *done;
    Py_ssize_t start;
    Py_buffer out;
    uint64_t fill;

    if (!PyArg_ParseTuple(args, "OnO", &to, &start, &filling))
        return NULL;
    fill = PyLong_AsUnsignedLongLongMask(filling);
    if (PyErr_Occurred() || get_items(to, &out, 8, PyBUF_WRITABLE) < 0)
        return NULL;
    done = each_part(of(self), &out, 8, start, 1, &fill);
    PyBuffer_Release(&out);
    return done;
}

/* mark(out, start): sets a byte for each missing value in a buffer of zeros. */
PyObject *Column_mark(PyObject *self, PyObject *args)
{
    PyObject *to, *done;
    Py_ssize_t start;
    Py_buffer out;
    const uint8_t one = 1;

    if (!PyArg_ParseTuple(args, "On", &to, &start) || PyObject_GetBuffer(to, &out, PyBUF_WRITABLE) < 0)
        return NULL;
    done = each_part(of(self), &out, 1, start, 0, &one);
    PyBuffer_Release(&out);
    return done;
}

/* Writes the positions of the missing values of a chunk that begins at a position. Returns -1 if memory ran out. */
static int write_absent(const Chunk *it, size_t begin, int64_t *out)
{
    size_t count = missing_of(it), i;
    uint32_t *ids = count > 0 ? missing_ids(it) : NULL;

    for (i = 0; ids && i < count; i++)
        out[i] = (int64_t)(begin + ids[i]);
    free(ids);
    return ids || count == 0 ? 0 : -1;
}

/* absent(): the positions of all missing values. */
PyObject *Column_absent(PyObject *self, PyObject *unused)
{
    size_t m, done = 0;
    int failed = 0;
    Py_buffer out;
    PyObject *array = new_array(of(self)->missing, type_index, &out);

    (void)unused;
    if (!array)
        return NULL;
    for (m = 0; m < of(self)->count && !failed; m++) {
        const Chunk *it = &of(self)->chunks[m];
        UNLOCKED(missing_of(it), failed = write_absent(it, m * CHUNK, (int64_t *)out.buf + done));
        done += missing_of(it);
        if (failed)
            PyErr_NoMemory();
        else
            failed = PyErr_CheckSignals();
    }
    PyBuffer_Release(&out);
    if (failed)
        Py_CLEAR(array);
    return array;
}

/* Writes the values at positions that are in one chunk, and a byte for each that is missing. */
static void gather_part(const Chunk *it, const int64_t *positions, size_t len, int64_t *out, uint8_t *mask)
{
    size_t within[PIECE], i;
    uint32_t low[PIECE], high[PIECE];

    for (i = 0; i < len; i++)
        within[i] = (size_t)positions[i] % CHUNK;
    bitpacking_column_gather(&it->low, within, len, low, len);
    if (it->is_wide)
        bitpacking_column_gather(&it->high, within, len, high, len);
    for (i = 0; i < len; i++)
        out[i] = (int64_t)(it->least + low[i] + (it->is_wide ? (uint64_t)high[i] << 32 : 0));
    if (mask && missing_of(it) > 0)
        for (i = 0; i < len; i++)
            mask[i] = (uint8_t)bitpacking_set_contains(&it->missing, (uint32_t)within[i]);
}

/* Gathers at most a chunk of values. Returns -1 if a position is not in the column. */
static int gather(const Column *self, const int64_t *positions, size_t len, int64_t *out, uint8_t *mask)
{
    size_t done, count, chunk;

    for (done = 0; done < len; done++)
        if (positions[done] < 0 || (uint64_t)positions[done] >= self->len)
            return -1;
    for (done = 0; done < len; done += count) {
        chunk = (size_t)positions[done] / CHUNK;
        for (count = 1; count < PIECE && done + count < len && (size_t)positions[done + count] / CHUNK == chunk; count++)
            ;
        gather_part(&self->chunks[chunk], positions + done, count, out + done, mask ? mask + done : NULL);
    }
    return 0;
}

/* gather(positions, out, mask): all are private to the call, and mask may be None. */
PyObject *Column_gather(PyObject *self, PyObject *args)
{
    PyObject *from, *to, *marks;
    Py_buffer in = {0}, out = {0}, mask = {0};
    size_t len, done, count;
    int failed = 0;

    if (!PyArg_ParseTuple(args, "OOO", &from, &to, &marks) || get_items(from, &in, 8, 0) < 0)
        return NULL;
    len = (size_t)in.len / 8;
    if (get_items(to, &out, 8, PyBUF_WRITABLE) < 0 || (marks != Py_None && PyObject_GetBuffer(marks, &mask, PyBUF_WRITABLE) < 0))
        failed = -1;
    else if (out.len != in.len || (mask.buf && (size_t)mask.len != len)) {
        PyErr_SetString(PyExc_ValueError, "the buffers are not as long as the positions");
        failed = -1;
    }
    for (done = 0; done < len && !failed; done += count) {
        count = len - done < CHUNK ? len - done : CHUNK;
        UNLOCKED(len, failed = gather(of(self), (int64_t *)in.buf + done, count, (int64_t *)out.buf + done,
                                      mask.buf ? (uint8_t *)mask.buf + done : NULL));
        if (failed)
            PyErr_SetString(PyExc_IndexError, "position out of range");
        else
            failed = PyErr_CheckSignals();
    }
    PyBuffer_Release(&mask);
    PyBuffer_Release(&out);
    PyBuffer_Release(&in);
    return failed ? NULL : Py_NewRef(Py_None);
}
