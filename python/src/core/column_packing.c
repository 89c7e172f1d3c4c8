/* From values to the rows and the bytes of chunks. */
#include "column.h"

/* The room for the work on one chunk. */
typedef struct {
    uint32_t *low, *high, *ids;
    uint8_t *bytes;
    size_t room;
} Room;

static int get_room(Room *it, size_t len)
{
    it->room = BITPACKING_SET_ROOM(len) + 2 * BITPACKING_COLUMN_ROOM(len);
    it->low = PyMem_Malloc(12 * len + it->room);
    if (!it->low)
        return -1;
    it->high = it->low + len;
    it->ids = it->high + len;
    it->bytes = (uint8_t *)(it->ids + len);
    return 0;
}

/* Gives each missing value the number of the one before it, or the first ones the first that is there. All are 0 if none is there. Writes the
 * positions that are missing, and returns their number. */
static size_t fill(uint64_t *values, const uint8_t *mask, size_t len, uint32_t *ids)
{
    size_t i, count = 0;
    uint64_t before = 0;

    for (i = 0; i < len && mask[i]; i++)
        ;
    if (i < len)
        before = values[i];
    for (i = 0; i < len; i++) {
        if (mask[i]) {
            values[i] = before;
            ids[count++] = (uint32_t)i;
        }
        before = values[i];
    }
    return count;
}

static void put(uint8_t *to, uint64_t value, size_t size)
{
    size_t i;

    for (i = 0; i < size; i++)
        to[i] = (uint8_t)(value >> (8 * i));
}

/* Packs 32-bit numbers as a column of the kind that their order allows. */
static size_t packed_part(const uint32_t *values, size_t len, uint8_t *to, size_t room)
{
    return (size_t)bitpacking_column_pack(falls(values, len) ? BITPACKING_PLAIN : BITPACKING_SORTED, values, len, to, room, NULL);
}

/* Packs a chunk. The values are changed. Writes its row without the checksum, and returns the number of its bytes. */
static size_t packed_chunk(uint64_t *values, const uint8_t *mask, size_t len, uint64_t sign, Room *room, uint8_t *row)
{
    size_t i, absent = mask ? fill(values, mask, len, room->ids) : 0, sizes[3] = {0, 0, 0}, used;
    uint64_t least = UINT64_MAX, greatest = 0, code;

    for (i = 0; i < len; i++) {
        uint64_t key = values[i] ^ sign;
        least = key < least ? key : least;
        greatest = key > greatest ? key : greatest;
    }
    for (i = 0; i < len; i++) {
        code = (values[i] ^ sign) - least;
        room->low[i] = (uint32_t)code;
        room->high[i] = (uint32_t)(code >> 32);
    }
    if (absent > 0)
        sizes[0] = (size_t)bitpacking_set_pack(room->ids, absent, room->bytes, room->room, NULL);
    sizes[1] = packed_part(room->low, len, room->bytes + sizes[0], room->room - sizes[0]);
    used = sizes[0] + sizes[1];
    if (greatest - least > UINT32_MAX)
        sizes[2] = packed_part(room->high, len, room->bytes + used, room->room - used);
    put(row, least ^ sign, 8);
    put(row + 8, greatest ^ sign, 8);
    for (i = 0; i < 3; i++)
        put(row + 16 + 4 * i, sizes[i], 4);
    return used + sizes[2];
}

/* Appends the row and the bytes of a chunk to a list. */
static int append_chunk(PyObject *list, const uint8_t *row, const uint8_t *bytes, size_t size)
{
    PyObject *one = PyBytes_FromStringAndSize((const char *)row, ROW - 4);
    PyObject *other = one ? PyBytes_FromStringAndSize((const char *)bytes, (Py_ssize_t)size) : NULL;
    int done = other && PyList_Append(list, one) == 0 && PyList_Append(list, other) == 0;

    Py_XDECREF(one);
    Py_XDECREF(other);
    return done ? PyErr_CheckSignals() : -1;
}

static PyObject *packed_chunks(uint64_t *values, const uint8_t *mask, size_t len, uint64_t sign)
{
    Room room = {0};
    uint8_t row[ROW];
    size_t at, part, size;
    PyObject *list = get_room(&room, len < CHUNK ? len : CHUNK) == 0 ? PyList_New(0) : PyErr_NoMemory();

    for (at = 0; list && at < len; at += part) {
        part = len - at < CHUNK ? len - at : CHUNK;
        UNLOCKED(part, size = packed_chunk(values + at, mask ? mask + at : NULL, part, sign, &room, row));
        if (append_chunk(list, row, room.bytes, size) < 0)
            Py_CLEAR(list);
    }
    PyMem_Free(room.low);
    return list;
}

/* column_pack(values, mask, has_sign): a list with the row, without its checksum, and the bytes of each chunk in turn. The values and the mask,
 * which may be None, are private to the call, and the values are changed. */
PyObject *column_pack(PyObject *m, PyObject *args)
{
    PyObject *values, *mask, *list = NULL;
    Py_buffer in, absent = {0};
    int has_sign;

    (void)m;
    if (!PyArg_ParseTuple(args, "OOp", &values, &mask, &has_sign) || get_items(values, &in, 8, PyBUF_WRITABLE) < 0)
        return NULL;
    if (mask == Py_None || PyObject_GetBuffer(mask, &absent, PyBUF_SIMPLE) == 0) {
        if (mask != Py_None && absent.len != in.len / 8)
            PyErr_SetString(PyExc_ValueError, "the mask is not as long as the values");
        else
            list = packed_chunks(in.buf, absent.buf, (size_t)in.len / 8, has_sign ? (uint64_t)1 << 63 : 0);
        PyBuffer_Release(&absent);
    }
    PyBuffer_Release(&in);
    return list;
}
