/* The methods that read a set of ids of 32 or of 64 bits. A file that includes this defines before
 *
 *     ID              the type of an id
 *     VIEW            the view of the library that has the ids
 *     OBJECT          the object that has the view
 *     CALL(name)      a function of the library for the view
 *     METHOD(name)    a method of the object, and its type
 *     IDS_TYPE        the type of numpy for ids
 *     ITEM            the bytes of an id that _read writes; 0: 4 or 8
 *     NO_ID           the id that seek of many targets returns if there is none */
#include "core.h"
#include <string.h>

/* From this step on the ids of a slice are found one by one. */
enum { SPARSE = 512 };

static VIEW *view_of(PyObject *self) { return &((OBJECT *)self)->view; }

static size_t least_of(size_t one, size_t other) { return one < other ? one : other; }

Py_ssize_t METHOD(length)(PyObject *self) { return (Py_ssize_t)CALL(len)(view_of(self)); }

PyObject *METHOD(item)(PyObject *self, Py_ssize_t at)
{
    ID id;

    if (at >= 0 && CALL(get)(view_of(self), (size_t)at, &id) == 1)
        return PyLong_FromUnsignedLongLong(id);
    PyErr_SetString(PyExc_IndexError, "position out of range");
    return NULL;
}

/* Writes len ids, whose positions are a step apart, from a position on. */
typedef void Writer(const VIEW *view, Py_ssize_t from, Py_ssize_t step, ID *ids, size_t len);

/* The ids of a slice as a new array. Each call of the writer gets up to `part` of them, for each of which it unpacks `each` ids. */
static PyObject *written(PyObject *self, Py_ssize_t from, Py_ssize_t step, size_t len, Writer *write, size_t part, size_t each)
{
    Py_buffer out;
    PyObject *array = new_array(len, IDS_TYPE, &out);
    size_t done, count;

    for (done = 0; array && done < len; done += count) {
        count = least_of(len - done, part);
        UNLOCKED(count * each, write(view_of(self), from + (Py_ssize_t)done * step, step, (ID *)out.buf + done, count));
        if (PyErr_CheckSignals() < 0) {
            PyBuffer_Release(&out);
            Py_CLEAR(array);
        }
    }
    if (array)
        PyBuffer_Release(&out);
    return array;
}

static void write_all(const VIEW *view, Py_ssize_t from, Py_ssize_t step, ID *ids, size_t len)
{
    (void)step;
    CALL(slice)(view, (size_t)from, ids, len);
}

/* The ids from a position on, as a new array. There are as many. */
static PyObject *range_of(PyObject *self, size_t from, size_t len)
{
    return written(self, (Py_ssize_t)from, 1, len, write_all, PART, 1);
}

/* These ids in falling order, as a view of an array that has no others. */
static PyObject *falling(PyObject *self, size_t from, size_t len)
{
    PyObject *all = range_of(self, from, len), *step = PyLong_FromLong(-1), *slice = step ? PySlice_New(NULL, NULL, step) : NULL;
    PyObject *view = all && slice ? PyObject_GetItem(all, slice) : NULL;

    Py_XDECREF(all);
    Py_XDECREF(step);
    Py_XDECREF(slice);
    return view;
}

/* Of a short step: unpacks the ids between too. */
static void write_near(const VIEW *view, Py_ssize_t from, Py_ssize_t step, ID *ids, size_t len)
{
    ID part[MANY];
    const size_t apart = (size_t)(step > 0 ? step : -step);
    const ID *at;
    size_t done, count, i;

    for (done = 0; done < len; done += count) {
        count = least_of(len - done, (MANY - 1) / apart + 1);
        CALL(slice)(view, (size_t)(from + (Py_ssize_t)(step > 0 ? done : done + count - 1) * step), part, (count - 1) * apart + 1);
        at = step > 0 ? part : part + (count - 1) * apart;
        for (i = 0; i < count; i++)
            ids[done + i] = at[(Py_ssize_t)i * step];
    }
}

/* Of a long step: finds each id by itself. */
static void write_far(const VIEW *view, Py_ssize_t from, Py_ssize_t step, ID *ids, size_t len)
{
    size_t i;

    for (i = 0; i < len; i++)
        CALL(get)(view, (size_t)(from + (Py_ssize_t)i * step), ids + i);
}

/* The ids of a slice with a step, as a new array. */
static PyObject *stepped(PyObject *self, Py_ssize_t from, Py_ssize_t step, size_t len)
{
    const size_t apart = (size_t)(step > 0 ? step : -step);

    return apart < SPARSE ? written(self, from, step, len, write_near, FEW, apart) : written(self, from, step, len, write_far, FEW, 1);
}

PyObject *METHOD(subscript)(PyObject *self, PyObject *key)
{
    if (PySlice_Check(key)) {
        Py_ssize_t from, to, step, len;
        if (PySlice_Unpack(key, &from, &to, &step) < 0)
            return NULL;
        len = PySlice_AdjustIndices(METHOD(length)(self), &from, &to, step);
        if (step == -1 && len > 0)
            return falling(self, (size_t)(from + 1 - len), (size_t)len);
        return step == 1 ? range_of(self, (size_t)from, (size_t)len) : stepped(self, from, step, (size_t)len);
    }
    if (PyIndex_Check(key)) {
        Py_ssize_t at = PyNumber_AsSsize_t(key, PyExc_IndexError);
        if (at == -1 && PyErr_Occurred())
            return NULL;
        return METHOD(item)(self, at < 0 ? at + METHOD(length)(self) : at);
    }
    PyErr_SetString(PyExc_TypeError, "a position or a slice expected: gather reads many positions");
    return NULL;
}

int METHOD(contains)(PyObject *self, PyObject *it)
{
    uint64_t id;
    int answer = get_target(it, (ID)-1, &id);

    if (answer == -1 && PyErr_ExceptionMatches(PyExc_TypeError)) {
        PyErr_Clear();
        return 0;
    }
    return answer == 1 ? CALL(contains)(view_of(self), (ID)id) : answer == -1 ? -1 : 0;
}

/* What a method of fimulowen/ids.py returns for an iterable of targets, after an exception said that it is no integer. */
static PyObject *many(PyObject *self, const char *name, PyObject *targets)
{
    PyObject *type, *value, *trace;

    if (!PyErr_ExceptionMatches(PyExc_TypeError))
        return NULL;
    PyErr_Fetch(&type, &value, &trace);
    if (!PyObject_HasAttrString(targets, "__iter__")) {
        PyErr_Restore(type, value, trace);
        return NULL;
    }
    Py_XDECREF(type);
    Py_XDECREF(value);
    Py_XDECREF(trace);
    return PyObject_CallMethod(self, name, "(O)", targets);
}

PyObject *METHOD(seek)(PyObject *self, PyObject *it)
{
    uint64_t target;
    size_t position;
    ID id;
    int read = get_target(it, (ID)-1, &target);

    if (read == -1)
        return many(self, "_seek_many", it);
    if (read == 2 || CALL(seek)(view_of(self), (ID)target, &position, &id) != 1)
        Py_RETURN_NONE;
    return Py_BuildValue("nK", (Py_ssize_t)position, (unsigned long long)id);
}

PyObject *METHOD(rank)(PyObject *self, PyObject *it)
{
    uint64_t target;
    int read = get_target(it, (ID)-1, &target);

    if (read == -1)
        return many(self, "_rank_many", it);
    return PyLong_FromSize_t(read == 2 ? CALL(len)(view_of(self)) : CALL(rank)(view_of(self), (ID)target));
}

/* Writes ids from a position on to memory that other threads may write: each part is unpacked to private memory first. */
static void copy_ids(const VIEW *view, size_t from, char *out, size_t len, size_t item)
{
    ID part[MANY];
    uint64_t wide;
    size_t done, count, i;

    for (done = 0; done < len; done += count) {
        count = least_of(len - done, MANY);
        CALL(slice)(view, from + done, part, count);
        if (item == sizeof(ID))
            memcpy(out + item * done, part, item * count);
        else
            for (i = 0; i < count; i++) {
                wide = part[i];
                memcpy(out + 8 * (done + i), &wide, 8);
            }
    }
}

/* _read(out): writes the ids, as many as fit, to a buffer. Returns how many. */
static PyObject *METHOD(read)(PyObject *self, PyObject *to)
{
    Py_buffer out;
    size_t len, item, done, count;

    if (get_items(to, &out, ITEM, PyBUF_WRITABLE) < 0)
        return NULL;
    item = (size_t)out.itemsize;
    len = least_of((size_t)out.len / item, (size_t)METHOD(length)(self));
    for (done = 0; done < len && PyErr_CheckSignals() == 0; done += count) {
        count = least_of(len - done, PART);
        UNLOCKED(count, copy_ids(view_of(self), done, (char *)out.buf + item * done, count, item));
    }
    PyBuffer_Release(&out);
    return done < len ? NULL : PyLong_FromSize_t(len);
}

/* Writes the id at each position. Returns whether all are positions of the set. */
static int gather(const VIEW *view, const int64_t *positions, size_t len, ID *ids)
{
    size_t i;

    for (i = 0; i < len; i++)
        if (positions[i] < 0 || CALL(get)(view, (size_t)positions[i], ids + i) != 1)
            return 0;
    return 1;
}

/* The positions are private to the call, as fimulowen/ids.py copies them. One below 0 is not in the set. */
static PyObject *METHOD(gather)(PyObject *self, PyObject *positions)
{
    Py_buffer in, out;
    PyObject *array;
    size_t len, done, count;
    int found = 1;

    if (get_items(positions, &in, 8, 0) < 0)
        return NULL;
    len = (size_t)in.len / 8;
    array = new_array(len, IDS_TYPE, &out);
    for (done = 0; array && done < len && found; done += count) {
        count = least_of(len - done, FEW);
        UNLOCKED(count, found = gather(view_of(self), (int64_t *)in.buf + done, count, (ID *)out.buf + done));
        if (!found)
            PyErr_SetString(PyExc_IndexError, "position out of range");
        else if (PyErr_CheckSignals() < 0)
            found = 0;
    }
    PyBuffer_Release(&in);
    if (array)
        PyBuffer_Release(&out);
    if (!found)
        Py_CLEAR(array);
    return array;
}

/* Whether one is within the other. */
static int is_within(PyObject *one, PyObject *other)
{
    int within = METHOD(length)(one) <= METHOD(length)(other);

    if (within)
        UNLOCKED(METHOD(length)(one) + METHOD(length)(other), within = CALL(is_subset)(view_of(one), view_of(other)));
    return within;
}

PyObject *METHOD(compare)(PyObject *self, PyObject *other, int how)
{
    int answer;

    if (!PyObject_TypeCheck(self, METHOD(type)) || !PyObject_TypeCheck(other, METHOD(type)))
        return Py_NewRef(Py_NotImplemented);
    if (how == Py_EQ || how == Py_NE)
        answer = are_same((Packed *)self, (Packed *)other) == (how == Py_EQ);
    else if (how == Py_LT || how == Py_GT)
        answer = METHOD(length)(self) != METHOD(length)(other) && (how == Py_LT ? is_within(self, other) : is_within(other, self));
    else
        answer = how == Py_LE ? is_within(self, other) : is_within(other, self);
    return PyBool_FromLong(answer);
}

static PyObject *METHOD(is_disjoint)(PyObject *self, PyObject *other)
{
    int answer;

    if (!PyObject_TypeCheck(other, METHOD(type))) {
        PyErr_SetString(PyExc_TypeError, "a set expected");
        return NULL;
    }
    UNLOCKED(METHOD(length)(self) + METHOD(length)(other), answer = CALL(is_disjoint)(view_of(self), view_of(other)));
    return PyBool_FromLong(answer);
}

/* The methods that sets of both kinds have. */
#define READING_METHODS \
    {"seek", METHOD(seek), METH_O, SIGNED("seek($self, target, /)", "The position and the id of the first id that is at least the target, or None. Of many targets two arrays: the position is the number of ids, and the id " NO_ID ", if there is none.")}, \
    {"rank", METHOD(rank), METH_O, SIGNED("rank($self, target, /)", "How many ids are below the target; of many targets an array. The rank of CRoaring also counts the target itself, if the set has it.")}, \
    {"_gather", METHOD(gather), METH_O, SIGNED("_gather($self, positions, /)", "The ids at an array of positions, of int64.")}, \
    {"_contains", METHOD(contains_many), METH_O, SIGNED("_contains($self, ids, /)", "Whether the set has each integer of an array.")}, \
    {"_rank", METHOD(rank_many), METH_O, SIGNED("_rank($self, targets, /)", "How many ids are below each target of an array.")}, \
    {"_read", METHOD(read), METH_O, SIGNED("_read($self, out, /)", "Fills out with ids; returns how many.")}, \
    {"_is_disjoint", METHOD(is_disjoint), METH_O, SIGNED("_is_disjoint($self, other, /)", "Whether no id is in both sets.")}
