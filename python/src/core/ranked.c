/* Words of ranked searches, and the documents with the greatest scores. */
#include "core.h"
#include <string.h>

/* A word with what its term borrows: the set of its documents, its packed counts and its table; and its bounds. */
typedef struct {
    PyObject_HEAD
    PyObject *documents;
    uint8_t *counts;
    uint32_t *table, *parts;
    bitpacking_term term;
} Term;

static void Term_dealloc(PyObject *self)
{
    PyTypeObject *type = Py_TYPE(self);

    PyMem_Free(((Term *)self)->counts);
    PyMem_Free(((Term *)self)->table);
    PyMem_Free(((Term *)self)->parts);
    Py_XDECREF(((Term *)self)->documents);
    ((freefunc)PyType_GetSlot(type, Py_tp_free))(self);
    Py_DECREF((PyObject *)type);
}

/* How many bounds the term has: one for each block of 128 documents. */
static size_t parts_of(const Term *self)
{
    return (bitpacking_set_len(&self->term.set) + 127) / 128;
}

/* Packs the counts, copies the table, and starts the term of both. Returns a fault, or 0; or 1 if memory ran out. */
static ptrdiff_t start(Term *self, const uint32_t *counts, size_t len, const uint32_t *table, size_t table_len)
{
    const size_t room = BITPACKING_COLUMN_ROOM(len);
    bitpacking_column column = BITPACKING_COLUMN_EMPTY;
    uint8_t *bytes = PyMem_Malloc(room), *fewer;
    ptrdiff_t size;

    self->table = PyMem_Malloc(4 * table_len + 4);
    if (!bytes || !self->table) {
        PyMem_Free(bytes);
        return 1;
    }
    memcpy(self->table, table, 4 * table_len);
    UNLOCKED(len, size = bitpacking_column_pack(BITPACKING_PLAIN, counts, len, bytes, room, NULL));
    fewer = size < 0 ? NULL : PyMem_Realloc(bytes, (size_t)size);
    self->counts = fewer ? fewer : bytes;
    if (size < 0)
        return size;
    bitpacking_column_open_tested(self->counts, (size_t)size, &column);
    UNLOCKED(table_len, size = bitpacking_term_start(&self->term, &((Set *)self->documents)->view, &column, self->table, table_len));
    return size;
}

/* Makes the bounds of a term that was started, for documents of these classes. Returns 0, or 1 if memory ran out. */
static ptrdiff_t bound(Term *self, const char *classes, size_t len)
{
    self->parts = PyMem_Malloc(4 * parts_of(self) + 4);
    if (!self->parts)
        return 1;
    UNLOCKED(bitpacking_set_len(&self->term.set),
             bitpacking_term_bound(&self->term, (const uint8_t *)classes, len, self->parts, parts_of(self)));
    return 0;
}

/* term(type, documents, counts, table, classes): nothing else writes the arrays. */
static PyObject *term(PyObject *m, PyObject *args)
{
    PyObject *type, *documents, *counts, *table;
    Py_buffer numbers, parts;
    const char *classes;
    Py_ssize_t classes_len;
    ptrdiff_t fault = 1;
    Term *self;

    (void)m;
    if (!PyArg_ParseTuple(args, "OO!OOy#", &type, Set_type, &documents, &counts, &table, &classes, &classes_len) ||
        !subtype_of(Term_type, type) || get_items(counts, &numbers, 4, 0) < 0)
        return NULL;
    if (get_items(table, &parts, 4, 0) < 0) {
        PyBuffer_Release(&numbers);
        return NULL;
    }
    self = (Term *)((allocfunc)PyType_GetSlot((PyTypeObject *)type, Py_tp_alloc))((PyTypeObject *)type, 0);
    if (self) {
        self->documents = Py_NewRef(documents);
        fault = start(self, numbers.buf, (size_t)numbers.len / 4, parts.buf, (size_t)parts.len / 4);
    }
    if (self && fault == 0)
        fault = bound(self, classes, (size_t)classes_len);
    PyBuffer_Release(&numbers);
    PyBuffer_Release(&parts);
    if (self && fault != 0)
        Py_CLEAR(self);
    if (fault == BITPACKING_BAD_LENGTH)
        fail_as("There are more documents than counts, or fewer.", "BadLength");
    else if (fault == BITPACKING_BAD_TABLE)
        fail_as("The table has no row, or a part above the first of its row, or below that of the count before.", "BadTable");
    else if (fault < 0)
        fail(fault);
    else if (fault > 0 && !PyErr_Occurred())
        PyErr_NoMemory();
    return (PyObject *)self;
}

/* Copies the terms of a tuple and after them their bounds into new memory, and adds up their documents. */
static bitpacking_term *terms_of(PyObject *tuple, bitpacking_block_bounds **bounds, size_t *documents)
{
    Py_ssize_t len = PyTuple_Size(tuple), i;
    bitpacking_term *terms = len < 0 ? NULL : PyMem_Malloc((sizeof *terms + sizeof **bounds) * (size_t)(len ? len : 1));

    *documents = 0;
    *bounds = (bitpacking_block_bounds *)(terms + (len < 0 ? 0 : len));
    if (!terms && len >= 0)
        PyErr_NoMemory();
    for (i = 0; terms && i < len; i++) {
        PyObject *it = PyTuple_GetItem(tuple, i);
        if (!PyObject_TypeCheck(it, Term_type)) {
            PyErr_SetString(PyExc_TypeError, "a term expected");
            PyMem_Free(terms);
            return NULL;
        }
        terms[i] = ((Term *)it)->term;
        (*bounds)[i] = (bitpacking_block_bounds){((Term *)it)->parts, parts_of((Term *)it)};
        *documents += bitpacking_set_len(&terms[i].set);
    }
    return terms;
}

/* The ids of the documents that were found, and their scores, as a tuple of two new arrays. */
static PyObject *pair_of(const bitpacking_scored *found, size_t len)
{
    PyObject *ids, *scores = NULL;
    Py_buffer id, score;
    size_t i;

    ids = new_array(len, type_u32, &id);
    if (ids && !(scores = new_array(len, type_u64, &score)))
        PyBuffer_Release(&id);
    if (!scores) {
        Py_XDECREF(ids);
        return NULL;
    }
    for (i = 0; i < len; i++) {
        ((uint32_t *)id.buf)[i] = found[i].id;
        ((uint64_t *)score.buf)[i] = found[i].score;
    }
    PyBuffer_Release(&id);
    PyBuffer_Release(&score);
    return Py_BuildValue("NN", ids, scores);
}

/* Ranks the given documents, or all if there are none given, which are the memory of the caller. */
static PyObject *ranked(PyObject *tuple, const Py_buffer *classes, size_t at_least, size_t most, const Py_buffer *given)
{
    size_t all, len, room;
    bitpacking_block_bounds *bounds;
    bitpacking_term *terms = terms_of(tuple, &bounds, &all);
    bitpacking_walk *walks;
    bitpacking_scored *found;
    ptrdiff_t count;
    PyObject *answer = NULL;

    if (!terms)
        return NULL;
    len = (size_t)PyTuple_Size(tuple);
    room = given ? (size_t)given->len / 4 : all;
    room = room < most ? room : most;
    walks = PyMem_Malloc(sizeof *walks * (given ? 1 : len + 1));
    found = PyMem_Malloc(sizeof *found * (room + 1));
    if (!walks || !found)
        PyErr_NoMemory();
    else if (given) {
        UNLOCKED(all + (size_t)given->len / 4, count = bitpacking_best_among(given->buf, (size_t)given->len / 4, terms, len, classes->buf,
                                                                             (size_t)classes->len, found, room));
        answer = count < 0 ? fail(count) : pair_of(found, (size_t)count);
    } else {
        UNLOCKED(all, count = bitpacking_best_bounded(terms, len, bounds, len, classes->buf, (size_t)classes->len, at_least, walks, len,
                                                      found, room));
        answer = count < 0 ? fail(count) : pair_of(found, (size_t)count);
    }
    PyMem_Free(terms);
    PyMem_Free(walks);
    PyMem_Free(found);
    return answer;
}

/* best(terms, classes, at_least, most): the tuple holds the terms, which have these classes, and nothing writes them. */
static PyObject *best(PyObject *m, PyObject *args)
{
    PyObject *terms, *answer;
    Py_buffer classes;
    Py_ssize_t at_least, most;

    (void)m;
    if (!PyArg_ParseTuple(args, "Oy*nn", &terms, &classes, &at_least, &most))
        return NULL;
    answer = ranked(terms, &classes, at_least < 0 ? 0 : (size_t)at_least, most < 0 ? 0 : (size_t)most, NULL);
    PyBuffer_Release(&classes);
    return answer;
}

/* best_among(documents, terms, classes, most): nothing writes the documents either. */
static PyObject *best_among(PyObject *m, PyObject *args)
{
    PyObject *documents, *terms, *answer = NULL;
    Py_buffer classes, given;
    Py_ssize_t most;

    (void)m;
    if (!PyArg_ParseTuple(args, "OOy*n", &documents, &terms, &classes, &most))
        return NULL;
    if (get_items(documents, &given, 4, 0) == 0) {
        answer = ranked(terms, &classes, 0, most < 0 ? 0 : (size_t)most, &given);
        PyBuffer_Release(&given);
    }
    PyBuffer_Release(&classes);
    return answer;
}

static PyObject *get_documents(PyObject *self, void *unused)
{
    (void)unused;
    return Py_NewRef(((Term *)self)->documents);
}

static PyGetSetDef members[] = {
    {"documents", get_documents, NULL, "The set of the documents that have the word.", NULL},
    {NULL, NULL, NULL, NULL, NULL},
};

static PyType_Slot slots[] = {
    {Py_tp_doc, "A word of a ranked search, with its packed counts and its table."},
    {Py_tp_dealloc, Term_dealloc},
    {Py_tp_getset, members},
    {0, NULL},
};

PyType_Spec Term_spec = {"fimulowen._core.Term", sizeof(Term), 0,
                         Py_TPFLAGS_DEFAULT | Py_TPFLAGS_BASETYPE | Py_TPFLAGS_DISALLOW_INSTANTIATION, slots};

PyMethodDef ranked_functions[] = {
    {"term", term, METH_VARARGS, SIGNED("term(type, documents, counts, table, classes, /)", "A term.")},
    {"best", best, METH_VARARGS, SIGNED("best(terms, classes, at_least, most, /)", "Documents, and their scores.")},
    {"best_among", best_among, METH_VARARGS, SIGNED("best_among(documents, terms, classes, most, /)", "Documents, and their scores.")},
    {NULL, NULL, 0, NULL},
};
