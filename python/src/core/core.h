/* What the files of the extension share. It uses only the limited API of Python 3.11, so that one build serves 3.11 and later, and it uses
 * no API of numpy: arrays are made by numpy.empty, and read and filled by the buffer protocol. */
#ifndef FIMULOWEN_CORE_H
#define FIMULOWEN_CORE_H

#define PY_SSIZE_T_CLEAN
#define Py_LIMITED_API 0x030B0000
#include <Python.h>
#include "bitpacking.h"

/* From this many values or bytes on a call lets other threads run. */
enum { MANY = 4096 };

/* A call reads or writes at most PART values at a time, or searches FEW, and looks in between whether Ctrl-C was pressed. */
enum { PART = 1 << 20, FEW = 1 << 17 };

/* Runs a statement, without the lock of the interpreter if it is about many values. What it reads and writes is private to the call, or
 * immutable, since other threads run meanwhile. */
#define UNLOCKED(count, statement)                                                                                                     \
    do {                                                                                                                               \
        PyThreadState *saved = (size_t)(count) >= MANY ? PyEval_SaveThread() : NULL;                                                   \
        statement;                                                                                                                     \
        if (saved)                                                                                                                     \
            PyEval_RestoreThread(saved);                                                                                               \
    } while (0)

/* The calls that combine sets, by their number. */
enum { INTERSECT, UNITE, SUBTRACT, XOR };

/* What help() and inspect.signature() say of a call. */
#define SIGNED(signature, text) signature "\n--\n\n" text

/* Packed bytes, which the buffer holds unmoved for as long as the object lives: the base of sets and columns. */
typedef struct {
    PyObject_HEAD
    Py_buffer buffer;
    const uint8_t *bytes;
    size_t len;
} Packed;

/* An id set in its packed bytes. */
typedef struct {
    Packed packed;
    bitpacking_set view;
} Set;

/* A wide set, whose ids have 64 bits. */
typedef struct {
    Packed packed;
    bitpacking_wide_set view;
} WideSet;

/* Set by the module, and never changed after fimulowen is imported. */
extern PyTypeObject *Packed_type, *Raw_type, *Set_type, *WideSet_type, *Column_type, *Term_type;
extern PyObject *numpy_empty, *type_u32, *type_u64, *type_index, *type_bool, *Refusal, *refused;

/* errors.c: each sets an exception, and returns NULL. A position or number below 0 is None. */
void *fail(ptrdiff_t fault);
void *fail_as(const char *text, const char *fault);
void *fail_at(ptrdiff_t fault, Py_ssize_t position, Py_ssize_t number);
void *fail_to_open(ptrdiff_t fault, const Packed *it, Py_ssize_t number);

/* Opens the bytes of an object from `from` up to `to`. `number` is for an error: which of many these are, or -1. */
typedef PyObject *open_call(PyTypeObject *type, PyObject *data, size_t from, size_t to, Py_ssize_t number);

/* Writes what is found of each integer to an array. */
typedef void write_found(const void *it, const uint64_t *items, size_t len, void *out);

/* arrays.c */
PyObject *new_array(size_t len, PyObject *type, Py_buffer *out);
PyObject *first_of(PyObject *array, Py_buffer *out, size_t len);
int get_items(PyObject *from, Py_buffer *to, size_t item, int flags);
int get_target(PyObject *it, uint64_t most, uint64_t *value);
PyObject *found_of(const void *it, const Py_buffer *in, PyObject *type, write_found *write);
int are_bounds(const int64_t *bounds, size_t count, size_t len);
PyObject *opened_parts(PyTypeObject *type, PyObject *data, PyObject *bounds, open_call *open);

/* packed.c */
extern PyType_Spec Packed_spec, Raw_spec;
PyTypeObject *subtype_of(PyTypeObject *base, PyObject *type);
Packed *holding(PyTypeObject *type, PyObject *data, size_t from, size_t to);
Packed *copy_of(PyTypeObject *type, const uint8_t *bytes, size_t len);
int are_same(const Packed *one, const Packed *other);

/* What a set is written from: a bitmap or sets, how many bytes or sets these are, what is added to ids or which operation combines sets, and about
 * how many values these have. */
typedef struct {
    const void *data;
    size_t len;
    int64_t number;
    size_t count;
} Source;

/* set_combining.c: the operation of a call by its number, or 0 with an exception. */
uint32_t operation_of(int call);

/* Writes a set with work space into room, and returns its number of bytes or an error. */
typedef ptrdiff_t set_writer(const Source *from, uint32_t *work, size_t items, uint8_t *to, size_t room);

/* set.c */
Packed *set_of(PyTypeObject *type, const uint8_t *bytes, size_t len);
Packed *set_written(PyTypeObject *type, set_writer *call, const Source *from, size_t items, size_t room);

/* The methods of a set: ids_reading.h has the first ones. */
#define METHODS_OF(type)                                                                                                               \
    Py_ssize_t type##_length(PyObject *self);                                                                                          \
    PyObject *type##_item(PyObject *self, Py_ssize_t at);                                                                              \
    PyObject *type##_subscript(PyObject *self, PyObject *key);                                                                         \
    int type##_contains(PyObject *self, PyObject *it);                                                                                 \
    PyObject *type##_compare(PyObject *self, PyObject *other, int how);                                                                \
    PyObject *type##_contains_many(PyObject *self, PyObject *ids);                                                                     \
    PyObject *type##_rank_many(PyObject *self, PyObject *targets);                                                                     \
    extern PyMethodDef type##_methods[]

METHODS_OF(Set);     /* set_reading.c, set_search.c */
METHODS_OF(WideSet); /* wide_set.c */

/* The slots of their types. */
#define SLOTS_OF(type, doc)                                                                                                            \
    {                                                                                                                                  \
        {Py_tp_doc, doc}, {Py_tp_methods, type##_methods}, {Py_tp_richcompare, type##_compare}, {Py_sq_length, type##_length},         \
        {Py_sq_item, type##_item}, {Py_sq_contains, type##_contains}, {Py_mp_length, type##_length},                                   \
        {Py_mp_subscript, type##_subscript}, {0, NULL},                                                                                \
    }

/* The types and functions of each file. */
extern PyType_Spec Set_spec, WideSet_spec, Column_spec, Term_spec;
extern PyMethodDef chain_functions[], set_functions[], combining_functions[], many_functions[], wide_functions[], pair_functions[],
    column_functions[], arrow_functions[], ranked_functions[];

#endif
