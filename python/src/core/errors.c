/* From the numbers of the library to Error, which is in fimulowen/errors.py. */
#include "core.h"

/* MOST of fimulowen/faults.py. */
enum { READ_AGAIN = 1 << 20 };

/* The name of a fault in docs/FORMAT.md, or of an error of blocks. */
static const char *name_of(ptrdiff_t fault)
{
    static const struct {
        ptrdiff_t fault;
        const char *name;
    } names[] = {
        {BITPACKING_BAD_LENGTH, "BadLength"},
        {BITPACKING_BAD_WIDTH, "BadWidth"},
        {BITPACKING_SHORT, "Short"},
        {BITPACKING_TRUNCATED, "Short"},
        {BITPACKING_BAD_VERSION, "BadVersion"},
        {BITPACKING_BAD_KIND, "BadKind"},
        {BITPACKING_TOO_LONG, "TooLong"},
        {BITPACKING_BAD_GROUP_WIDTH, "BadWidth"},
        {BITPACKING_LOOSE_WIDTH, "LooseWidth"},
        {BITPACKING_BAD_OFFSET, "BadOffset"},
        {BITPACKING_BAD_LAST, "BadLast"},
        {BITPACKING_NOT_SORTED, "NotSorted"},
        {BITPACKING_TRAILING, "Trailing"},
        {BITPACKING_BAD_NUMBER, "BadNumber"},
        {BITPACKING_PADDING, "Padding"},
        {BITPACKING_BAD_SIZES, "BadSizes"},
        {BITPACKING_BAD_KEY, "BadKey"},
        {BITPACKING_BAD_SUM, "BadSum"},
        {BITPACKING_BAD_BODY, "BadBody"},
        {BITPACKING_LOOSE_BODY, "LooseBody"},
        {BITPACKING_LOOSE_FORM, "LooseForm"},
    };
    size_t i;

    for (i = 0; i < sizeof names / sizeof *names; i++)
        if (names[i].fault == fault)
            return names[i].name;
    return "Unknown";
}

static PyObject *number_or_none(Py_ssize_t number) { return number < 0 ? Py_NewRef(Py_None) : PyLong_FromSsize_t(number); }

/* Raises what was made, or leaves the exception that is set. */
static void *raise(PyObject *made)
{
    if (made)
        PyErr_SetObject(Refusal, made);
    Py_XDECREF(made);
    return NULL;
}

/* Raises Error(text, fault, position, number). */
void *fail_at(ptrdiff_t fault, Py_ssize_t position, Py_ssize_t number)
{
    PyObject *at = number_or_none(position), *of = number_or_none(number), *made = NULL;

    if (at && of)
        made = PyObject_CallFunction(Refusal, "ssOO", bitpacking_error_text(fault), name_of(fault), at, of);
    Py_XDECREF(at);
    Py_XDECREF(of);
    return raise(made);
}

/* Raises Error(text, fault). */
void *fail_as(const char *text, const char *fault) { return raise(PyObject_CallFunction(Refusal, "ss", text, fault)); }

void *fail(ptrdiff_t fault) { return fail_at(fault, -1, -1); }

/* Raises what fimulowen.errors.refused makes of the bytes of a set, or of a wide one: it looks for the place of the fault, but not in many bytes. */
void *fail_to_open(ptrdiff_t fault, const Packed *it, Py_ssize_t number)
{
    PyObject *of = number_or_none(number), *made = NULL;
    PyObject *copy = PyBytes_FromStringAndSize((const char *)it->bytes, (Py_ssize_t)(it->len <= READ_AGAIN ? it->len : READ_AGAIN + 1));
    int is_wide = PyObject_TypeCheck((PyObject *)it, WideSet_type);

    if (of && copy)
        made = PyObject_CallFunction(refused, "ssOOi", bitpacking_error_text(fault), name_of(fault), of, copy, is_wide);
    Py_XDECREF(of);
    Py_XDECREF(copy);
    return raise(made);
}
