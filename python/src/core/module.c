/* fimulowen._core: sets, columns and chains for Python, over the C library. The state is static: it serves one interpreter. */
#include "core.h"

PyTypeObject *Packed_type, *Raw_type, *Set_type, *WideSet_type, *Column_type, *Term_type;
PyObject *numpy_empty, *type_u32, *type_u64, *type_index, *type_bool, *Refusal, *refused;

static struct PyModuleDef module = {PyModuleDef_HEAD_INIT, "_core", NULL, -1, NULL, NULL, NULL, NULL, NULL};

/* An attribute of a module that is imported. */
static PyObject *imported(const char *name, const char *attribute)
{
    PyObject *from = PyImport_ImportModule(name), *found = from ? PyObject_GetAttrString(from, attribute) : NULL;

    Py_XDECREF(from);
    return found;
}

static PyObject *type_named(const char *name)
{
    PyObject *make = imported("numpy", "dtype"), *made = make ? PyObject_CallFunction(make, "s", name) : NULL;

    Py_XDECREF(make);
    return made;
}

/* What the calls need of numpy and of fimulowen.errors. */
static int have_objects(void)
{
    return (numpy_empty = imported("numpy", "empty")) && (type_u32 = type_named("u4")) && (type_u64 = type_named("u8")) &&
           (type_index = type_named("i8")) && (type_bool = type_named("?")) && (Refusal = imported("fimulowen.errors", "Error")) &&
           (refused = imported("fimulowen.errors", "refused"));
}

/* A class below another, or below none, which the module has by this name. */
static PyTypeObject *added(PyObject *m, const char *name, PyType_Spec *spec, PyTypeObject *base)
{
    PyObject *type = PyType_FromSpecWithBases(spec, (PyObject *)base);

    if (type && PyModule_AddObjectRef(m, name, type) < 0)
        Py_CLEAR(type);
    return (PyTypeObject *)type;
}

PyMODINIT_FUNC PyInit__core(void)
{
    PyMethodDef *functions[] = {chain_functions, set_functions, combining_functions, many_functions,
                                wide_functions, pair_functions, column_functions, arrow_functions, ranked_functions};
    PyObject *m = PyModule_Create(&module);
    size_t i;

    if (m && bitpacking_version() != BITPACKING_VERSION)
        return PyErr_Format(PyExc_ImportError, "fimulowen was built with the header and the archive of two versions");
    if (!m || !have_objects() || !(Packed_type = added(m, "Packed", &Packed_spec, NULL)) ||
        !(Raw_type = (PyTypeObject *)PyType_FromSpec(&Raw_spec)) || !(Set_type = added(m, "Set", &Set_spec, Packed_type)) ||
        !(WideSet_type = added(m, "WideSet", &WideSet_spec, Packed_type)) ||
        !(Column_type = added(m, "Column", &Column_spec, Packed_type)) || !(Term_type = added(m, "Term", &Term_spec, NULL)) ||
        PyModule_AddIntConstant(m, "VERSION", (long)bitpacking_version()) < 0)
        return NULL;
    for (i = 0; i < sizeof functions / sizeof *functions; i++)
        if (PyModule_AddFunctions(m, functions[i]) < 0)
            return NULL;
    return m;
}
