/* The module felter._fast. It gets the library's functions, and makes the functions for Python from them. */
#include "fast.h"

#include <string.h>

Library library;

static const char *const WORDS[] = {
    [HANDLE] = "*handle", [I32] = "i32", [U32] = "u32", [I64] = "i64", [U64] = "u64", [USIZE] = "usize",
    [BYTES] = "bytes", [ROOM] = "*u8", [LENGTH] = "", [OUT_I32] = "*i32", [OUT_U32] = "*u32", [OUT_I64] = "*i64",
    [OUT_U64] = "*u64", [OUT_USIZE] = "*usize",
};

/* The calls whose last number says how often a receiver was lapped, each with the calls that say more about the lap. */
static const char *const LAPPING[][3] = {
    {"felter_receive", "felter_receiver_lap", "felter_receiver_place"},
    {"felter_receive_next", "felter_raw_receiver_lap", "felter_raw_receiver_place"},
    {"felter_poll", NULL, NULL},
};

/* The functions that the direct methods call. */
static const struct {
    const char *name;
    size_t offset;
} DIRECT[] = {
    {"felter_write", offsetof(Library, write)}, {"felter_write_batch", offsetof(Library, write_batch)},
    {"felter_transmit", offsetof(Library, transmit)},
    {"felter_claim", offsetof(Library, claim)}, {"felter_put", offsetof(Library, put)},
    {"felter_commit", offsetof(Library, commit)}, {"felter_abort", offsetof(Library, abort)},
    {"felter_read", offsetof(Library, read)}, {"felter_peek", offsetof(Library, peek)},
    {"felter_read_batch", offsetof(Library, read_batch)}, {"felter_receive", offsetof(Library, receive)},
    {"felter_receiver_lap", offsetof(Library, lap)}, {"felter_receiver_place", offsetof(Library, place)},
    {"felter_free", offsetof(Library, free)},
};

/* Finds the kind of a word. Returns 0, or -1 with an exception. */
static int kind_of(PyObject *text, enum kind *kind) {
    for (int i = HANDLE; i <= OUT_USIZE; i++) {
        if (i == LENGTH || PyUnicode_CompareWithASCIIString(text, WORDS[i]) != 0) continue;
        *kind = (enum kind)i;
        return 0;
    }
    PyErr_Format(PyExc_ImportError, "felter: no parameter is %R", text);
    return -1;
}

static int read_kinds(Function *function, PyObject *words) {
    Py_ssize_t count = PyList_Size(words);
    int length = -1;
    if (count < 0 || count > MOST) {
        PyErr_SetString(PyExc_ImportError, "felter: a call has too many parameters");
        return -1;
    }
    function->count = (int)count;
    function->room = function->length = function->lapped = -1;
    for (int i = 0; i < count; i++) {
        enum kind kind = LENGTH;
        int has_length = i > 0 && (function->kinds[i - 1] == BYTES || function->kinds[i - 1] == ROOM);
        if (!has_length && kind_of(PyList_GetItem(words, i), &kind) != 0) return -1;
        function->kinds[i] = kind;
        if (kind == OUT_USIZE) length = i;
        if (kind == ROOM) function->room = i;
        if (kind < LENGTH) function->given++;
    }
    if (function->room >= 0) function->length = length;
    return 0;
}

/* Returns the address of a function, NULL if there is no such function, or NULL with an exception. */
static void *address_of(PyObject *addresses, const char *name) {
    PyObject *it = PyDict_GetItemString(addresses, name);
    return it ? PyLong_AsVoidPtr(it) : NULL;
}

static void find_lap(Function *function, PyObject *addresses, const char *name) {
    for (size_t i = 0; i < sizeof LAPPING / sizeof *LAPPING; i++) {
        if (strcmp(name, LAPPING[i][0]) != 0) continue;
        if (LAPPING[i][1]) function->lap = address_of(addresses, LAPPING[i][1]);
        if (LAPPING[i][2]) function->place = address_of(addresses, LAPPING[i][2]);
        for (int k = 0; k < function->count; k++)
            if (function->kinds[k] == OUT_U64) function->lapped = k;
    }
}

/* A function of the library, by the words for its parameters. */
static Function *function_of(PyObject *addresses, const char *name, PyObject *words) {
    Function *function = PyObject_New(Function, function_type);
    if (!function) return NULL;
    function->lap = function->place = NULL;
    function->given = 0;
    function->joins = strcmp(name, "felter_join") == 0;
    function->address = address_of(addresses, name);
    if (!function->address) {
        if (!PyErr_Occurred()) PyErr_Format(PyExc_ImportError, "felter: %s has no address", name);
    } else if (read_kinds(function, words) == 0) {
        find_lap(function, addresses, name);
        return function;
    }
    Py_DECREF(function);
    return NULL;
}

/* Makes a function, and adds it to the others. */
static int add(PyObject *made, PyObject *addresses, PyObject *name, PyObject *words) {
    PyObject *ascii = PyUnicode_AsASCIIString(name);
    Function *function = ascii ? function_of(addresses, PyBytes_AsString(ascii), words) : NULL;
    int code = function ? PyDict_SetItem(made, name, (PyObject *)function) : -1;
    Py_XDECREF(ascii);
    Py_XDECREF((PyObject *)function);
    return code;
}

/* Makes the functions of a table, by their names. */
static PyObject *functions_of(PyObject *addresses, PyObject *table) {
    PyObject *name, *words, *made = PyDict_New();
    Py_ssize_t at = 0;
    while (made && PyDict_Next(table, &at, &name, &words)) {
        if (add(made, addresses, name, words) != 0) Py_CLEAR(made);
    }
    return made;
}

/* Notes the functions that are called directly. Returns 0, or -1 with an exception. */
static int note_direct(PyObject *addresses) {
    for (size_t i = 0; i < sizeof DIRECT / sizeof *DIRECT; i++) {
        void *address = address_of(addresses, DIRECT[i].name);
        if (!address) {
            PyErr_Format(PyExc_ImportError, "felter: %s has no address", DIRECT[i].name);
            return -1;
        }
        memcpy((char *)&library + DIRECT[i].offset, &address, sizeof address);
    }
    return 0;
}

/* Whether a package has opened this module. The variables of this file belong to the first package that did. Another
 * interpreter, or a second copy of the package, uses ctypes. So no handle gets the exceptions and messages of another
 * package. */
static int is_in_use(void) {
    if (functions) PyErr_SetString(PyExc_ImportError, "felter: the extension is in use by another copy of felter");
    return functions != NULL;
}

static PyObject *opened(PyObject *Py_UNUSED(module), PyObject *arguments) {
    PyObject *addresses, *table, *refusal, *lapped, *message, *made = NULL;
    if (!PyArg_ParseTuple(arguments, "O!O!OOO!", &PyDict_Type, &addresses, &PyDict_Type, &table, &refusal, &lapped,
                          &PyType_Type, &message))
        return NULL;
    if (is_in_use()) return NULL;
    if (!PyType_IsSubtype((PyTypeObject *)message, &PyTuple_Type))
        PyErr_Format(PyExc_TypeError, "%R is no tuple", message);
    else if (note_direct(addresses) == 0) made = functions_of(addresses, table);
    if (!made) return NULL;
    Py_INCREF(refusal);
    Py_INCREF(lapped);
    Py_INCREF(message);
    functions = made;
    make_refusal = refusal;
    make_lapped = lapped;
    message_type = (PyTypeObject *)message;
    Py_RETURN_NONE;
}

static PyObject *module_call(PyObject *Py_UNUSED(module), PyObject *const *given, Py_ssize_t count) {
    if (count < 1) {
        PyErr_SetString(PyExc_TypeError, "a call has a name");
        return NULL;
    }
    return called(DO, given[0], given + 1, count - 1);
}

static PyObject *module_forked(PyObject *Py_UNUSED(module), PyObject *Py_UNUSED(none)) {
    generation++;
    Py_RETURN_NONE;
}

/* Sets the class of claims, which is the extension's class or a subclass of it. */
static PyObject *module_claims(PyObject *Py_UNUSED(module), PyObject *type) {
    if (!PyType_Check(type) || !PyType_IsSubtype((PyTypeObject *)type, claim_type))
        return PyErr_Format(PyExc_TypeError, "%R is no class of claims", type);
    Py_INCREF(type);
    claim_type = (PyTypeObject *)type;
    Py_RETURN_NONE;
}

static PyMethodDef methods[] = {
    {"open", opened, METH_VARARGS, "open({name: address}, {name: words}, refusal, lapped, message) takes the library."},
    {"call", (PyCFunction)(void (*)(void))module_call, METH_FASTCALL, "Calls, without a handle before the name."},
    {"forked", module_forked, METH_NOARGS, "Is called in a forked child, whose handles are then refused."},
    {"method", method_of, METH_VARARGS, "method(qualified name, text) is a method that calls the library directly."},
    {"claims", module_claims, METH_O, "claims(type) takes the class that a claim gets."},
    {NULL, NULL, 0, NULL},
};

static struct PyModuleDef definition = {
    PyModuleDef_HEAD_INIT, "_fast", "The calls of libfelter.so, in C.", -1, methods, NULL, NULL, NULL, NULL,
};

/* (the headers of Python 3.8 do not make this function visible) */
__attribute__((visibility("default"))) PyMODINIT_FUNC PyInit__fast(void);

long python_version(void) {
    PyObject *version = PySys_GetObject("hexversion");
    return version ? PyLong_AsLong(version) : -1;
}

/* Whether this Python has all functions that were used when this file was compiled. A Python that is older than the
 * limited API of this file loads the file nevertheless. */
static int is_new_enough(void) {
#ifdef Py_LIMITED_API
    if (python_version() < Py_LIMITED_API) {
        PyErr_SetString(PyExc_ImportError, "felter: this extension needs a later Python");
        return 0;
    }
#endif
    return 1;
}

static int add_type(PyObject *module, const char *name, PyTypeObject *type) {
    Py_INCREF((PyObject *)type);
    return PyModule_AddObject(module, name, (PyObject *)type);
}

PyMODINIT_FUNC PyInit__fast(void) {
    /* (Python calls this again if the same file is loaded by another path. The types must stay those of the first
     * package.) */
    if (!is_new_enough() || is_in_use()) return NULL;
    PyObject *module = make_types() == 0 ? PyModule_Create(&definition) : NULL;
    if (!module) return NULL;
    if (add_type(module, "Handle", handle_type) == 0 && add_type(module, "Claim", claim_type) == 0) return module;
    Py_DECREF(module);
    return NULL;
}
