/* Messages. */
#include "fast.h"

PyTypeObject *message_type;

/* Makes a message of two values, whose references it takes over. It makes the message as tuple makes instances of
 * subclasses: to call the type would also check the arguments, which takes as long as a read. */
static PyObject *filled(PyObject *type_id, PyObject *body) {
    static allocfunc make = NULL;
    if (!make) make = (allocfunc)PyType_GetSlot(message_type, Py_tp_alloc);
    PyObject *message = type_id && body ? make(message_type, 2) : NULL;
    if (!message) {
        Py_XDECREF(type_id);
        Py_XDECREF(body);
        return NULL;
    }
    PyTuple_SetItem(message, 0, type_id);
    PyTuple_SetItem(message, 1, body);
    return message;
}

/* Does the same by tuple.__new__, for a Python whose tuples have more than their items. */
static PyObject *made(PyObject *type_id, PyObject *body) {
    PyObject *its = type_id && body ? PyTuple_Pack(2, type_id, body) : NULL;
    PyObject *message = its ? PyObject_CallMethod((PyObject *)&PyTuple_Type, "__new__", "OO", message_type, its) : NULL;
    Py_XDECREF(its);
    Py_XDECREF(type_id);
    Py_XDECREF(body);
    return message;
}

PyObject *message_of(int32_t type_id, PyObject *body) {
    static int is_plain = -1;
    /* (from 3.14 on a tuple also keeps its hash) */
    if (is_plain < 0) is_plain = python_version() < 0x030E0000;
    PyObject *number = body ? PyLong_FromLong(type_id) : NULL;
    return is_plain ? filled(number, body) : made(number, body);
}

int grow(Handle *handle, size_t size) {
    if (size <= handle->size) return 0;
    char *room = PyMem_Realloc(handle->room, size);
    if (!room) {
        PyErr_NoMemory();
        return -1;
    }
    handle->room = room;
    handle->size = size;
    return 0;
}
