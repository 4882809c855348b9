/* How calls take their parameters from Python. */
#include "fast.h"

#include <string.h>

/* The most bits of an int whose digits a text shows. (Python refuses to write a very long number.) */
enum { SHOWN_BITS = 256 };

static int does_not_fit(PyObject *it, const char *low, const char *high) {
    PyErr_Clear();
    PyObject *bits = PyObject_CallMethod(it, "bit_length", NULL);
    if (!bits) return -1;
    if (PyLong_AsLongLong(bits) <= SHOWN_BITS) PyErr_Format(PyExc_OverflowError, "%S is not from %s to %s", it, low, high);
    else PyErr_Format(PyExc_OverflowError, "a number of %S bits is not from %s to %s", bits, low, high);
    Py_DECREF(bits);
    return -1;
}

/* Takes an int, and tests that it is in the range of its kind. */
static int take_int(PyObject *it, enum kind kind, word *to) {
    int overflow;
    if (kind == U64 || kind == USIZE) {
        to->whole = PyLong_AsUnsignedLongLong(it);
        if (to->whole == UINT64_MAX && PyErr_Occurred()) return does_not_fit(it, "0", "18446744073709551615");
        return 0;
    }
    to->number = PyLong_AsLongLongAndOverflow(it, &overflow);
    if (kind == I64 && overflow) return does_not_fit(it, "-9223372036854775808", "9223372036854775807");
    if (kind == I32 && (overflow || to->number != (int32_t)to->number))
        return does_not_fit(it, "-2147483648", "2147483647");
    if (kind == U32 && (overflow || to->number != (int64_t)(uint32_t)to->number))
        return does_not_fit(it, "0", "4294967295");
    return 0;
}

int take_number(PyObject *given, enum kind kind, word *to) {
    if (PyLong_CheckExact(given)) return take_int(given, kind, to);
    PyObject *it = PyNumber_Index(given);
    if (!it) return -1;
    int code = take_int(it, kind, to);
    Py_DECREF(it);
    return code;
}

/* Takes a copy of the bytes of a buffer that is not contiguous. */
static int take_copy(Call *call, Py_buffer *view, word *data) {
    void *copy = PyMem_Malloc((size_t)view->len);
    if (!copy) {
        PyErr_NoMemory();
        return -1;
    }
    call->copies[call->copy_count++] = copy;
    data->pointer = copy;
    return PyBuffer_ToContiguous(copy, view, view->len, 'C');
}

/* Takes the bytes of an object, by its buffer. The object's own `__len__` is not used. The call asks for the full
 * description of the buffer, which every object with bytes can give. If it asked for less, some objects would raise an
 * exception that is not a BufferError. */
int take_bytes(Call *call, PyObject *given, word *data) {
    if (PyBytes_CheckExact(given)) {
        data[0].pointer = PyBytes_AsString(given);
        data[1].whole = (uint64_t)PyBytes_Size(given);
        return 0;
    }
    Py_buffer *view = &call->views[call->view_count];
    if (PyObject_GetBuffer(given, view, PyBUF_FULL_RO) != 0) return -1;
    call->view_count++;
    data[0].pointer = view->buf;
    data[1].whole = (uint64_t)view->len;
    return PyBuffer_IsContiguous(view, 'C') ? 0 : take_copy(call, view, data);
}

/* Takes a buffer for bytes: a new one of a length, or for None the buffer of the handle. */
static int take_room(Call *call, PyObject *given, word *room) {
    if (given == Py_None) return 0;
    if (take_number(given, USIZE, &room[1]) != 0) return -1;
    if (room[1].whole > PY_SSIZE_T_MAX) return does_not_fit(given, "0", "9223372036854775807");
    call->body = PyBytes_FromStringAndSize(NULL, (Py_ssize_t)room[1].whole);
    if (!call->body) return -1;
    room[0].pointer = PyBytes_AsString(call->body);
    memset(room[0].pointer, 0, room[1].whole);
    return 0;
}

int is_foreign(Handle *handle) {
    if (handle->generation == generation) return 0;
    PyErr_SetString(PyExc_RuntimeError, "the handle belongs to the process that forked this one");
    return -1;
}

int take_handle(PyObject *given, word *to) {
    /* (not isinstance, which a `__class__` can deceive) */
    if (!PyObject_TypeCheck(given, handle_type)) {
        PyErr_Format(PyExc_TypeError, "%R is no handle", given);
        return -1;
    }
    if (is_foreign((Handle *)given)) return -1;
    to->pointer = &((Handle *)given)->at;
    return 0;
}

static int take_one(Call *call, int index, PyObject *given) {
    enum kind kind = call->function->kinds[index];
    word *to = &call->words[index];
    if (kind == BYTES) return take_bytes(call, given, to);
    if (kind == ROOM) return take_room(call, given, to);
    if (kind != HANDLE) return take_number(given, kind, to);
    if (take_handle(given, to) != 0) return -1;
    if (!call->handle) call->handle = (Handle *)given;
    else if (!call->other) call->other = (Handle *)given;
    return 0;
}

int take(Call *call, PyObject *const *given, Py_ssize_t count) {
    const Function *function = call->function;
    if (count != function->given) {
        PyErr_Format(PyExc_TypeError, "the call takes %d values and not %zd", function->given, count);
        return -1;
    }
    for (int i = 0; i < function->count; i++) {
        if (function->kinds[i] == LENGTH) continue;
        if (function->kinds[i] >= OUT_I32) call->words[i].pointer = &call->outs[i];
        else if (take_one(call, i, *given++) != 0) return -1;
    }
    return 0;
}

void release(Call *call) {
    while (call->view_count > 0) PyBuffer_Release(&call->views[--call->view_count]);
    while (call->copy_count > 0) PyMem_Free(call->copies[--call->copy_count]);
    Py_CLEAR(call->body);
}
