/* Batches of messages that are written. */
#include "fast.h"

#include <string.h>

/* Codes of felter.h that say that the next try may succeed. */
enum { INSUFFICIENT_CAPACITY = 7, CONTENDED = 8 };

/* The longest buffer that a handle keeps for batches. */
enum { KEPT = 1 << 20 };

/* A buffer in which messages are laid one after another. */
typedef struct {
    char *at;
    size_t size, used;
} Laid;

/* Makes room for this many more bytes. Returns 0, or -1 with an exception. */
static int make_room(Laid *laid, size_t more) {
    size_t wanted = laid->used + more;
    if (wanted <= laid->size) return 0;
    size_t size = wanted > 2 * laid->size ? wanted : 2 * laid->size;
    char *at = PyMem_Realloc(laid->at, size);
    if (!at) {
        PyErr_NoMemory();
        return -1;
    }
    laid->at = at;
    laid->size = size;
    return 0;
}

/* Lays a message: its length, its type id, and its bytes, filled up to a multiple of 8. */
static int lay_bytes(Laid *laid, int64_t type_id, const void *bytes, uint64_t len) {
    if (len > PY_SSIZE_T_MAX / 2 || laid->used > PY_SSIZE_T_MAX / 4) {
        PyErr_NoMemory();
        return -1;
    }
    size_t span = sizeof len + sizeof type_id + (size_t)(len + 7) / 8 * 8;
    if (make_room(laid, span) != 0) return -1;
    char *to = laid->at + laid->used;
    memcpy(to, &len, sizeof len);
    memcpy(to + sizeof len, &type_id, sizeof type_id);
    if (len) memcpy(to + sizeof len + sizeof type_id, bytes, (size_t)len);
    memset(to + sizeof len + sizeof type_id + len, 0, span - sizeof len - sizeof type_id - (size_t)len);
    laid->used += span;
    return 0;
}

/* Lays the message that is this tuple of a type id and a body. */
static int lay_pair(Laid *laid, PyObject *pair) {
    word type_id, body[2];
    if (PyTuple_Size(pair) != 2) {
        PyErr_Format(PyExc_ValueError, "a message is a type id and a body, and not %zd values", PyTuple_Size(pair));
        return -1;
    }
    if (take_number(PyTuple_GetItem(pair, 0), I32, &type_id) != 0) return -1;
    Call call;
    begin(&call, NULL);
    int code = take_bytes(&call, PyTuple_GetItem(pair, 1), body);
    if (code == 0) code = lay_bytes(laid, type_id.number, body[0].pointer, body[1].whole);
    release(&call);
    return code;
}

static int lay_message(Laid *laid, PyObject *message) {
    if (PyTuple_Check(message)) return lay_pair(laid, message);
    PyObject *pair = PySequence_Tuple(message);
    int code = pair ? lay_pair(laid, pair) : -1;
    Py_XDECREF(pair);
    return code;
}

static int lay_all(Laid *laid, PyObject *messages) {
    PyObject *iterator = PyObject_GetIter(messages), *message;
    if (!iterator) return -1;
    int code = 0;
    while (code == 0 && (message = PyIter_Next(iterator))) {
        code = lay_message(laid, message);
        Py_DECREF(message);
    }
    Py_DECREF(iterator);
    return code != 0 || PyErr_Occurred() ? -1 : 0;
}

/* Writes what was laid, and returns how many messages were written. */
static PyObject *write_laid(Handle *handle, const Laid *laid) {
    uint32_t written = 0;
    if (is_foreign(handle)) return NULL;
    int32_t code = library.write_batch(&handle->at, laid->at, laid->used, &written);
    if (written) wake(handle);
    else if (code != OK && code != INSUFFICIENT_CAPACITY && code != CONTENDED) return raise_refusal(code);
    return PyLong_FromUnsignedLong(written);
}

PyObject *producer_write_batch(PyObject *self, PyObject *const *given, Py_ssize_t count, PyObject *names) {
    static const Shape shape = {"write_batch", {"messages"}, 1, 1};
    PyObject *its[PARAMETERS] = {NULL};
    Handle *handle = (Handle *)self;
    if (find(&shape, given, count, names, its) != 0 || is_foreign(handle)) return NULL;
    /* (the buffer is taken out of the handle, since the iteration can run code that writes by the same handle) */
    Laid laid = {handle->room, handle->size, 0};
    handle->room = NULL;
    handle->size = 0;
    PyObject *result = lay_all(&laid, its[0]) == 0 ? write_laid(handle, &laid) : NULL;
    if (handle->room || laid.size > KEPT) {
        PyMem_Free(laid.at);
    } else {
        handle->room = laid.at;
        handle->size = laid.size;
    }
    return result;
}
