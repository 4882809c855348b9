/* The methods that programs call most. Each of them calls the library directly. */
#include "fast.h"

#include <string.h>

/* Returns the index of the parameter with this name, or -1 with an exception. */
static int place_of(const Shape *shape, PyObject *name) {
    for (int i = 0; i < shape->most; i++)
        if (PyUnicode_CompareWithASCIIString(name, shape->parameters[i]) == 0) return i;
    PyErr_Format(PyExc_TypeError, "%s() got an unexpected keyword argument %R", shape->name, name);
    return -1;
}

/* Finds the parameters among positional and named arguments. A parameter that was not given is NULL. */
static int find_named(const Shape *shape, PyObject *const *given, Py_ssize_t count, PyObject *names, PyObject **its) {
    Py_ssize_t named = names ? PyTuple_Size(names) : 0;
    for (Py_ssize_t i = 0; i < named; i++) {
        int at = place_of(shape, PyTuple_GetItem(names, i));
        if (at < 0) return -1;
        if (its[at]) {
            PyErr_Format(PyExc_TypeError, "%s() got multiple values for argument '%s'", shape->name,
                         shape->parameters[at]);
            return -1;
        }
        its[at] = given[count + i];
    }
    for (int i = 0; i < shape->least; i++) {
        if (its[i]) continue;
        PyErr_Format(PyExc_TypeError, "%s() missing a required argument: '%s'", shape->name, shape->parameters[i]);
        return -1;
    }
    return 0;
}

int find(const Shape *shape, PyObject *const *given, Py_ssize_t count, PyObject *names, PyObject **its) {
    if (count > shape->most) {
        PyErr_Format(PyExc_TypeError, "%s() takes at most %d arguments (%zd given)", shape->name, shape->most, count);
        return -1;
    }
    for (Py_ssize_t i = 0; i < count; i++) its[i] = given[i];
    return names || count < shape->least ? find_named(shape, given, count, names, its) : 0;
}

/* Returns whether a timeout is 0, or was not given: then the call does not wait. Returns -1 with an exception. */
static int is_now(PyObject *timeout) {
    if (!timeout) return 1;
    PyObject *zero = PyLong_FromLong(0);
    int is_zero = zero ? PyObject_RichCompareBool(timeout, zero, Py_EQ) : -1;
    Py_XDECREF(zero);
    return is_zero;
}

/* Writes or transmits a message. */
static PyObject *send(int32_t (*by)(void **, int32_t, const void *, size_t), PyObject *self, PyObject *const *its) {
    Handle *handle = (Handle *)self;
    word type_id, body[2];
    int32_t code;
    if (is_foreign(handle) || take_number(its[0], I32, &type_id) != 0) return NULL;
    if (PyBytes_CheckExact(its[1])) {
        code = by(&handle->at, (int32_t)type_id.number, PyBytes_AsString(its[1]), (size_t)PyBytes_Size(its[1]));
    } else {
        Call call;
        begin(&call, NULL);
        int is_taken = take_bytes(&call, its[1], body) == 0;
        code = is_taken ? by(&handle->at, (int32_t)type_id.number, body[0].pointer, (size_t)body[1].whole) : OK;
        release(&call);
        if (!is_taken) return NULL;
    }
    if (code != OK) return raise_refusal(code);
    wake(handle);
    Py_RETURN_NONE;
}

static PyObject *producer_write(PyObject *self, PyObject *const *given, Py_ssize_t count, PyObject *names) {
    static const Shape shape = {"write", {"type_id", "body", "timeout"}, 3, 2};
    PyObject *its[PARAMETERS] = {NULL};
    if (find(&shape, given, count, names, its) != 0) return NULL;
    int now = is_now(its[2]);
    if (now < 0) return NULL;
    if (now) return send(library.write, self, its);
    return PyObject_CallMethod(self, "_write_within", "OOO", its[2], its[0], its[1]);
}

static PyObject *transmitter_transmit(PyObject *self, PyObject *const *given, Py_ssize_t count, PyObject *names) {
    static const Shape shape = {"transmit", {"type_id", "body"}, 2, 2};
    PyObject *its[PARAMETERS] = {NULL};
    return find(&shape, given, count, names, its) == 0 ? send(library.transmit, self, its) : NULL;
}

static PyObject *producer_claim(PyObject *self, PyObject *const *given, Py_ssize_t count, PyObject *names) {
    static const Shape shape = {"claim", {"type_id", "length"}, 2, 2};
    PyObject *its[PARAMETERS] = {NULL};
    word type_id, length;
    if (find(&shape, given, count, names, its) != 0 || is_foreign((Handle *)self)) return NULL;
    if (take_number(its[0], I32, &type_id) != 0 || take_number(its[1], USIZE, &length) != 0) return NULL;
    return claimed((Handle *)self, (int32_t)type_id.number, (size_t)length.whole);
}

/* Reads, peeks or receives the next message into the buffer of the handle, which grows until the message fits. */
static PyObject *next_message(PyObject *self, int32_t (*by)(void **, int32_t *, size_t *, void *, size_t), int receives) {
    Handle *handle = (Handle *)self;
    size_t len = 256;
    uint64_t lapped = 0, from = 0, intent = 0, place = 0;
    int32_t type_id = 0, code;
    if (is_foreign(handle)) return NULL;
    do {
        if (len > handle->size && grow(handle, len) != 0) return NULL;
        code = receives ? library.receive(&handle->at, &type_id, &len, &lapped, handle->room, handle->size)
                        : by(&handle->at, &type_id, &len, handle->room, handle->size);
    } while (code == SHORT_BUFFER && len > handle->size);
    if (code == OK) return message_of(type_id, PyBytes_FromStringAndSize(handle->room, (Py_ssize_t)len));
    if (code == NO_MESSAGE) Py_RETURN_NONE;
    if (code != LAPPED) return raise_refusal(code);
    if (library.lap(&handle->at, &from, &intent) != OK || library.place(&handle->at, &place) != OK) place = from = 0;
    return raise_lapped(lapped, place - from);
}

static PyObject *next_within(PyObject *self, const char *name, int receives, PyObject *const *given, Py_ssize_t count,
                             PyObject *names) {
    const Shape shape = {name, {"timeout"}, 1, 0};
    PyObject *its[PARAMETERS] = {NULL};
    if (count == 0 && !names) return next_message(self, library.read, receives);
    if (find(&shape, given, count, names, its) != 0) return NULL;
    int now = is_now(its[0]);
    if (now < 0) return NULL;
    if (now) return next_message(self, library.read, receives);
    /* (without the parentheses a tuple would become the list of all arguments) */
    return PyObject_CallMethod(self, "_next_within", "(O)", its[0]);
}

static PyObject *consumer_read(PyObject *self, PyObject *const *given, Py_ssize_t count, PyObject *names) {
    return next_within(self, "read", 0, given, count, names);
}

static PyObject *receiver_receive(PyObject *self, PyObject *const *given, Py_ssize_t count, PyObject *names) {
    return next_within(self, "receive", 1, given, count, names);
}

static PyObject *consumer_read_now(PyObject *self, PyObject *Py_UNUSED(none)) {
    return next_message(self, library.read, 0);
}

static PyObject *receiver_receive_now(PyObject *self, PyObject *Py_UNUSED(none)) {
    return next_message(self, NULL, 1);
}

static PyObject *controlled_peek(PyObject *self, PyObject *Py_UNUSED(none)) {
    return next_message(self, library.peek, 0);
}

/* What comes before the bytes of a message in a batch. */
typedef struct {
    uint64_t len;
    int64_t type_id;
} record;

/* Returns the list of `count` messages, which are one after another in memory. */
static PyObject *messages_of(const char *at, uint32_t count) {
    PyObject *messages = PyList_New(count);
    for (uint32_t i = 0; messages && i < count; i++) {
        record its;
        memcpy(&its, at, sizeof its);
        at += sizeof its;
        PyObject *message = message_of((int32_t)its.type_id, PyBytes_FromStringAndSize(at, (Py_ssize_t)its.len));
        if (!message) Py_CLEAR(messages);
        else PyList_SetItem(messages, i, message);
        at += (its.len + 7) / 8 * 8;
    }
    return messages;
}

/* The longest buffer that a handle keeps for batches. */
enum { KEPT = 1 << 20 };

static PyObject *batch_of(Handle *handle, uint32_t limit, size_t room) {
    uint32_t count = 0;
    size_t used = 0;
    /* (taken out of the handle: to make messages can collect garbage, which can run a read by the same handle) */
    char *at = handle->room;
    size_t size = handle->size;
    handle->room = NULL;
    handle->size = 0;
    if (size < room || !at) {
        PyMem_Free(at);
        size = room ? room : 1;
        at = PyMem_Malloc(size);
        if (!at) return PyErr_NoMemory();
    }
    int32_t code = library.read_batch(&handle->at, limit, &count, &used, at, room);
    PyObject *messages = code == OK || code == NO_MESSAGE ? messages_of(at, code == OK ? count : 0) : NULL;
    if (code != OK && code != NO_MESSAGE) raise_refusal(code);
    if (handle->room || size > KEPT) {
        PyMem_Free(at);
    } else {
        handle->room = at;
        handle->size = size;
    }
    return messages;
}

static PyObject *consumer_read_batch(PyObject *self, PyObject *const *given, Py_ssize_t count, PyObject *names) {
    static const Shape shape = {"read_batch", {"limit", "room"}, 2, 1};
    PyObject *its[PARAMETERS] = {NULL};
    word limit, room = {.whole = 65536};
    if (find(&shape, given, count, names, its) != 0 || is_foreign((Handle *)self)) return NULL;
    if (take_number(its[0], U32, &limit) != 0 || (its[1] && take_number(its[1], USIZE, &room) != 0)) return NULL;
    if (room.whole > PY_SSIZE_T_MAX) return PyErr_NoMemory();
    return batch_of((Handle *)self, (uint32_t)limit.number, (size_t)room.whole);
}

#define NAMED(call) (PyCFunction)(void (*)(void))call, METH_FASTCALL | METH_KEYWORDS

/* The methods, each with the qualified name of the method that it replaces, and with its parameters for help. */
static const struct {
    const char *name;
    PyMethodDef method;
} METHODS[] = {
    {"Producer.write", {"write", NAMED(producer_write), "($self, type_id, body, timeout=0)"}},
    {"Producer.write_batch", {"write_batch", NAMED(producer_write_batch), "($self, messages)"}},
    {"Producer.claim", {"claim", NAMED(producer_claim), "($self, type_id, length)"}},
    {"Transmitter.transmit", {"transmit", NAMED(transmitter_transmit), "($self, type_id, body)"}},
    {"Consumer.read", {"read", NAMED(consumer_read), "($self, timeout=0)"}},
    {"Consumer._read", {"_read", consumer_read_now, METH_NOARGS, "($self)"}},
    {"Consumer.read_batch", {"read_batch", NAMED(consumer_read_batch), "($self, limit, room=65536)"}},
    {"Controlled.peek", {"peek", controlled_peek, METH_NOARGS, "($self)"}},
    {"Receiver.receive", {"receive", NAMED(receiver_receive), "($self, timeout=0)"}},
    {"Receiver._receive", {"_receive", receiver_receive_now, METH_NOARGS, "($self)"}},
};

/* Returns a copy of a method's table entry with a text. The copy lasts as long as the process, because classes keep
 * it. */
static PyMethodDef *kept(const PyMethodDef *from, const char *text) {
    size_t length = strlen(from->ml_name) + strlen(from->ml_doc) + strlen(text) + 6;
    PyMethodDef *made = PyMem_Malloc(sizeof *made);
    char *whole = PyMem_Malloc(length);
    if (!made || !whole) {
        PyMem_Free(made);
        PyMem_Free(whole);
        PyErr_NoMemory();
        return NULL;
    }
    PyOS_snprintf(whole, length, "%s%s\n--\n\n%s", from->ml_name, from->ml_doc, text);
    *made = *from;
    made->ml_doc = whole;
    return made;
}

PyObject *method_of(PyObject *Py_UNUSED(module), PyObject *arguments) {
    const char *name, *text = NULL;
    if (!PyArg_ParseTuple(arguments, "sz:method", &name, &text)) return NULL;
    for (size_t i = 0; i < sizeof METHODS / sizeof *METHODS; i++) {
        if (strcmp(name, METHODS[i].name) != 0) continue;
        PyMethodDef *method = kept(&METHODS[i].method, text ? text : "");
        return method ? PyDescr_NewMethod(handle_type, method) : NULL;
    }
    return PyErr_Format(PyExc_LookupError, "felter: the extension has no method %s", name);
}
