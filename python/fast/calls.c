/* Calls of the library. */
#include "fast.h"

#include <string.h>

PyObject *functions, *make_refusal, *make_lapped;

typedef int32_t function_of_6(word, word, word, word, word, word);
typedef int32_t function_of_12(word, word, word, word, word, word, word, word, word, word, word, word);

static int32_t ask(void *address, int count, const word *w) {
    if (count <= 6) return ((function_of_6 *)address)(w[0], w[1], w[2], w[3], w[4], w[5]);
    return ((function_of_12 *)address)(w[0], w[1], w[2], w[3], w[4], w[5], w[6], w[7], w[8], w[9], w[10], w[11]);
}

/* Makes a call with the buffer of the handle, which grows until the message fits. */
static int ask_for_message(Call *call, int32_t *code) {
    const Function *function = call->function;
    size_t wanted = 256;
    if (!call->handle || function->length < 0) {
        PyErr_SetString(PyExc_TypeError, "the call needs a length");
        return -1;
    }
    do {
        if (grow(call->handle, wanted) != 0) return -1;
        call->words[function->room].pointer = call->handle->room;
        call->words[function->room + 1].whole = call->handle->size;
        *code = ask(function->address, function->count, call->words);
        wanted = (size_t)call->outs[function->length].whole;
    } while (*code == SHORT_BUFFER && wanted > call->handle->size);
    return 0;
}

/* Returns the bytes that the call put into the buffer. */
static PyObject *body_of(Call *call, int room) {
    int length = call->function->length;
    uint64_t count = call->words[room + 1].whole;
    if (length >= 0 && call->outs[length].whole < count) count = call->outs[length].whole;
    if (!call->body || PyBytes_Size(call->body) != (Py_ssize_t)count)
        return PyBytes_FromStringAndSize(call->words[room].pointer, (Py_ssize_t)count);
    PyObject *body = call->body;
    call->body = NULL;
    return body;
}

/* Returns what the call wrote through the parameter with this index. */
static PyObject *found_at(Call *call, int index) {
    word out = call->outs[index];
    switch (call->function->kinds[index]) {
    case ROOM: return body_of(call, index);
    case OUT_I32: return PyLong_FromLong((int32_t)out.number);
    case OUT_U32: return PyLong_FromUnsignedLong((uint32_t)out.whole);
    case OUT_I64: return PyLong_FromLongLong(out.number);
    default: return PyLong_FromUnsignedLongLong(out.whole);
    }
}

/* Returns what the call wrote: None, one value, or a tuple. All values are made before the tuple, because a new tuple
 * may collect garbage. */
static PyObject *found_of(Call *call) {
    const Function *function = call->function;
    PyObject *its[MOST];
    int count = 0;
    for (int i = 0; i < function->count; i++) {
        if (function->kinds[i] != ROOM && function->kinds[i] < OUT_I32) continue;
        if (i == function->lapped || i == function->length) continue;
        its[count] = found_at(call, i);
        if (its[count++]) continue;
        while (--count > 0) Py_DECREF(its[count - 1]);
        return NULL;
    }
    if (count == 1) return its[0];
    if (count == 0) Py_RETURN_NONE;
    PyObject *all = PyTuple_New(count);
    for (int i = 0; i < count; i++) {
        if (all) PyTuple_SetItem(all, i, its[i]);
        else Py_DECREF(its[i]);
    }
    return all;
}

/* Returns the message that the call wrote. Its type id is the first number, and its body is in the buffer. */
static PyObject *read_of(Call *call) {
    const Function *function = call->function;
    int32_t type_id = 0;
    for (int i = function->count - 1; i >= 0; i--)
        if (function->kinds[i] == OUT_I32) type_id = (int32_t)call->outs[i].number;
    return message_of(type_id, body_of(call, function->room));
}

/* Returns how many bytes a receiver that was just lapped passed over, or 0 if that is not known. */
static uint64_t missed_by(const Call *call) {
    const Function *function = call->function;
    uint64_t from = 0, intent = 0, place = 0;
    word lap[MOST] = {call->words[0], {.pointer = &from}, {.pointer = &intent}};
    word to[MOST] = {call->words[0], {.pointer = &place}};
    if (!function->lap || ask(function->lap, 3, lap) != OK || ask(function->place, 2, to) != OK) return 0;
    return place - from;
}

static PyObject *raised(PyObject *made) {
    if (made) PyErr_SetObject((PyObject *)Py_TYPE(made), made);
    Py_XDECREF(made);
    return NULL;
}

PyObject *raise_refusal(int32_t code) {
    return raised(PyObject_CallFunction(make_refusal, "i", (int)code));
}

PyObject *raise_lapped(uint64_t count, uint64_t missed) {
    return raised(PyObject_CallFunction(make_lapped, "KK", (unsigned long long)count, (unsigned long long)missed));
}

/* Returns the result of a call in Python. */
static PyObject *answer(enum manner manner, Call *call, int32_t code) {
    const Function *function = call->function;
    if (code == OK) return manner == READ ? read_of(call) : found_of(call);
    if (code == NO_MESSAGE && manner != DO) Py_RETURN_NONE;
    if (code == LAPPED && function->lapped >= 0)
        return raise_lapped(call->outs[function->lapped].whole, missed_by(call));
    return raise_refusal(code);
}

/* Notes that a producer was joined to another one, which has its claims from now on. */
static void note_join(Call *call) {
    if (!call->handle || !call->other || call->other->at) return;
    Handle *before = call->other->joined;
    Py_INCREF((PyObject *)call->handle);
    call->other->joined = call->handle;
    Py_XDECREF((PyObject *)before);
}

void begin(Call *call, const Function *function) {
    call->function = function;
    call->view_count = call->copy_count = 0;
    call->handle = call->other = NULL;
    call->body = NULL;
}

PyObject *called(enum manner manner, PyObject *name, PyObject *const *given, Py_ssize_t count) {
    Call call;
    PyObject *found = NULL;
    int32_t code = OK;
    begin(&call, functions ? (Function *)PyDict_GetItemWithError(functions, name) : NULL);
    if (!call.function) {
        if (!PyErr_Occurred()) PyErr_Format(PyExc_AttributeError, "there is no call %R", name);
        return NULL;
    }
    memset(call.words, 0, sizeof call.words);
    memset(call.outs, 0, sizeof call.outs);
    int is_made = take(&call, given, count) == 0;
    if (is_made && call.function->room >= 0 && !call.body) {
        is_made = ask_for_message(&call, &code) == 0;
    } else if (is_made) {
        code = ask(call.function->address, call.function->count, call.words);
    }
    if (is_made && code == OK && call.function->joins) note_join(&call);
    if (is_made) found = answer(manner, &call, code);
    release(&call);
    return found;
}
