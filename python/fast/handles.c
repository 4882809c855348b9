/* Handles, and the type of functions. */
#include "fast.h"

#include <structmember.h>

PyTypeObject *handle_type, *function_type;
unsigned generation;

/* Whether an instance visits its type. In Python 3.8 the subclasses in Python do so instead. */
static int visits_type;

int visit_type(PyObject *it, visitproc visit, void *arg) {
    if (visits_type) Py_VISIT(Py_TYPE(it));
    return 0;
}

/* Takes each lock out of the list and releases it, which runs no code of Python. */
static void wake_all(PyObject *sleepers) {
    PyObject *kind, *value, *trace;
    PyErr_Fetch(&kind, &value, &trace);
    /* (to ring a doorbell releases the interpreter's lock, so another thread may drop the handle with its list) */
    Py_INCREF(sleepers);
    while (PyList_Check(sleepers) && PyList_Size(sleepers) > 0) {
        PyObject *lock = PyObject_CallMethod(sleepers, "pop", NULL);
        PyObject *done = lock ? PyObject_CallMethod(lock, "release", NULL) : NULL;
        Py_XDECREF(done);
        Py_XDECREF(lock);
        /* (a reader that gave up meanwhile holds no lock) */
        if (!done) PyErr_Clear();
        if (!lock) break;
    }
    Py_DECREF(sleepers);
    PyErr_Restore(kind, value, trace);
}

void wake(Handle *handle) {
    if (handle->sleepers && Py_SIZE(handle->sleepers) > 0) wake_all(handle->sleepers);
}

/* Makes a call with the handle as its first argument. */
static PyObject *called_by(enum manner manner, PyObject *self, PyObject *const *given, Py_ssize_t count) {
    PyObject *all[MOST];
    if (count < 1 || count > MOST) {
        PyErr_SetString(PyExc_TypeError, "a call has a name and a few values");
        return NULL;
    }
    all[0] = self;
    for (Py_ssize_t i = 1; i < count; i++) all[i] = given[i];
    return called(manner, given[0], all, count);
}

static PyObject *handle_do(PyObject *self, PyObject *const *given, Py_ssize_t count) {
    return called_by(DO, self, given, count);
}

static PyObject *handle_try(PyObject *self, PyObject *const *given, Py_ssize_t count) {
    return called_by(TRY, self, given, count);
}

static PyObject *handle_read(PyObject *self, PyObject *name) {
    PyObject *given[] = {self, Py_None};
    return called(READ, name, given, 2);
}

static PyObject *handle_free(PyObject *self, PyObject *Py_UNUSED(none)) {
    word at;
    if (take_handle(self, &at) != 0) return NULL;
    library.free(at.pointer);
    Py_RETURN_NONE;
}

static PyObject *handle_is_empty(PyObject *self, PyObject *Py_UNUSED(none)) {
    return PyBool_FromLong(((Handle *)self)->at == NULL);
}

static PyObject *handle_is_forked(PyObject *self, PyObject *Py_UNUSED(none)) {
    return PyBool_FromLong(((Handle *)self)->generation != generation);
}

static PyObject *handle_new(PyTypeObject *type, PyObject *Py_UNUSED(its), PyObject *Py_UNUSED(named)) {
    Handle *self = (Handle *)((allocfunc)PyType_GetSlot(type, Py_tp_alloc))(type, 0);
    if (self) self->generation = generation;
    return (PyObject *)self;
}

static void plain_dealloc(PyObject *it) {
    PyTypeObject *type = Py_TYPE(it);
    ((freefunc)PyType_GetSlot(type, Py_tp_free))(it);
    Py_DECREF(type);
}

/* (there is no tp_clear: each cycle also has an object that Python clears, such as the attributes of the handle. A
 * producer that was joined must not forget its new owner, since its claims belong to that one.) */
static int handle_traverse(PyObject *it, visitproc visit, void *arg) {
    Handle *self = (Handle *)it;
    Py_VISIT(self->joined);
    Py_VISIT(self->sleepers);
    return visit_type(it, visit, arg);
}

static void handle_dealloc(PyObject *it) {
    Handle *self = (Handle *)it;
    PyObject *joined = (PyObject *)self->joined, *sleepers = self->sleepers;
    PyObject_GC_UnTrack(it);
    /* (a forked child owns nothing) */
    if (self->at && self->generation == generation) {
        library.free(&self->at);
        wake(self);
    }
    PyMem_Free(self->room);
    self->joined = NULL;
    self->sleepers = NULL;
    plain_dealloc(it);
    Py_XDECREF(joined);
    Py_XDECREF(sleepers);
}

#define FAST(call) (PyCFunction)(void (*)(void))call, METH_FASTCALL

static PyMethodDef handle_methods[] = {
    {"_do", FAST(handle_do), "Calls, and returns what was put out, or raises what was refused."},
    {"_try", FAST(handle_try), "The same, but returns None if there is no message."},
    {"_read_by", handle_read, METH_O, "Calls what reads a message, and returns it, or None."},
    {"_free", handle_free, METH_NOARGS, "Frees what it owns."},
    {"_is_empty", handle_is_empty, METH_NOARGS, "Whether it owns nothing."},
    {"_is_forked", handle_is_forked, METH_NOARGS, "Whether it belongs to the process that forked this one."},
    {NULL, NULL, 0, NULL},
};

static PyMemberDef handle_members[] = {
    {"_sleepers", T_OBJECT, offsetof(Handle, sleepers), 0, NULL},
    {NULL, 0, 0, 0, NULL},
};

static PyType_Slot handle_slots[] = {
    {Py_tp_members, handle_members},
    {Py_tp_new, handle_new},
    {Py_tp_dealloc, handle_dealloc},
    {Py_tp_traverse, handle_traverse},
    {Py_tp_methods, handle_methods},
    {0, NULL},
};
static PyType_Slot function_slots[] = {{Py_tp_dealloc, plain_dealloc}, {0, NULL}};

static PyType_Spec handle_spec = {
    "felter._fast.Handle", sizeof(Handle), 0, Py_TPFLAGS_DEFAULT | Py_TPFLAGS_BASETYPE | Py_TPFLAGS_HAVE_GC,
    handle_slots,
};
static PyType_Spec function_spec = {"felter._fast.Function", sizeof(Function), 0, Py_TPFLAGS_DEFAULT, function_slots};

int make_types(void) {
    visits_type = python_version() >= 0x03090000;
    handle_type = (PyTypeObject *)PyType_FromSpec(&handle_spec);
    function_type = (PyTypeObject *)PyType_FromSpec(&function_spec);
    return handle_type && function_type ? make_claim_type() : -1;
}
