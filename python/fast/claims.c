/* Claims. */
#include "fast.h"

PyTypeObject *claim_type;

/* Room for a message. A claim keeps its producer until it is settled. A claim that is dropped before is aborted. */
typedef struct {
    PyObject_HEAD
    Handle *producer;      /* NULL if the claim is settled, or was never made */
    uint64_t number;
} Claim;

Handle *owner_of(Handle *handle) {
    Handle *last = handle, *next = handle->joined;
    while (last->joined) last = last->joined;
    /* (so that the next search from here is short, however many producers were joined) */
    if (next && next != last) {
        Py_INCREF((PyObject *)last);
        handle->joined = last;
        Py_DECREF((PyObject *)next);
    }
    return last;
}

PyObject *claimed(Handle *producer, int32_t type_id, size_t len) {
    /* (the object is made first: after the call nothing can fail, and no interrupt comes before it has the claim) */
    Claim *claim = (Claim *)((allocfunc)PyType_GetSlot(claim_type, Py_tp_alloc))(claim_type, 0);
    if (!claim) return NULL;
    int32_t code = library.claim(&producer->at, type_id, len, &claim->number);
    if (code != OK) {
        Py_DECREF((PyObject *)claim);
        return raise_refusal(code);
    }
    Py_INCREF((PyObject *)producer);
    claim->producer = producer;
    return (PyObject *)claim;
}

static void let_go(Claim *claim) {
    PyObject *producer = (PyObject *)claim->producer;
    claim->producer = NULL;
    Py_XDECREF(producer);
}

/* The producer of an open claim, or NULL with an exception. */
static Handle *producer_of(Claim *claim) {
    if (!claim->producer) {
        raise_refusal(NO_CLAIM);
        return NULL;
    }
    Handle *owner = owner_of(claim->producer);
    return is_foreign(owner) ? NULL : owner;
}

/* Settles a claim by a call of the library. */
static PyObject *settled(PyObject *self, int32_t (*settle)(void **, uint64_t)) {
    Claim *claim = (Claim *)self;
    Handle *owner = producer_of(claim);
    if (!owner) return NULL;
    int32_t code = settle(&owner->at, claim->number);
    if (code != OK) return raise_refusal(code);
    wake(owner);
    let_go(claim);
    Py_RETURN_NONE;
}

static PyObject *claim_commit(PyObject *self, PyObject *Py_UNUSED(none)) {
    return settled(self, library.commit);
}

static PyObject *claim_abort(PyObject *self, PyObject *Py_UNUSED(none)) {
    return settled(self, library.abort);
}

static PyObject *claim_put(PyObject *self, PyObject *const *given, Py_ssize_t count, PyObject *names) {
    static const Shape shape = {"put", {"offset", "data"}, 2, 2};
    PyObject *its[PARAMETERS] = {NULL}, *found = NULL;
    word from = {0}, bytes[2];
    Call call;
    if (find(&shape, given, count, names, its) != 0) return NULL;
    begin(&call, NULL);
    if (take_number(its[0], USIZE, &from) == 0 && take_bytes(&call, its[1], bytes) == 0) {
        /* (this comes last: taking the parameters may have run code that settled the claim) */
        Handle *owner = producer_of((Claim *)self);
        int32_t code = OK;
        if (owner) code = library.put(&owner->at, ((Claim *)self)->number, from.whole, bytes[0].pointer, bytes[1].whole);
        if (owner && code == OK) found = Py_None;
        else if (owner) raise_refusal(code);
    }
    release(&call);
    Py_XINCREF(found);
    return found;
}

static PyObject *claim_enter(PyObject *self, PyObject *Py_UNUSED(none)) {
    Py_INCREF(self);
    return self;
}

static PyObject *claim_exit(PyObject *self, PyObject *arguments) {
    PyObject *kind, *value, *trace;
    Claim *claim = (Claim *)self;
    if (!PyArg_ParseTuple(arguments, "OOO:__exit__", &kind, &value, &trace)) return NULL;
    if (kind == Py_None) return claim_commit(self, NULL);
    /* (a claim that is settled, or whose producer was freed, has nothing to abort) */
    if (claim->producer) {
        Handle *owner = producer_of(claim);
        if (!owner) return NULL;
        library.abort(&owner->at, claim->number);
        wake(owner);
        let_go(claim);
    }
    Py_RETURN_NONE;
}

static int claim_traverse(PyObject *it, visitproc visit, void *arg) {
    Py_VISIT(((Claim *)it)->producer);
    return visit_type(it, visit, arg);
}

static void claim_dealloc(PyObject *it) {
    Claim *claim = (Claim *)it;
    PyTypeObject *type = Py_TYPE(it);
    PyObject_GC_UnTrack(it);
    if (claim->producer) {
        Handle *owner = owner_of(claim->producer);
        /* (a forked child owns nothing) */
        if (owner->at && owner->generation == generation) {
            library.abort(&owner->at, claim->number);
            wake(owner);
        }
        let_go(claim);
    }
    ((freefunc)PyType_GetSlot(type, Py_tp_free))(it);
    Py_DECREF(type);
}

static PyMethodDef claim_methods[] = {
    {"put", (PyCFunction)(void (*)(void))claim_put, METH_FASTCALL | METH_KEYWORDS,
     "put($self, offset, data)\n--\n\nPuts bytes into the message, from a byte on."},
    {"commit", claim_commit, METH_NOARGS, "commit($self)\n--\n\nShows the message to the consumer."},
    {"abort", claim_abort, METH_NOARGS, "abort($self)\n--\n\nLets the consumer pass it."},
    {"__enter__", claim_enter, METH_NOARGS, NULL},
    {"__exit__", claim_exit, METH_VARARGS, NULL},
    {NULL, NULL, 0, NULL},
};
static PyType_Slot claim_slots[] = {
    {Py_tp_dealloc, claim_dealloc},
    {Py_tp_traverse, claim_traverse},
    {Py_tp_methods, claim_methods},
    {0, NULL},
};
static PyType_Spec claim_spec = {
    "felter._fast.Claim", sizeof(Claim), 0, Py_TPFLAGS_DEFAULT | Py_TPFLAGS_BASETYPE | Py_TPFLAGS_HAVE_GC, claim_slots,
};

int make_claim_type(void) {
    claim_type = (PyTypeObject *)PyType_FromSpec(&claim_spec);
    return claim_type ? 0 : -1;
}
