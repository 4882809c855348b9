/* The calls of libfelter.so for the Python package, in C: the handles and calls that felter/_pure.py has by ctypes.
 *
 * Python gives it the addresses of the library's functions, and the words for what each takes, so it is compiled without
 * the library, and asks nothing of the C library but memory. It calls by the convention of x86-64, the one processor that
 * the library runs on: each parameter takes 8 bytes, also a number of 32 bits, and parameters that a function does not
 * take are ignored.
 *
 * No call waits, so each keeps the global interpreter lock, and one call at a time uses a handle. What can run code of
 * Python (asking objects for their numbers and buffers, collecting garbage) comes before a call or after it.
 */
#ifndef FELTER_FAST_H
#define FELTER_FAST_H

#define PY_SSIZE_T_CLEAN
#include <Python.h>

#include <stddef.h>
#include <stdint.h>

#include "stable.h"

#if defined Py_GIL_DISABLED || !defined __x86_64__
#error "this needs the global interpreter lock, and the calling convention of x86-64"
#endif

/* What a parameter is. The length of a BYTES or a ROOM comes after it, and is no kind of its own. */
enum kind { HANDLE, I32, U32, I64, U64, USIZE, BYTES, ROOM, LENGTH, OUT_I32, OUT_U32, OUT_I64, OUT_U64, OUT_USIZE };

/* Codes of felter.h. */
enum code { OK = 0, LAPPED = 13, NO_HANDLE = 100, NO_CLAIM = 104, NO_MESSAGE = 105, SHORT_BUFFER = 106 };

/* A function takes at most this many parameters. */
enum { MOST = 12 };

/* A parameter: a number or a pointer. */
typedef union {
    int64_t number;
    uint64_t whole;
    void *pointer;
} word;

/* A function of the library. */
typedef struct {
    PyObject_HEAD
    void *address;
    int count;             /* of its parameters */
    int given;             /* of those that Python gives */
    enum kind kinds[MOST];
    int room;              /* which one is the room for bytes, or -1 */
    int length;            /* which one says how many bytes were put there, or -1 */
    int lapped;            /* which one says how often a receiver was lapped, or -1 */
    void *lap, *place;     /* the functions that say more of a lap, or NULL */
    int joins;             /* whether it takes one producer into another */
} Function;

/* A handle of the library. */
typedef struct Handle {
    PyObject_HEAD
    void *at;              /* its felter_handle */
    unsigned generation;   /* the number of forks before it was made */
    char *room;            /* the buffer that its messages are read into */
    size_t size;
    struct Handle *joined; /* the producer that took it in with its claims, or NULL */
    PyObject *sleepers;    /* the list of the locks of readers that sleep, or NULL */
} Handle;

/* What one call takes and puts out. */
typedef struct {
    const Function *function;
    word words[MOST];
    word outs[MOST];
    Py_buffer views[MOST];
    int view_count;
    void *copies[MOST];
    int copy_count;
    Handle *handle;        /* the first one that it takes */
    Handle *other;         /* the second one */
    PyObject *body;        /* the bytes to be filled, if Python gave their length */
} Call;

/* The functions that are called directly, by the addresses of the library. */
typedef struct {
    int32_t (*write)(void **producer, int32_t type_id, const void *body, size_t len);
    int32_t (*write_batch)(void **producer, const void *records, size_t bytes, uint32_t *written);
    int32_t (*transmit)(void **transmitter, int32_t type_id, const void *body, size_t len);
    int32_t (*claim)(void **producer, int32_t type_id, size_t len, uint64_t *claim);
    int32_t (*put)(void **producer, uint64_t claim, size_t offset, const void *bytes, size_t len);
    int32_t (*commit)(void **producer, uint64_t claim);
    int32_t (*abort)(void **producer, uint64_t claim);
    int32_t (*read)(void **consumer, int32_t *type_id, size_t *len, void *buffer, size_t room);
    int32_t (*peek)(void **consumer, int32_t *type_id, size_t *len, void *buffer, size_t room);
    int32_t (*read_batch)(void **consumer, uint32_t limit, uint32_t *count, size_t *used, void *buffer, size_t room);
    int32_t (*receive)(void **receiver, int32_t *type_id, size_t *len, uint64_t *lapped, void *buffer, size_t room);
    int32_t (*lap)(void **receiver, uint64_t *place, uint64_t *intent);
    int32_t (*place)(void **receiver, uint64_t *place);
    void (*free)(void **handle);
} Library;

extern Library library;
extern PyTypeObject *handle_type, *claim_type, *function_type;
/* The functions by their names, and what makes the exceptions. */
extern PyObject *functions, *make_refusal, *make_lapped;
/* The type of a message, a tuple. */
extern PyTypeObject *message_type;
/* The number of forks between the first process and this one. */
extern unsigned generation;

/* What a call does with its code: raises a refusal, or also returns None if there is no message (and otherwise may make
 * one of what was put out). */
enum manner { DO, TRY, READ };

/* The parameters of a method, and how many of them must be given. */
enum { PARAMETERS = 3 };
typedef struct {
    const char *name;
    const char *parameters[PARAMETERS];
    int most, least;
} Shape;

/* Finds the parameters of a method in what was given by places and by names; one that was not given stays NULL. Returns
 * 0, or -1 with an exception. */
int find(const Shape *shape, PyObject *const *given, Py_ssize_t count, PyObject *names, PyObject **its);
/* Takes the parameters of a call from what Python gave. Returns 0, or -1 with an exception. */
int take(Call *call, PyObject *const *given, Py_ssize_t count);
/* Takes one handle, one number, or bytes with their length. Returns 0, or -1 with an exception. */
int take_handle(PyObject *given, word *to);
int take_number(PyObject *given, enum kind kind, word *to);
int take_bytes(Call *call, PyObject *given, word *data);
/* Releases what `take` took. */
void release(Call *call);
/* A call that took nothing yet. */
void begin(Call *call, const Function *function);
/* Calls the function of a name. */
PyObject *called(enum manner manner, PyObject *name, PyObject *const *given, Py_ssize_t count);
/* Raises what a code means, and returns NULL. */
PyObject *raise_refusal(int32_t code);
PyObject *raise_lapped(uint64_t count, uint64_t missed);
/* Makes the message of a type id and a body, which it takes over. */
PyObject *message_of(int32_t type_id, PyObject *body);
/* Makes the room of a handle at least so long. Returns 0, or -1 with an exception. */
int grow(Handle *handle, size_t size);
/* Raises, and returns -1, if a handle belongs to the process that forked this one. */
int is_foreign(Handle *handle);
/* The producer of what a handle claimed: itself, or the one that took it in. */
Handle *owner_of(Handle *handle);
/* Wakes the readers that sleep, if there are any, and keeps an exception that is raised. */
void wake(Handle *handle);
/* The method that writes a batch of messages. */
PyObject *producer_write_batch(PyObject *self, PyObject *const *given, Py_ssize_t count, PyObject *names);
/* Makes an open claim of a producer. */
PyObject *claimed(Handle *producer, int32_t type_id, size_t len);
/* A method of a class that calls the library directly, by the qualified name of the one that it stands for. */
PyObject *method_of(PyObject *module, PyObject *arguments);
/* Visits the type of an object, as the last step of tp_traverse. */
int visit_type(PyObject *it, visitproc visit, void *arg);
/* The version of the running Python, as PY_VERSION_HEX has it, or -1. */
long python_version(void);
/* Make the types. Return 0, or -1 with an exception. */
int make_types(void);
int make_claim_type(void);

#endif
