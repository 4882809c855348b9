/* What the stable ABI of Python 3.11 has and every CPython from 3.8 on exports in the same form: buffers, and methods
 * that take an array of arguments (PEP 688 and the documentation of the stable ABI name when they came into the limited
 * API). The extension is compiled for the limited API of 3.8, whose headers leave these out. */
#ifndef FELTER_STABLE_H
#define FELTER_STABLE_H

#if defined Py_LIMITED_API && Py_LIMITED_API + 0 < 0x030B0000

typedef struct {
    void *buf;
    PyObject *obj;
    Py_ssize_t len, itemsize;
    int readonly, ndim;
    char *format;
    Py_ssize_t *shape, *strides, *suboffsets;
    void *internal;
} felter_buffer;
#define Py_buffer felter_buffer
#define PyBUF_FULL_RO 0x11c

PyAPI_FUNC(int) PyObject_GetBuffer(PyObject *exporter, Py_buffer *view, int flags);
PyAPI_FUNC(void) PyBuffer_Release(Py_buffer *view);
PyAPI_FUNC(int) PyBuffer_IsContiguous(const Py_buffer *view, char order);
PyAPI_FUNC(int) PyBuffer_ToContiguous(void *to, const Py_buffer *view, Py_ssize_t len, char order);

#endif

#ifndef METH_FASTCALL
#define METH_FASTCALL 0x0080
#endif

#endif
