/*
 * CPython as this module sees it: the limited API of 3.8, so one binary serves every CPython from 3.8 on.
 *
 * Three things that it needs came into the limited API later. Each has been exported by every CPython since 3.8 with this very form, and
 * 3.10 and 3.11 have made that form a part of the stable ABI. So they are declared here, and mean the same in all of them:
 *
 * - METH_FASTCALL (limited API of 3.10): the value of the flag, and the arguments of such a function, are those of 3.7
 * - PyUnicode_AsUTF8AndSize (3.10)
 * - Py_buffer, PyObject_GetBuffer and PyBuffer_Release (3.11): the structure has had these fields since 3.3
 *
 * Where a `str` keeps its characters is in no version of the limited API: text.c finds it in samples.
 */
#ifndef DADOFENNEL_PYTHON_H
#define DADOFENNEL_PYTHON_H

#define PY_SSIZE_T_CLEAN
#define Py_LIMITED_API 0x03080000
#include <Python.h>

#ifndef METH_FASTCALL
#define METH_FASTCALL 0x0080
#endif

#ifndef PyBUF_SIMPLE
typedef struct {
    void *buf;
    PyObject *obj;
    Py_ssize_t len, itemsize;
    int readonly, ndim;
    char *format;
    Py_ssize_t *shape, *strides, *suboffsets;
    void *internal;
} Py_buffer;

#define PyBUF_SIMPLE 0
#define PyBUF_WRITABLE 1
PyAPI_FUNC(int) PyObject_GetBuffer(PyObject *source, Py_buffer *view, int flags);
PyAPI_FUNC(void) PyBuffer_Release(Py_buffer *view);
#endif

PyAPI_FUNC(const char *) PyUnicode_AsUTF8AndSize(PyObject *text, Py_ssize_t *length);

#endif
