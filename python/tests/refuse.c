/* What tests/refused.py links into the extension: counts the allocations of the extension and the
   library, makes one of them fail, and counts the blocks of both. */
#include <Python.h>
#include <stdarg.h>
#include <stdlib.h>

static long until_refusal = -1, refusals, blocks;

#define SHOWN __attribute__((visibility("default")))
/* The allocation after n more fails, once; -1: no allocation fails. Returns how many failed since the
   last call. */
SHOWN long refuse_after(long n);
SHOWN long blocks_held(void);

long refuse_after(long n) {
    long before = refusals;
    until_refusal = n;
    refusals = 0;
    return before;
}

long blocks_held(void) { return blocks; }

static int is_refused(void) {
    if (until_refusal < 0 || until_refusal--) return 0;
    refusals++;
    return 1;
}

void *__real_malloc(size_t);
void *__real_realloc(void *, size_t);
void __real_free(void *);
void *__real_PyMem_Malloc(size_t);
void __real_PyMem_Free(void *);

void *__wrap_malloc(size_t size) {
    void *at = is_refused() ? NULL : __real_malloc(size);
    blocks += at != NULL;
    return at;
}

void *__wrap_realloc(void *from, size_t size) {
    void *at = is_refused() ? NULL : __real_realloc(from, size);
    blocks += at && !from;
    return at;
}

void __wrap_free(void *at) {
    blocks -= at != NULL;
    __real_free(at);
}

void *__wrap_PyMem_Malloc(size_t size) {
    void *at = is_refused() ? NULL : __real_PyMem_Malloc(size);
    blocks += at != NULL;
    return at;
}

void __wrap_PyMem_Free(void *at) {
    blocks -= at != NULL;
    __real_PyMem_Free(at);
}

#define OBJECT(name, parameters, arguments)                                                                                                          \
    PyObject *__real_##name parameters;                                                                                                              \
    PyObject *__wrap_##name parameters { return is_refused() ? PyErr_NoMemory() : __real_##name arguments; }

OBJECT(PyTuple_New, (Py_ssize_t n), (n))
OBJECT(PyList_New, (Py_ssize_t n), (n))
OBJECT(PySequence_Tuple, (PyObject * from), (from))
OBJECT(PyLong_FromLongLong, (long long number), (number))
OBJECT(PyLong_FromUnsignedLongLong, (unsigned long long number), (number))
OBJECT(PyLong_FromSsize_t, (Py_ssize_t number), (number))
OBJECT(PyLong_FromSize_t, (size_t number), (number))
OBJECT(PyFloat_FromDouble, (double number), (number))
OBJECT(PySequence_Repeat, (PyObject * from, Py_ssize_t n), (from, n))
OBJECT(PyImport_ImportModule, (const char *name), (name))
OBJECT(_PyObject_GC_New, (PyTypeObject * type), (type))

/* (the extension makes tuples of two members so, and of no other length) */
PyObject *__real_PyTuple_Pack(Py_ssize_t, ...);
PyObject *__wrap_PyTuple_Pack(Py_ssize_t n, ...) {
    va_list members;
    va_start(members, n);
    PyObject *first = va_arg(members, PyObject *), *second = va_arg(members, PyObject *);
    va_end(members);
    return is_refused() ? PyErr_NoMemory() : __real_PyTuple_Pack(2, first, second);
}
