/* refuse: allocations that are refused, for the tests of wkt._fast. It hooks the allocators of Python, and is compiled into
 * a _fast of the tests too (with -Dcalloc=refused_calloc and the like), whose memory then comes from there.
 *
 *   after(n)     from now on the allocation n (1 is the next) is refused, once
 *   stop()       no more; returns whether one was refused */
#define PY_SSIZE_T_CLEAN
#include <Python.h>

void *refused_calloc(size_t count, size_t size) { return PyMem_RawCalloc(count, size); }
void *refused_realloc(void *held, size_t size) { return PyMem_RawRealloc(held, size); }
void refused_free(void *held) { PyMem_RawFree(held); }

#ifndef IN_FAST
static PyMemAllocatorEx before[3];
static const PyMemAllocatorDomain domains[] = {PYMEM_DOMAIN_RAW, PYMEM_DOMAIN_MEM, PYMEM_DOMAIN_OBJ};
static long left;
static int refused;

static int now(void) {
    if (left == 0 || --left != 0) return 0;
    return refused = 1;
}
static void *malloc_(void *context, size_t size) {
    PyMemAllocatorEx *it = context;
    return now() ? NULL : it->malloc(it->ctx, size);
}
static void *calloc_(void *context, size_t count, size_t size) {
    PyMemAllocatorEx *it = context;
    return now() ? NULL : it->calloc(it->ctx, count, size);
}
static void *realloc_(void *context, void *held, size_t size) {
    PyMemAllocatorEx *it = context;
    return now() ? NULL : it->realloc(it->ctx, held, size);
}
static void free_(void *context, void *held) {
    PyMemAllocatorEx *it = context;
    it->free(it->ctx, held);
}

static PyObject *after(PyObject *self, PyObject *number) {
    long given = PyLong_AsLong(number);
    (void)self;
    if (given < 1) return NULL;
    refused = 0;
    left = given;
    Py_RETURN_NONE;
}
static PyObject *stop(PyObject *self, PyObject *none) {
    (void)self, (void)none;
    left = 0;
    return PyBool_FromLong(refused);
}

static PyMethodDef methods[] = {
    {"after", after, METH_O, NULL}, {"stop", stop, METH_NOARGS, NULL}, {NULL, NULL, 0, NULL}};
static struct PyModuleDef module = {PyModuleDef_HEAD_INIT, "refuse", NULL, -1, methods, NULL, NULL, NULL, NULL};
PyMODINIT_FUNC PyInit_refuse(void) {
    for (int i = 0; i < 3; i++) {
        PyMemAllocatorEx mine = {&before[i], malloc_, calloc_, realloc_, free_};
        PyMem_GetAllocator(domains[i], &before[i]);
        PyMem_SetAllocator(domains[i], &mine);
    }
    return PyModule_Create(&module);
}
#endif
