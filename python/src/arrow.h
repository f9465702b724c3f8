/* The structures of Arrow's C data interface and C stream interface, as its specification declares them, and what of
 * wkt._fast takes and lends them. */
#ifndef WKT_ARROW_H
#define WKT_ARROW_H
#define PY_SSIZE_T_CLEAN
#include <pyconfig.h>
#ifndef Py_GIL_DISABLED /* such a Python has no limited API */
#define Py_LIMITED_API 0x030b0000
#endif
#include <Python.h>
#include <stdint.h>

struct ArrowSchema {
    const char *format, *name, *metadata;
    int64_t flags, n_children;
    struct ArrowSchema **children, *dictionary;
    void (*release)(struct ArrowSchema *);
    void *private_data;
};

struct ArrowArray {
    int64_t length, null_count, offset, n_buffers, n_children;
    const void **buffers;
    struct ArrowArray **children, *dictionary;
    void (*release)(struct ArrowArray *);
    void *private_data;
};

struct ArrowArrayStream {
    int (*get_schema)(struct ArrowArrayStream *, struct ArrowSchema *out);
    int (*get_next)(struct ArrowArrayStream *, struct ArrowArray *out);
    const char *(*get_last_error)(struct ArrowArrayStream *);
    void (*release)(struct ArrowArrayStream *);
    void *private_data;
};

/* An error that is raised already is set aside while code of others runs, which may call Python, and is raised again. What
 * goes wrong meanwhile is shown, as in a __del__. */
typedef struct {
    PyObject *kind, *value, *trace;
} Aside;
static inline Aside set_aside(void) {
    Aside it;
    PyErr_Fetch(&it.kind, &it.value, &it.trace);
    return it;
}
static inline void raise_again(Aside it) {
    if (PyErr_Occurred() != NULL) PyErr_WriteUnraisable(NULL);
    PyErr_Restore(it.kind, it.value, it.trace);
}

/* The end of a capsule that owns a structure: what it holds is released, if nobody took it. */
#define END_OF_CAPSULE(end, structure, name) \
    static void end(PyObject *capsule) { \
        Aside raised = set_aside(); \
        struct structure *held = PyCapsule_GetPointer(capsule, name); \
        if (held->release != NULL) held->release(held); \
        free(held); \
        raise_again(raised); \
    }

/* arrow_in.c: what others lend */
PyObject *arrow_array(PyObject *self, PyObject *args);
PyObject *arrow_stream(PyObject *self, PyObject *args);
PyObject *arrow_next(PyObject *self, PyObject *stream);
extern PyType_Spec lent_spec, cells_spec;
/* The type of a column: of texts, of a dictionary of texts, of runs of either; or of lists of coordinates. */
typedef struct {
    int nested;                      /* a struct of one column */
    const struct ArrowSchema *texts; /* the type of the texts: that of the dictionary, if there is one */
    int runs;                        /* the size of the ends of runs, or 0 */
    int index, is_signed;            /* the size of a dictionary's indices, or 0 */
    int is_geo, lists, large;        /* GeoArrow: how many lists; bit i: the offsets of list i have 64 bits */
    int separated;                   /* a column for each axis, and not all of a coordinate side by side */
    char axes[8];                    /* such as "xyz"; "" where it is of something else */
} Type;
/* arrow_texts.c: the texts of an array, once its type is known */
PyObject *arrow_texts(PyObject *module, const Type *type, const struct ArrowArray *array, PyObject *owner);
PyObject *arrow_wrong(const char *what); /* raises */
int arrow_has(const struct ArrowArray *array, int64_t least, int64_t most, int64_t columns, int64_t first,
              int64_t rows);
int arrow_is_null(const struct ArrowArray *array, int64_t at);
PyObject *arrow_bits(const struct ArrowArray *array, int64_t at, int64_t rows);
int arrow_offsets(const void *offsets, int is_64, int64_t at, int64_t rows, int64_t *to, int64_t *start);
const struct ArrowArray *arrow_column_in(const struct ArrowArray *table, int64_t *first);
/* arrow_geo.c: coordinates and the offsets of their lists */
void arrow_geo_type(const struct ArrowSchema *schema, Type *type);
PyObject *arrow_geo(const Type *type, const struct ArrowArray *array);
/* arrow_out.c: what this module lends */
PyObject *arrow_export(PyObject *self, PyObject *tree);
PyObject *arrow_export_schema(PyObject *self, PyObject *tree);
PyObject *arrow_export_stream(PyObject *self, PyObject *args);
#endif
