/* arrow_peer: the other side of Arrow's C interfaces, for the tests: a producer of columns, right and spoiled, and a
 * consumer. All that it lends is allocated to its exact size, so that AddressSanitizer sees a byte that is read past it.
 *
 *   array(format, rows, first, spoil, metadata) -> (schema, array)     rows: a list of bytes and None; format: one of Arrow,
 *   stream(format, chunks, first, spoil, metadata) -> stream           `+s` before it for a table, `X:` for a dictionary
 *   take(schema, array) -> what was lent, released; take_stream(stream) -> a list of these; drain(stream) -> its rows, counted
 *   keep(schema, array, when)    keeps them to the end: 0 until the exit of the process, 1 until that of Python
 *   live() -> how many structures of this producer are not released */
#define PY_SSIZE_T_CLEAN
#include "../src/arrow.h"
#include <errno.h>
#include <stdlib.h>
#include <string.h>

static int alive;

/* What a structure holds. */
typedef struct {
    void *held[64];
    int count;
    struct ArrowSchema child_schema, dictionary_schema, *children_schema[1];
    struct ArrowArray child, dictionary, *children[1];
} Part;

static void *keep_in(Part *part, size_t size) {
    void *made = malloc(size ? size : 1);
    if (made == NULL || part->count == 64) abort();
    return part->held[part->count++] = made;
}
static void free_part(Part *part) {
    while (part->count > 0) free(part->held[--part->count]);
    free(part);
    alive--;
}
static void release_schema(struct ArrowSchema *schema) {
    schema->release = NULL;
    if (schema->private_data != NULL) free_part(schema->private_data);
}
static void release_array(struct ArrowArray *array) {
    array->release = NULL;
    if (array->private_data != NULL) free_part(array->private_data);
}

static int is(const char *spoil, const char *what) { return strcmp(spoil, what) == 0; }

static void *copied(Part *part, const void *from, size_t size) {
    void *to = keep_in(part, size);
    if (size) memcpy(to, from, size);
    return to;
}

/* The validity bits of rows; NULL where none is null. */
static const void *bits_of(Part *part, PyObject *rows, int64_t *nulls) {
    Py_ssize_t count = PyList_Size(rows);
    uint8_t *bits = keep_in(part, (size_t)(count + 7) / 8);
    memset(bits, 0, (size_t)(count + 7) / 8);
    *nulls = 0;
    for (Py_ssize_t i = 0; i < count; i++) {
        if (PyList_GetItem(rows, i) == Py_None)
            ++*nulls;
        else
            bits[i / 8] |= (uint8_t)(1 << i % 8);
    }
    return *nulls ? bits : NULL;
}

static Py_ssize_t length_of(PyObject *rows, Py_ssize_t i) {
    PyObject *row = PyList_GetItem(rows, i);
    return row == Py_None ? 0 : PyBytes_Size(row);
}

static void plain_buffers(Part *part, PyObject *rows, int is_64, const void **buffers) {
    Py_ssize_t count = PyList_Size(rows), total = 0, at = 0;
    char *data, *offsets = keep_in(part, (size_t)(count + 1) * (is_64 ? 8 : 4));
    for (Py_ssize_t i = 0; i < count; i++) total += length_of(rows, i);
    data = keep_in(part, (size_t)total);
    for (Py_ssize_t i = 0; i <= count; i++) {
        int64_t wide = at;
        int32_t narrow = (int32_t)at;
        if (is_64)
            memcpy(offsets + 8 * i, &wide, 8);
        else
            memcpy(offsets + 4 * i, &narrow, 4);
        if (i == count || length_of(rows, i) == 0) continue;
        memcpy(data + at, PyBytes_AsString(PyList_GetItem(rows, i)), (size_t)length_of(rows, i));
        at += length_of(rows, i);
    }
    buffers[1] = offsets, buffers[2] = data;
}

/* Views: texts of up to 12 bytes in place, the others in two buffers in turn. Returns how many buffers there are. */
static int view_buffers(Part *part, PyObject *rows, const char *spoil, const void **buffers) {
    Py_ssize_t count = PyList_Size(rows);
    int64_t sizes[2] = {0, 0};
    char *views = keep_in(part, (size_t)count * 16), *data[2];
    for (Py_ssize_t i = 0; i < count; i++)
        if (length_of(rows, i) > 12) sizes[i % 2] += length_of(rows, i);
    data[0] = keep_in(part, (size_t)sizes[0]), data[1] = keep_in(part, (size_t)sizes[1]);
    sizes[0] = sizes[1] = 0;
    memset(views, 0, (size_t)count * 16);
    for (Py_ssize_t i = 0; i < count; i++) {
        int32_t view[4] = {(int32_t)length_of(rows, i), 0, (int32_t)(i % 2), (int32_t)sizes[i % 2]};
        const char *text = view[0] ? PyBytes_AsString(PyList_GetItem(rows, i)) : "";
        if (view[0] <= 12) {
            memcpy(views + 16 * i, view, 4);
            memcpy(views + 16 * i + 4, text, (size_t)view[0]);
            continue;
        }
        memcpy(data[i % 2] + view[3], text, (size_t)view[0]);
        sizes[i % 2] += view[0];
        if (is(spoil, "view_buffer")) view[2] = 2;
        if (is(spoil, "view_below")) view[2] = -1;
        if (is(spoil, "view_start")) view[3] = -1;
        if (is(spoil, "view_end")) view[0] = 1000000;
        memcpy(views + 16 * i, view, 16);
    }
    buffers[1] = views, buffers[2] = data[0], buffers[3] = data[1];
    buffers[4] = copied(part, sizes, sizeof sizes);
    if (is(spoil, "view_null")) buffers[2] = buffers[3] = NULL;
    if (is(spoil, "view_sizes")) buffers[4] = NULL;
    return 5;
}

/* An array of texts of a format. */
static void texts(Part *part, PyObject *rows, const char *format, const char *spoil, struct ArrowArray *array) {
    const void **buffers = keep_in(part, 5 * sizeof *buffers);
    array->length = PyList_Size(rows);
    array->buffers = buffers;
    buffers[0] = bits_of(part, rows, &array->null_count);
    array->n_buffers = 3;
    if (format[0] == 'v')
        array->n_buffers = view_buffers(part, rows, spoil, buffers);
    else
        plain_buffers(part, rows, format[0] == 'U' || format[0] == 'Z', buffers);
}

/* A dictionary of the rows, each at its own index. */
static void dictionary(Part *part, PyObject *rows, char index, const char *format, const char *spoil,
                       struct ArrowArray *array) {
    static const char indices[] = "cCsSiIlL";
    const char *known = strchr(indices, index);
    int size = known == NULL ? 4 : 1 << (known - indices) / 2;
    const void **buffers = keep_in(part, 2 * sizeof *buffers);
    char *at = keep_in(part, (size_t)PyList_Size(rows) * (size_t)size);
    array->length = PyList_Size(rows);
    buffers[0] = bits_of(part, rows, &array->null_count);
    for (int64_t i = 0; i < array->length; i++) {
        int64_t value = array->length - 1 - i;
        if (is(spoil, "index")) value = array->length;
        if (is(spoil, "index_below")) value = -1;
        memcpy(at + size * i, &value, (size_t)size);
    }
    buffers[1] = at;
    array->buffers = buffers, array->n_buffers = 2;
    PyObject *turned = PySequence_List(rows);
    if (turned == NULL || PyList_Reverse(turned) < 0) abort();
    texts(part, turned, format, "", &part->dictionary);
    Py_DECREF(turned);
    part->dictionary.release = release_array;
    array->dictionary = is(spoil, "dictionary") ? NULL : &part->dictionary;
}

static void spoil_array(struct ArrowArray *array, Part *part, const char *spoil) {
    const void **buffers = array->buffers;
    int32_t *offsets = (int32_t *)buffers[1];
    if (is(spoil, "length")) array->length = -1;
    if (is(spoil, "long")) array->length = INT64_MAX;
    if (is(spoil, "offset")) array->offset = -1;
    if (is(spoil, "far")) array->offset = INT64_MAX;
    if (is(spoil, "buffers")) array->n_buffers = 2;
    if (is(spoil, "no_buffers")) array->buffers = NULL;
    if (is(spoil, "columns")) array->n_children = 1;
    if (is(spoil, "nulls")) array->null_count = array->length + 1;
    if (is(spoil, "nulls_below")) array->null_count = -2;
    if (is(spoil, "no_bits")) array->null_count = 1, buffers[0] = NULL;
    if (is(spoil, "unknown_nulls")) array->null_count = -1;
    if (is(spoil, "no_offsets")) buffers[1] = NULL;
    if (is(spoil, "no_bytes")) buffers[2] = NULL;
    if (is(spoil, "below")) offsets[0] = -5;
    if (is(spoil, "order")) offsets[1] = 1 << 30;
    if (is(spoil, "end")) offsets[array->length] = -1;
    if (is(spoil, "released")) array->release = NULL, free_part(part), array->private_data = NULL;
}

static void make_schema(const char *format, const char *spoil, PyObject *metadata, struct ArrowSchema *schema) {
    Part *part = calloc(1, sizeof *part);
    struct ArrowSchema *texts = schema;
    alive++;
    memset(schema, 0, sizeof *schema);
    if (strncmp(format, "+s", 2) == 0) {
        texts = part->children_schema[0] = &part->child_schema;
        schema->format = copied(part, "+s", 3);
        schema->children = part->children_schema, schema->n_children = is(spoil, "two") ? 2 : 1;
        texts->release = release_schema;
        format += 2;
    }
    if (format[0] && format[1] == ':') {
        texts->dictionary = &part->dictionary_schema;
        part->dictionary_schema.format = copied(part, format + 2, strlen(format + 2) + 1);
        part->dictionary_schema.release = release_schema;
        texts->format = copied(part, format, 2);
        ((char *)texts->format)[1] = 0;
    } else {
        texts->format = copied(part, format, strlen(format) + 1);
    }
    if (is(spoil, "no_format")) texts->format = NULL;
    texts->name = "column";
    if (PyBytes_Size(metadata))
        texts->metadata = copied(part, PyBytes_AsString(metadata), (size_t)PyBytes_Size(metadata));
    schema->release = release_schema, schema->private_data = part;
    if (is(spoil, "released_type")) schema->release = NULL, free_part(part), schema->private_data = NULL;
}

static void make_array(const char *format, PyObject *rows, int first, const char *spoil, struct ArrowArray *array) {
    Part *part = calloc(1, sizeof *part);
    struct ArrowArray *column = array;
    alive++;
    memset(array, 0, sizeof *array);
    array->release = release_array, array->private_data = part;
    if (strncmp(format, "+s", 2) == 0) {
        const void **buffers = keep_in(part, sizeof *buffers);
        column = part->children[0] = &part->child;
        column->release = release_array;
        int nulls = is(spoil, "table_nulls"), bits = nulls || is(spoil, "table_bits");
        Py_ssize_t size = (PyList_Size(rows) + 7) / 8;
        buffers[0] = bits ? memset(keep_in(part, (size_t)size), 255, (size_t)size) : NULL;
        if (nulls) ((uint8_t *)buffers[0])[(PyList_Size(rows) - 1) / 8] ^= (uint8_t)(1 << (PyList_Size(rows) - 1) % 8);
        array->null_count = bits ? -1 : 0;
        array->buffers = buffers, array->n_buffers = 1, array->n_children = is(spoil, "no_column") ? 0 : 1;
        array->children = part->children;
        format += 2;
    }
    if (format[0] && format[1] == ':')
        dictionary(part, rows, format[0], format + 2, spoil, column);
    else
        texts(part, rows, format, spoil, column);
    if (column != array) {
        array->length = column->length - first;
        array->offset = first;
        if (is(spoil, "short")) array->length++;
    } else {
        column->length -= first;
        column->offset = first;
        if (first && column->null_count) column->null_count = -1;
    }
    spoil_array(column, part, spoil);
}

static void end_schema(PyObject *capsule) {
    struct ArrowSchema *schema = PyCapsule_GetPointer(capsule, "arrow_schema");
    if (schema->release != NULL) schema->release(schema);
    free(schema);
}
static void end_array(PyObject *capsule) {
    struct ArrowArray *array = PyCapsule_GetPointer(capsule, "arrow_array");
    if (array->release != NULL) array->release(array);
    free(array);
}

static PyObject *lend_array(PyObject *self, PyObject *args) {
    const char *format, *spoil;
    PyObject *rows, *metadata;
    int first;
    struct ArrowSchema *schema;
    struct ArrowArray *array;
    (void)self;
    if (!PyArg_ParseTuple(args, "sOisO", &format, &rows, &first, &spoil, &metadata)) return NULL;
    schema = malloc(sizeof *schema), array = malloc(sizeof *array);
    make_schema(format, spoil, metadata, schema);
    make_array(format, rows, first, spoil, array);
    return Py_BuildValue("NN", PyCapsule_New(schema, "arrow_schema", end_schema),
                         PyCapsule_New(array, "arrow_array", end_array));
}

/* A stream lends its chunks in turn. It is called without the lock of the interpreter, and takes it. */
typedef struct {
    PyObject *format, *spoil, *chunks, *metadata;
    int first;
    Py_ssize_t next;
} Chunks;

static int give_schema(struct ArrowArrayStream *stream, struct ArrowSchema *out) {
    Chunks *all = stream->private_data;
    PyGILState_STATE state = PyGILState_Ensure();
    int fails = is(PyBytes_AsString(all->spoil), "no_type");
    if (!fails) make_schema(PyBytes_AsString(all->format), PyBytes_AsString(all->spoil), all->metadata, out);
    PyGILState_Release(state);
    return fails ? EIO : 0;
}
static int give_next(struct ArrowArrayStream *stream, struct ArrowArray *out) {
    Chunks *all = stream->private_data;
    PyGILState_STATE state = PyGILState_Ensure();
    const char *spoil = PyBytes_AsString(all->spoil);
    int error = 0;
    if (all->next == PyList_Size(all->chunks))
        memset(out, 0, sizeof *out);
    else if (is(spoil, "no_next") && all->next == 1)
        error = ENOMEM;
    else if (is(spoil, "no_words") && all->next == 1)
        error = EIO;
    else
        make_array(PyBytes_AsString(all->format), PyList_GetItem(all->chunks, all->next++), all->first, spoil, out);
    PyGILState_Release(state);
    return error;
}
static const char *give_error(struct ArrowArrayStream *stream) {
    Chunks *all = stream->private_data;
    return is(PyBytes_AsString(all->spoil), "no_words") ? NULL : "the disk is gone";
}
static void release_stream(struct ArrowArrayStream *stream) {
    Chunks *all = stream->private_data;
    PyGILState_STATE state = PyGILState_Ensure();
    Py_DECREF(all->format);
    Py_DECREF(all->spoil);
    Py_DECREF(all->chunks);
    Py_DECREF(all->metadata);
    PyGILState_Release(state);
    free(all);
    alive--;
    stream->release = NULL;
}
static void end_stream(PyObject *capsule) {
    struct ArrowArrayStream *stream = PyCapsule_GetPointer(capsule, "arrow_array_stream");
    if (stream->release != NULL) stream->release(stream);
    free(stream);
}

static PyObject *lend_stream(PyObject *self, PyObject *args) {
    struct ArrowArrayStream *stream;
    Chunks made = {0}, *all;
    (void)self;
    if (!PyArg_ParseTuple(args, "SOiSO", &made.format, &made.chunks, &made.first, &made.spoil, &made.metadata))
        return NULL;
    stream = malloc(sizeof *stream), all = malloc(sizeof *all);
    Py_INCREF(made.format);
    Py_INCREF(made.spoil);
    Py_INCREF(made.chunks);
    Py_INCREF(made.metadata);
    *all = made;
    alive++;
    *stream = (struct ArrowArrayStream){give_schema, give_next, give_error, release_stream, all};
    return PyCapsule_New(stream, "arrow_array_stream", end_stream);
}

/* What was lent: (format, name, number of pairs, flags, length, nulls, buffers, columns, and a dictionary as the last). */
static PyObject *buffer_of(const struct ArrowArray *array, int i, const char *format) {
    int64_t rows = array->offset + array->length;
    Py_ssize_t size = 0;
    if (array->buffers[i] == NULL) Py_RETURN_NONE;
    if (i == 0)
        size = (Py_ssize_t)(rows + 7) / 8;
    else if (i == 1 && format[0] == 'U')
        size = (Py_ssize_t)(8 * (rows + 1));
    else if (i == 1 && (format[0] == 'g' || format[0] == 'i'))
        size = (Py_ssize_t)((format[0] == 'g' ? 8 : 4) * rows);
    else if (i == 1)
        size = (Py_ssize_t)(4 * (rows + 1));
    else
        size = (Py_ssize_t)((const int64_t *)array->buffers[1])[rows];
    return PyBytes_FromStringAndSize(array->buffers[i], size);
}
static PyObject *seen(const struct ArrowSchema *schema, const struct ArrowArray *array) {
    PyObject *buffers = PyList_New(0), *columns = PyList_New(0);
    int32_t pairs = 0;
    if (array->n_children != schema->n_children || array->release == NULL || schema->release == NULL) abort();
    for (int i = 0; i < array->n_buffers; i++) {
        PyObject *buffer = buffer_of(array, i, schema->format);
        PyList_Append(buffers, buffer);
        Py_DECREF(buffer);
    }
    for (int i = 0; i < array->n_children; i++) {
        PyObject *column = seen(schema->children[i], array->children[i]);
        PyList_Append(columns, column);
        Py_DECREF(column);
    }
    if (array->dictionary != NULL) {
        PyObject *known = seen(schema->dictionary, array->dictionary);
        PyList_Append(columns, known);
        Py_DECREF(known);
    }
    if (schema->metadata != NULL) memcpy(&pairs, schema->metadata, sizeof pairs);
    return Py_BuildValue("ssiLLLNN", schema->format, schema->name, pairs, (long long)schema->flags,
                         (long long)array->length, (long long)array->null_count, buffers, columns);
}

static int moved(PyObject *args, struct ArrowSchema *schema, struct ArrowArray *array, int *when) {
    PyObject *one, *other;
    struct ArrowSchema *from;
    struct ArrowArray *lent;
    if (!PyArg_ParseTuple(args, "OO|i", &one, &other, when)) return -1;
    if ((from = PyCapsule_GetPointer(one, "arrow_schema")) == NULL) return -1;
    if ((lent = PyCapsule_GetPointer(other, "arrow_array")) == NULL) return -1;
    *schema = *from, *array = *lent;
    from->release = NULL, lent->release = NULL;
    return 0;
}
static PyObject *take(PyObject *self, PyObject *args) {
    struct ArrowSchema schema;
    struct ArrowArray array;
    PyObject *made;
    int when;
    (void)self;
    if (moved(args, &schema, &array, &when) < 0) return NULL;
    made = seen(&schema, &array);
    array.release(&array);
    schema.release(&schema);
    if (array.release != NULL || schema.release != NULL) abort();
    return made;
}

static PyObject *take_stream(PyObject *self, PyObject *capsule) {
    struct ArrowArrayStream *lent = PyCapsule_GetPointer(capsule, "arrow_array_stream"), stream;
    struct ArrowSchema schema;
    PyObject *made = PyList_New(0);
    int error;
    (void)self;
    if (lent == NULL) return NULL;
    stream = *lent;
    lent->release = NULL;
    error = stream.get_schema(&stream, &schema);
    while (error == 0) {
        struct ArrowArray array;
        if ((error = stream.get_next(&stream, &array)) != 0 || array.release == NULL) break;
        PyObject *one = seen(&schema, &array);
        PyList_Append(made, one);
        Py_DECREF(one);
        array.release(&array);
    }
    if (error != 0) {
        PyErr_Format(PyExc_OSError, "%d: %s", error, stream.get_last_error(&stream));
        Py_CLEAR(made);
    } else {
        schema.release(&schema);
    }
    stream.release(&stream);
    return made;
}

/* Only counts the rows of a stream, and so allocates nothing. */
static PyObject *drain(PyObject *self, PyObject *capsule) {
    struct ArrowArrayStream *lent = PyCapsule_GetPointer(capsule, "arrow_array_stream"), stream;
    struct ArrowSchema schema;
    struct ArrowArray array;
    long rows = 0;
    int error;
    (void)self;
    if (lent == NULL) return NULL;
    stream = *lent;
    lent->release = NULL;
    if ((error = stream.get_schema(&stream, &schema)) == 0) schema.release(&schema);
    while (error == 0 && (error = stream.get_next(&stream, &array)) == 0 && array.release != NULL) {
        rows += (long)array.length;
        array.release(&array);
    }
    stream.release(&stream);
    return error == ENOMEM ? PyErr_NoMemory() : PyLong_FromLong(error ? -error : rows);
}

static struct ArrowSchema last_schema;
static struct ArrowArray last_array, python_array;
__attribute__((destructor)) static void at_exit(void) {
    if (last_array.release != NULL) last_array.release(&last_array);
    if (last_schema.release != NULL) last_schema.release(&last_schema);
}
static void at_python_exit(void) {
    if (python_array.release != NULL) python_array.release(&python_array);
}
static PyObject *keep(PyObject *self, PyObject *args) {
    int when = 0;
    struct ArrowArray array;
    (void)self;
    if (moved(args, &last_schema, &array, &when) < 0) return NULL;
    if (when)
        python_array = array, Py_AtExit(at_python_exit);
    else
        last_array = array;
    Py_RETURN_NONE;
}
static PyObject *live(PyObject *self, PyObject *args) {
    (void)self, (void)args;
    return PyLong_FromLong(alive);
}

static PyMethodDef methods[] = {{"array", lend_array, METH_VARARGS, NULL},
                                {"stream", lend_stream, METH_VARARGS, NULL},
                                {"take", take, METH_VARARGS, NULL},
                                {"take_stream", take_stream, METH_O, NULL},
                                {"drain", drain, METH_O, NULL},
                                {"keep", keep, METH_VARARGS, NULL},
                                {"live", live, METH_NOARGS, NULL},
                                {NULL, NULL, 0, NULL}};
static struct PyModuleDef module = {PyModuleDef_HEAD_INIT, "arrow_peer", NULL, -1, methods, NULL, NULL, NULL, NULL};
PyMODINIT_FUNC PyInit_arrow_peer(void) { return PyModule_Create(&module); }
