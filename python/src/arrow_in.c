/* Arrow columns that others lend, by their capsules. An array is moved out of its capsule, and is released once nothing
 * of it is used any more. What a producer says of its sizes is checked as far as the interface says it. */
#include "fast.h"
#include <errno.h>

static const char *const array_name = "wkt.array", *const stream_name = "wkt.stream";

END_OF_CAPSULE(free_array, ArrowArray, array_name)

/* A capsule that owns an array, which is still empty. */
static PyObject *new_array(struct ArrowArray **array) {
    PyObject *owner;
    if ((*array = calloc(1, sizeof **array)) == NULL) return PyErr_NoMemory();
    if ((owner = PyCapsule_New(*array, array_name, free_array)) == NULL) free(*array);
    return owner;
}

/* How long the metadata of a type is: a count of pairs, and of each key and value its length and its bytes. */
static int metadata_length(const char *metadata, Py_ssize_t *length) {
    int32_t pairs, size;
    const char *at = metadata;
    *length = 0;
    if (metadata == NULL) return 0;
    memcpy(&pairs, at, sizeof pairs);
    at += sizeof pairs;
    for (int64_t i = 0; i < 2 * (int64_t)pairs; i++) {
        memcpy(&size, at, sizeof size);
        if (size < 0) pairs = -1;
        if (pairs < 0) break;
        at += sizeof size + (size_t)size;
    }
    if (pairs < 0) {
        PyErr_SetString(PyExc_ValueError, "the metadata of an Arrow column has a size below 0");
        return -1;
    }
    *length = at - metadata;
    return 0;
}

static const char *format_of(const struct ArrowSchema *schema) {
    return schema == NULL || schema->format == NULL ? "no format" : schema->format;
}

static int is_of_texts(const struct ArrowSchema *schema) {
    static const char *const formats[] = {"u", "U", "z", "Z", "vu", "vz"};
    for (size_t i = 0; i < sizeof formats / sizeof *formats; i++)
        if (strcmp(format_of(schema), formats[i]) == 0) return schema->n_children == 0 && schema->dictionary == NULL;
    return 0;
}

/* The size of an integer type; 0 of another. */
static int size_of(const struct ArrowSchema *schema, int *is_signed) {
    static const char kinds[] = "cCsSiIlL";
    const char *format = format_of(schema), *found = strlen(format) == 1 ? strchr(kinds, format[0]) : NULL;
    *is_signed = found != NULL && (found - kinds) % 2 == 0;
    return found == NULL ? 0 : 1 << (found - kinds) / 2;
}

/* Whether texts are what a column is of. */
static int texts_type(const struct ArrowSchema *schema, Type *type) {
    int is_signed;
    if (strcmp(format_of(schema), "+r") == 0) {
        if (schema->n_children != 2 || schema->children == NULL) return 0;
        type->runs = size_of(schema->children[0], &is_signed);
        if (type->runs < 2 || !is_signed) return 0;
        schema = schema->children[1];
    }
    type->texts = schema;
    if (!type->runs && strcmp(format_of(schema), "n") == 0)
        return schema->n_children == 0 && schema->dictionary == NULL;
    if (schema != NULL && schema->dictionary != NULL) {
        type->texts = schema->dictionary;
        if ((type->index = size_of(schema, &type->is_signed)) == 0) return 0;
    }
    return is_of_texts(type->texts);
}

/* The type of a column, which may stand alone in a table; *column: that column. */
static int type_of(const struct ArrowSchema *schema, int is_geo, Type *type, const struct ArrowSchema **column) {
    *type = (Type){.is_geo = is_geo};
    if (strcmp(format_of(schema), "+s") == 0 && (!is_geo || schema->n_children == 1)) {
        if (schema->n_children != 1 || schema->children == NULL || schema->children[0] == NULL) {
            PyErr_Format(PyExc_TypeError, "an Arrow table of %lld columns: take the one that has the texts",
                         (long long)schema->n_children);
            return -1;
        }
        type->nested = 1, schema = schema->children[0];
    }
    *column = schema;
    if (is_geo) {
        arrow_geo_type(schema, type);
    } else if (!texts_type(schema, type)) {
        PyErr_Format(PyExc_TypeError,
                     "an Arrow column of texts is of utf8, large_utf8, string_view, binary, or a dictionary or runs of "
                     "these, and not of %.100s; keys takes GeoArrow",
                     format_of(schema));
        return -1;
    }
    return 0;
}

/* What Python is told of a type: whether its texts are chosen by indices, or its lists and axes; and its metadata. */
static PyObject *described(const struct ArrowSchema *schema, int is_geo, Type *type) {
    const struct ArrowSchema *column;
    Py_ssize_t length;
    const char *metadata;
    if (schema->release == NULL) {
        PyErr_SetString(PyExc_ValueError, "the Arrow column is released already");
        return NULL;
    }
    if (type_of(schema, is_geo, type, &column) < 0 || metadata_length(column->metadata, &length) < 0) return NULL;
    metadata = column->metadata == NULL ? "" : column->metadata;
    if (is_geo) return Py_BuildValue("isy#", type->lists, type->axes, metadata, length);
    return Py_BuildValue("iy#", type->runs != 0 || type->index != 0, metadata, length);
}

/* What arrow_next gives of an array. */
static PyObject *parts_of(PyObject *module, const Type *type, const struct ArrowArray *array, PyObject *owner) {
    return type->is_geo ? arrow_geo(type, array) : arrow_texts(module, type, array, owner);
}

PyObject *arrow_array(PyObject *self, PyObject *args) {
    PyObject *one, *other, *owner, *about, *texts = NULL;
    struct ArrowSchema *schema;
    struct ArrowArray *array, *mine;
    int is_geo = 0;
    Type type;
    if (!PyArg_ParseTuple(args, "OO|p", &one, &other, &is_geo)) return NULL;
    if ((schema = PyCapsule_GetPointer(one, "arrow_schema")) == NULL) return NULL;
    if ((array = PyCapsule_GetPointer(other, "arrow_array")) == NULL) return NULL;
    if ((about = described(schema, is_geo, &type)) == NULL) return NULL;
    if (array->release == NULL) {
        PyErr_SetString(PyExc_ValueError, "the Arrow column is released already");
    } else if ((owner = new_array(&mine)) != NULL) {
        *mine = *array;
        array->release = NULL;
        texts = parts_of(self, &type, mine, owner);
        Py_DECREF(owner);
    }
    if (texts == NULL) {
        Py_DECREF(about);
        return NULL;
    }
    return Py_BuildValue("NN", about, texts);
}

typedef struct {
    struct ArrowArrayStream stream;
    struct ArrowSchema schema;
    Type type;
} Stream;

static void free_stream(PyObject *capsule) {
    Aside raised = set_aside();
    Stream *stream = PyCapsule_GetPointer(capsule, stream_name);
    if (stream->schema.release != NULL) stream->schema.release(&stream->schema);
    if (stream->stream.release != NULL) stream->stream.release(&stream->stream);
    free(stream);
    raise_again(raised);
}

/* The error of a producer: its number, and its words where it has some. */
static void say(struct ArrowArrayStream *stream, int error) {
    Aside raised = set_aside();
    const char *words = stream->get_last_error(stream);
    PyObject *value;
    raise_again(raised);
    if (error == ENOMEM) {
        PyErr_NoMemory();
        return;
    }
    value = Py_BuildValue("iN", error,
                          PyUnicode_FromFormat("the Arrow stream: %s", words == NULL ? strerror(error) : words));
    if (value != NULL) PyErr_SetObject(PyExc_OSError, value);
    Py_XDECREF(value);
}

PyObject *arrow_stream(PyObject *self, PyObject *args) {
    struct ArrowArrayStream *given;
    PyObject *capsule, *owner, *about = NULL;
    Stream *mine;
    Aside raised;
    int error, is_geo = 0;
    (void)self;
    if (!PyArg_ParseTuple(args, "O|p", &capsule, &is_geo)) return NULL;
    if ((given = PyCapsule_GetPointer(capsule, "arrow_array_stream")) == NULL) return NULL;
    if (given->release == NULL) {
        PyErr_SetString(PyExc_ValueError, "the Arrow stream is released already");
        return NULL;
    }
    if ((mine = calloc(1, sizeof *mine)) == NULL) return PyErr_NoMemory();
    if ((owner = PyCapsule_New(mine, stream_name, free_stream)) == NULL) {
        free(mine);
        return NULL;
    }
    mine->stream = *given;
    given->release = NULL;
    raised = set_aside();
    Py_BEGIN_ALLOW_THREADS
    error = mine->stream.get_schema(&mine->stream, &mine->schema);
    Py_END_ALLOW_THREADS
    raise_again(raised);
    if (error != 0) {
        mine->schema.release = NULL;
        say(&mine->stream, error);
    } else {
        about = described(&mine->schema, is_geo, &mine->type);
    }
    if (about == NULL) {
        Py_DECREF(owner);
        return NULL;
    }
    return Py_BuildValue("NN", owner, about);
}

PyObject *arrow_next(PyObject *self, PyObject *capsule) {
    Stream *stream = PyCapsule_GetPointer(capsule, stream_name);
    struct ArrowArray *array;
    PyObject *owner, *texts = NULL;
    Aside raised;
    int error;
    if (stream == NULL || (owner = new_array(&array)) == NULL) return NULL;
    raised = set_aside();
    Py_BEGIN_ALLOW_THREADS
    error = stream->stream.get_next(&stream->stream, array);
    Py_END_ALLOW_THREADS
    raise_again(raised);
    if (error != 0) {
        array->release = NULL;
        say(&stream->stream, error);
    } else if (array->release == NULL) { /* the end */
        texts = Py_None;
        Py_INCREF(texts);
    } else {
        texts = parts_of(self, &stream->type, array, owner);
    }
    Py_DECREF(owner);
    return texts;
}
