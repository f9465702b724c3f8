/* GeoArrow's arrays: lists of lists of coordinates, whose numbers stand side by side or in a column for each axis. All of
 * it is copied: the coordinates side by side, and the offsets of each list as 64 bits from 0 on. */
#include "fast.h"

static int is(const struct ArrowSchema *schema, const char *format) {
    return schema != NULL && schema->format != NULL && strcmp(schema->format, format) == 0;
}

/* The axes of coordinates; nothing where they are something else. */
static void find_axes(const struct ArrowSchema *schema, Type *type) {
    static const char *const usual[] = {"xy", "xyz", "xyzm"};
    int64_t width = schema->n_children;
    if (schema->children == NULL) return;
    if (is(schema, "+s") && width >= 2 && width <= 4) {
        for (int64_t i = 0; i < width; i++) {
            const struct ArrowSchema *one = schema->children[i];
            if (!is(one, "g") || one->name == NULL || strlen(one->name) != 1) return;
        }
        type->separated = 1;
        for (int64_t i = 0; i < width; i++) type->axes[i] = schema->children[i]->name[0];
    } else if (width == 1 && is(schema->children[0], "g") && schema->format != NULL &&
               (is(schema, "+w:2") || is(schema, "+w:3") || is(schema, "+w:4"))) {
        const char *name = schema->children[0]->name;
        width = schema->format[3] - '0';
        /* Of three numbers the name says whether the third is z or m. */
        strcpy(type->axes, name != NULL && width == 3 && strcmp(name, "xym") == 0 ? name : usual[width - 2]);
    }
}

void arrow_geo_type(const struct ArrowSchema *schema, Type *type) {
    while (type->lists < 3 && (is(schema, "+l") || is(schema, "+L")) && schema->n_children == 1 &&
           schema->children != NULL) {
        type->large |= is(schema, "+L") << type->lists++;
        schema = schema->children[0];
    }
    if (schema != NULL) find_axes(schema, type);
}

static int has_nulls(const struct ArrowArray *array, int64_t first, int64_t rows) {
    for (int64_t i = 0; i < rows; i++)
        if (arrow_is_null(array, array->offset + first + i)) return 1;
    return 0;
}

/* One axis of coordinates: the number of row i to to[width * i]. Where a row is null its number may be too. */
static int copy_numbers(const struct ArrowArray *numbers, int64_t first, int64_t rows, int64_t step, int64_t width,
                        const struct ArrowArray *nulls, int64_t null_row, char *to) {
    if (rows > 0 && numbers->buffers[1] == NULL) return arrow_wrong("it has rows and no numbers"), -1;
    for (int64_t i = 0; i < rows; i++) {
        int64_t at = numbers->offset + first + step * i;
        if (arrow_is_null(numbers, at) && (nulls == NULL || !arrow_is_null(nulls, null_row + i)))
            return arrow_wrong("a number is null"), -1;
        memcpy(to + 8 * width * i, (const char *)numbers->buffers[1] + 8 * at, 8);
    }
    return 0;
}

static PyObject *coordinates(const Type *type, const struct ArrowArray *array, int64_t first, int64_t rows) {
    int64_t width = (int64_t)strlen(type->axes), at;
    const struct ArrowArray *nulls = type->lists == 0 ? array : NULL;
    PyObject *made;
    char *to;
    if (!arrow_has(array, 1, 1, type->separated ? width : 1, first, rows)) return NULL;
    if (type->lists > 0 && has_nulls(array, first, rows)) return arrow_wrong("a part of a geometry is null");
    at = array->offset + first;
    if (!type->separated && !arrow_has(array->children[0], 2, 2, 0, width * at, width * rows)) return NULL;
    for (int64_t i = 0; type->separated && i < width; i++)
        if (!arrow_has(array->children[i], 2, 2, 0, at, rows)) return NULL;
    if ((made = PyBytes_FromStringAndSize(NULL, (Py_ssize_t)(8 * width * rows))) == NULL) return NULL;
    to = PyBytes_AsString(made);
    for (int64_t i = 0; i < width; i++)
        if ((type->separated
                 ? copy_numbers(array->children[i], at, rows, 1, width, nulls, at, to + 8 * i)
                 : copy_numbers(array->children[0], width * at + i, rows, width, width, nulls, at, to + 8 * i)) < 0)
            return Py_DECREF(made), NULL;
    return made;
}

/* The offsets of a list; *first and *rows become those of what is in it. is_part: the list is in another. */
static PyObject *list_offsets(const struct ArrowArray *array, int is_part, int is_64, int64_t *first, int64_t *rows) {
    PyObject *made;
    int64_t *to, start;
    if (!arrow_has(array, 2, 2, 1, *first, *rows)) return NULL;
    if (is_part && has_nulls(array, *first, *rows)) return arrow_wrong("a part of a geometry is null");
    if (*rows > 0 && array->buffers[1] == NULL) return arrow_wrong("it has rows and no offsets");
    if ((made = PyBytes_FromStringAndSize(NULL, (Py_ssize_t)(8 * (*rows + 1)))) == NULL) return NULL;
    to = (int64_t *)PyBytes_AsString(made);
    if (arrow_offsets(array->buffers[1], is_64, array->offset + *first, *rows, to, &start) < 0) {
        Py_DECREF(made);
        return arrow_wrong("its offsets aren't in order");
    }
    *first = start, *rows = to[*rows];
    return made;
}

/* (bits, rows, doubles, offsets of each list); of lists of something else (bits, rows, None, ()) */
PyObject *arrow_geo(const Type *type, const struct ArrowArray *array) {
    int lists = type->axes[0] ? type->lists : 0;
    int64_t first = 0, rows = array->length, all = rows;
    PyObject *bits, *offsets, *numbers = NULL;
    if (!type->axes[0] && type->lists == 0) return Py_BuildValue("yLO()", "", 0LL, Py_None);
    if (type->nested && (array = arrow_column_in(array, &first)) == NULL) return NULL;
    if (!arrow_has(array, 1, 2, array->n_children, first, rows)) return NULL;
    if ((bits = arrow_bits(array, array->offset + first, rows)) == NULL) return NULL;
    if ((offsets = PyTuple_New(lists)) == NULL) goto failed;
    for (int i = 0; i < lists; i++) {
        PyObject *made = list_offsets(array, i > 0, type->large >> i & 1, &first, &rows);
        if (made == NULL || PyTuple_SetItem(offsets, i, made) < 0) goto failed;
        array = array->children[0];
    }
    numbers = type->axes[0] ? coordinates(type, array, first, rows) : Py_NewRef(Py_None);
    if (numbers != NULL) return Py_BuildValue("NLNN", bits, (long long)all, numbers, offsets);
failed:
    Py_DECREF(bits);
    Py_XDECREF(offsets);
    return NULL;
}
