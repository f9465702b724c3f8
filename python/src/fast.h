/* What the files of wkt._fast share: the state of the module, rows of columns, and memory that is lent to Python. */
#ifndef WKT_FAST_H
#define WKT_FAST_H
#include "arrow.h"
#include "wkt.h"
#include <stdlib.h>
#include <string.h>

/* What the package binds: the functions of libwkt, as wkt.h has them, and functions of its own. */
typedef struct {
    __typeof__(&wkt_canonical) canonical;
    __typeof__(&wkt_same) same;
    __typeof__(&wkt_infer) infer;
    __typeof__(&wkt_explain) explain;
    __typeof__(&wkt_hint) hint;
    __typeof__(&wkt_arrays) arrays;
    __typeof__(&wkt_from_arrays) from_arrays;
    __typeof__(&wkt_lines) lines;
    __typeof__(&wkt_srid) srid;
    __typeof__(&wkt_read_events) read_events;
    PyObject *places_of;     /* (places, whole) -> an int, or an error */
    PyObject *text_of;       /* (row, number) -> bytes, None of a null row, or a TypeError */
    PyObject *refuse;        /* (status, text, places, number): raises */
    PyObject *refuse_two;    /* (status, one, other, places, number): raises */
    PyObject *refuse_header; /* (status, number): raises */
    PyObject *explanation;   /* (row, places, status, message, start, stop, expected) -> Explanation or None */
    PyObject *array_of;      /* (code, buffer) -> an array over its items */
    PyObject *one_text;      /* (arrays, places, number) -> the text of what isn't as mostly */
    PyObject *Arrays, *Events, *KINDS, *DIMENSIONS;
    PyObject *headers[7][4]; /* (kind, dimension) */
    PyTypeObject *lent_type, *cells_type;
} State;

static inline State *state_of(PyObject *module) { return PyModule_GetState(module); }

/* A text. It is NULL of a null row. */
typedef struct {
    const char *text;
    Py_ssize_t length;
} Cell;

/* A column, block by block: as many rows as have about a megabyte, of a list or a tuple up to the first long one; or of
 * Arrow's buffers. */
typedef struct {
    State *state;
    PyObject *rows;   /* of nobody else, so that they stay as they are */
    PyObject *other;  /* the rows of a second column, which is walked beside it, or NULL */
    PyObject *report; /* is called with the rows that are done; or None */
    PyObject *held;   /* bytes of rows of the block that are neither str nor bytes */
    PyObject *null;   /* the last null row that Python knew */
    Py_buffer data, offsets, bits;
    Py_ssize_t count, first, last; /* all rows; the block */
    Py_ssize_t unsaid;             /* bytes since `report` was called */
    size_t bytes;                  /* all of buffers */
    const Cell *its;               /* all texts, where they stand in several places, and `rows` holds them */
    Cell *cells, *others;          /* of rows; buffers need none */
    uint32_t *statuses;
} Walk;

/* What a call asks of each row: its places with their bits, and 0 "raise" or 1 "null". */
typedef struct {
    uint32_t places;
    long invalid;
} Asked;

int walk_rows(Walk *walk, State *state, PyObject *rows, PyObject *other, PyObject *report);
int walk_buffers(Walk *walk, State *state, PyObject *packed, PyObject *report);
int walk_next(Walk *walk);                      /* 1: there is a block; 0: the end; -1: an error */
Cell walk_cell(const Walk *walk, Py_ssize_t i); /* row i of the block, without the interpreter */
void walk_end(Walk *walk);
PyObject *row_at(PyObject *rows, Py_ssize_t i); /* borrowed */
/* The text of one value, which is no row. *held: bytes that hold it, or NULL. */
int text_in(State *state, PyObject *text, Cell *cell, PyObject **held);
/* What a call is asked behind so many texts: places and whole, which the package hasn't looked at; or its places alone, with
 * their bits. */
int places_in(State *state, PyObject *const *args, Py_ssize_t texts, Py_ssize_t count, uint32_t *to);
int has_count(Py_ssize_t count, Py_ssize_t wanted);
PyObject *refused(State *state, uint32_t status, PyObject *text, uint32_t places, Py_ssize_t row);

/* Memory that grows, of items of some bytes. It is taken without the interpreter. */
typedef struct {
    void *items;
    size_t size, used, room;
} Room;
int room_holds(Room *room, size_t more);
int room_is(Room *room, size_t wanted); /* so many items, which are no fewer than are used, and not 0 */
/* A buffer that keeps its owner, or, with none, memory of realloc, which it frees. */
PyObject *lent(State *state, const void *data, Py_ssize_t length, PyObject *owner);
PyObject *lent_room(State *state, Room *room, int writable);

/* Texts that stand in several places, in memory of malloc, which it frees; owner: what they are of. */
PyObject *lent_cells(State *state, Cell *cells, Py_ssize_t count, PyObject *owner);
/* The texts of such an object, and how many bytes all have; NULL of another, with no error. There is one at least. */
const Cell *cells_of(State *state, PyObject *from, Py_ssize_t *count, size_t *bytes);

/* Answers are as large as the text, mostly. */
enum { MORE_ROOM = 80 };
wkt_status answer(State *state, const Cell *cell, uint32_t places, Room *out, size_t *end);
wkt_status status_of(State *state, const Cell *cell, uint32_t places);
wkt_status compared(State *state, const Cell *one, const Cell *other, uint32_t places, uint32_t *same);
/* A list of what each row gives, and None of a null one. */
typedef PyObject *RowAnswer(Walk *walk, Py_ssize_t i, const Asked *asked);
PyObject *each_row(State *state, PyObject *rows, PyObject *report, RowAnswer *answer_of, const Asked *asked);
/* Where and why a text is refused. */
typedef struct {
    wkt_status status;
    uint32_t message, expected;
    size_t start, stop;
} Why;
Why why_of(State *state, const Cell *cell, uint32_t places);
/* From where on other threads run during a call for one text, and a row of a list is answered by itself. */
enum { LONG_TEXT = 4096, LONG_ROW = 512, MOST_PLACES = 36 };
/* What a block has at most, but for its last row. Signals are handled between blocks. */
enum { MOST_ROWS = 1 << 15, MOST_BYTES = 1 << 20 };

PyObject *fast_canonical(PyObject *self, PyObject *const *args, Py_ssize_t count);
PyObject *fast_front(PyObject *self, PyObject *const *args, Py_ssize_t count);
PyObject *fast_reads(PyObject *self, PyObject *const *args, Py_ssize_t count);
PyObject *fast_same(PyObject *self, PyObject *const *args, Py_ssize_t count);
PyObject *fast_infer(PyObject *self, PyObject *text);
PyObject *fast_explain(PyObject *self, PyObject *const *args, Py_ssize_t count);
PyObject *fast_lines(PyObject *self, PyObject *const *args, Py_ssize_t count);
PyObject *fast_hint(PyObject *self, PyObject *const *args, Py_ssize_t count);
PyObject *fast_canonical_rows(PyObject *self, PyObject *const *args, Py_ssize_t count);
PyObject *fast_statuses(PyObject *self, PyObject *const *args, Py_ssize_t count);
PyObject *fast_explain_rows(PyObject *self, PyObject *const *args, Py_ssize_t count);
PyObject *fast_same_rows(PyObject *self, PyObject *const *args, Py_ssize_t count);
PyObject *fast_infer_rows(PyObject *self, PyObject *const *args, Py_ssize_t count);
PyObject *fast_lines_rows(PyObject *self, PyObject *const *args, Py_ssize_t count);
PyObject *fast_canonical_buffers(PyObject *self, PyObject *const *args, Py_ssize_t count);
PyObject *fast_keys(PyObject *self, PyObject *const *args, Py_ssize_t count);
PyObject *fast_arrays(PyObject *self, PyObject *const *args, Py_ssize_t count);
PyObject *fast_arrays_rows(PyObject *self, PyObject *const *args, Py_ssize_t count);
PyObject *fast_arrays_list(PyObject *self, PyObject *const *args, Py_ssize_t count);
PyObject *fast_from_arrays_rows(PyObject *self, PyObject *const *args, Py_ssize_t count);
PyObject *fast_from_arrays_column(PyObject *self, PyObject *const *args, Py_ssize_t count);
PyObject *fast_events(PyObject *self, PyObject *const *args, Py_ssize_t count);
PyObject *fast_events_rows(PyObject *self, PyObject *const *args, Py_ssize_t count);
PyObject *fast_srid(PyObject *self, PyObject *text);
PyObject *fast_srid_rows(PyObject *self, PyObject *rows);
#endif
