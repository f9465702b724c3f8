/* Canonical texts of which each is kept once, as the dictionary of an Arrow column has it. */
#include "fast.h"

/* The texts that are kept, in a table by their hashes: a slot has a part of the hash, and the number of a text from 1 on.
 * A long text stands at the hash of its ends, and where another with such ends is there already, at that of all of it:
 * so of most only the ends are read. The hashes have a key that nobody knows, so that no one makes texts of one hash. */
typedef struct {
    uint32_t part, number;
} Slot;
typedef struct {
    uint64_t key[2];
    size_t mask;
    Slot *slots;
    Room data, ends, statuses, numbers, block;
} Kept;
/* A text of a block that was answered, and isn't kept yet. */
typedef struct {
    size_t end;
    uint64_t hash;
} Answered;
enum { END = 64, AHEAD = 16 }; /* the bytes of an end; so many slots are on their way from memory */

static uint64_t folded(uint64_t one, uint64_t other) {
    unsigned __int128 made = (unsigned __int128)one * other;
    return (uint64_t)made ^ (uint64_t)(made >> 64);
}

static uint64_t hash_of(const Kept *kept, uint64_t hash, const char *text, size_t length) {
    uint64_t word = 0;
    for (; length >= 8; text += 8, length -= 8) {
        memcpy(&word, text, 8);
        hash = folded(hash ^ word, kept->key[1]);
    }
    word = 0;
    memcpy(&word, text, length);
    return folded(hash ^ word, kept->key[1]);
}

static int is_text(const Kept *kept, uint32_t number, Cell cell) {
    const int64_t *ends = (const int64_t *)kept->ends.items + number;
    return ends[0] - ends[-1] == cell.length &&
           memcmp((const char *)kept->data.items + ends[-1], cell.text, (size_t)cell.length) == 0;
}

/* The slot of a text by one of its hashes: that which has it, or which is free; or, where `stops`, which has another with
 * the same part. */
static Slot *slot_of(const Kept *kept, Cell cell, uint64_t hash, int stops) {
    uint32_t part = (uint32_t)(hash >> 32);
    size_t at = hash & kept->mask;
    for (; kept->slots[at].number != 0; at = (at + 1) & kept->mask)
        if (kept->slots[at].part == part && (stops || is_text(kept, kept->slots[at].number, cell))) break;
    return &kept->slots[at];
}

static int is_long(size_t length) { return length > 2 * END; }

/* The hash by which a text is looked for first. */
static uint64_t first_hash(const Kept *kept, const char *text, size_t length) {
    uint64_t hash = hash_of(kept, kept->key[0] ^ length, text, is_long(length) ? END : length);
    return is_long(length) ? hash_of(kept, hash, text + length - END, END) : hash;
}

/* The number of a text that stands behind those that are kept: a new one is kept, right behind them. */
static int32_t number_of(Kept *kept, Cell cell, uint64_t hash) {
    size_t length = (size_t)cell.length;
    Slot *slot = slot_of(kept, cell, hash, is_long(length));
    if (is_long(length) && slot->number != 0 && !is_text(kept, slot->number, cell)) {
        hash = hash_of(kept, ~kept->key[0] ^ length, cell.text, length);
        slot = slot_of(kept, cell, hash, 0);
    }
    if (slot->number == 0) {
        char *to = (char *)kept->data.items + kept->data.used;
        if (to != cell.text) memmove(to, cell.text, length);
        kept->data.used += length;
        *slot = (Slot){(uint32_t)(hash >> 32), (uint32_t)kept->ends.used};
        ((int64_t *)kept->ends.items)[kept->ends.used++] = (int64_t)kept->data.used;
    }
    return (int32_t)slot->number - 1;
}

/* What is asked of each text: its places, or as it stands; and whether it stays so where it is refused. */
typedef struct {
    uint32_t places;
    int as_it_is, keeps;
} Wanted;

static wkt_status append_text(Room *data, const Cell *cell) {
    if (room_holds(data, (size_t)cell->length) < 0) return WKT_NO_MEMORY;
    memcpy((char *)data->items + data->used, cell->text, (size_t)cell->length);
    data->used += (size_t)cell->length;
    return WKT_OK;
}

static wkt_status text_key(const Walk *walk, const Cell *cell, const Wanted *wanted, Kept *kept) {
    wkt_status status;
    size_t end;
    if (cell->text == NULL) return WKT_NULL;
    if (wanted->as_it_is) return append_text(&kept->data, cell);
    status = answer(walk->state, cell, wanted->places, &kept->data, &end);
    if (status == WKT_OK || status == WKT_NOT_UTF8 || status == WKT_NO_MEMORY || !wanted->keeps) return status;
    return append_text(&kept->data, cell);
}

/* Keeps the texts of a block, which stand behind each other from here on. */
static void keep_block(Kept *kept, size_t rows) {
    const Answered *block = kept->block.items;
    const uint32_t *statuses = (uint32_t *)kept->statuses.items + kept->statuses.used - rows;
    size_t start = kept->data.used;
    for (size_t i = 0; i < rows; start = block[i++].end) {
        Cell cell = {(const char *)kept->data.items + start, (Py_ssize_t)(block[i].end - start)};
        int32_t *number = (int32_t *)kept->numbers.items + kept->numbers.used++;
        if (i + AHEAD < rows) __builtin_prefetch(&kept->slots[block[i + AHEAD].hash & kept->mask]);
        *number = statuses[i] == WKT_OK ? number_of(kept, cell, block[i].hash) : -1;
    }
}

static wkt_status block_keys(const Walk *walk, const Wanted *wanted, Kept *kept) {
    size_t rows = (size_t)(walk->last - walk->first), start = kept->data.used;
    kept->block.used = 0;
    if (room_holds(&kept->block, rows) < 0) return WKT_NO_MEMORY;
    for (size_t i = 0; i < rows; i++) {
        Cell cell = walk_cell(walk, (Py_ssize_t)i);
        size_t its = kept->data.used;
        wkt_status status = text_key(walk, &cell, wanted, kept);
        const char *text = (const char *)kept->data.items + its;
        if (status == WKT_NO_MEMORY) return status;
        ((uint32_t *)kept->statuses.items)[kept->statuses.used++] = status;
        ((Answered *)kept->block.items)[i] =
            (Answered){kept->data.used, status == WKT_OK ? first_hash(kept, text, kept->data.used - its) : 0};
    }
    kept->data.used = start;
    keep_block(kept, rows);
    return WKT_OK;
}

static int has_room(Kept *kept, const Walk *walk) {
    size_t size = 4, rows = (size_t)walk->count;
    while (size < 2 * rows) size *= 2;
    kept->mask = size - 1;
    if ((kept->slots = calloc(size, sizeof *kept->slots)) == NULL) return 0;
    if (room_is(&kept->data, walk->bytes + walk->bytes / 8 + MORE_ROOM) < 0 || room_is(&kept->ends, rows + 1) < 0 ||
        room_is(&kept->statuses, rows + 1) < 0 || room_is(&kept->numbers, rows + 1) < 0)
        return 0;
    ((int64_t *)kept->ends.items)[kept->ends.used++] = 0;
    return 1;
}

static int keys_of(Walk *walk, const Wanted *wanted, Kept *kept) {
    int more;
    if (walk->count >= INT32_MAX) return PyErr_SetString(PyExc_OverflowError, "so many texts"), -1;
    if (!has_room(kept, walk)) return PyErr_NoMemory(), -1;
    while ((more = walk_next(walk)) > 0) {
        wkt_status status;
        Py_BEGIN_ALLOW_THREADS
        status = block_keys(walk, wanted, kept);
        Py_END_ALLOW_THREADS
        if (status != WKT_OK) return PyErr_NoMemory(), -1;
    }
    return more;
}

/* (column as of walk_buffers, places, or None of texts that stay as they are, whether a refused one does, report, 16 random
 * bytes) -> (data, offsets, statuses, int32 of each text: which of the kept ones it has, or -1) */
PyObject *fast_keys(PyObject *self, PyObject *const *args, Py_ssize_t count) {
    State *state = state_of(self);
    Kept kept = {.data = {NULL, 1, 0, 0},
                 .ends = {NULL, 8, 0, 0},
                 .statuses = {NULL, 4, 0, 0},
                 .numbers = {NULL, 4, 0, 0},
                 .block = {NULL, sizeof(Answered), 0, 0}};
    Wanted wanted = {0};
    PyObject *made = NULL;
    char *key;
    Py_ssize_t length;
    Walk walk;
    if (!has_count(count, 5) || PyBytes_AsStringAndSize(args[4], &key, &length) < 0) return NULL;
    if (length != sizeof kept.key) return PyErr_Format(PyExc_ValueError, "a key of another size");
    memcpy(kept.key, key, sizeof kept.key);
    kept.key[1] |= 1;
    wanted.as_it_is = args[1] == Py_None, wanted.keeps = args[2] == Py_True;
    if (!wanted.as_it_is && places_in(state, args, 1, 2, &wanted.places) < 0) return NULL;
    if (walk_buffers(&walk, state, args[0], args[3]) == 0 && keys_of(&walk, &wanted, &kept) == 0)
        made = Py_BuildValue("NNNN", lent_room(state, &kept.data, 0), lent_room(state, &kept.ends, 0),
                             lent_room(state, &kept.statuses, 0), lent_room(state, &kept.numbers, 0));
    walk_end(&walk);
    free(kept.slots);
    free(kept.data.items);
    free(kept.ends.items);
    free(kept.statuses.items);
    free(kept.numbers.items);
    free(kept.block.items);
    return made;
}
