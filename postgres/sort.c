/* Sorting: the front of each value is packed into eight bytes, which are compared first. They agree with the order of the
 * type, which is that of the texts' bytes, and stays what it is: where they are equal, the texts are compared. */
#include "wkt_pg.h"

#include "utils/fmgrprotos.h"
#include "utils/sortsupport.h"
#if PG_VERSION_NUM < 150000
static int ssup_datum_unsigned_cmp(Datum one, Datum other, SortSupport support) {
    (void)support;
    return one < other ? -1 : one > other;
}
#endif

/* A header takes 6 bits and at most 27 bytes, and each byte of what isn't a letter 4 bits. So no more bytes count. */
#define FRONT 320

StaticAssertDecl(SIZEOF_DATUM == 8, "wkt needs a server of 64 bits");

typedef struct Packed {
    uint64 bits;
    int room; /* how many of the 64 aren't taken */
} Packed;

static void pack(Packed *packed, uint64 code, int width) {
    int taken = Min(width, packed->room);
    packed->bits |= code >> (width - taken) << (packed->room - taken);
    packed->room -= taken;
}

/* How many bytes of a word the text begins with: all, or 0. */
static size_t begins(const char *at, const char *end, const char *word) {
    size_t length;
    if (at == end || *at != *word) return 0; /* most often */
    length = strlen(word);
    return (size_t)(end - at) >= length && memcmp(at, word, length) == 0 ? length : 0;
}

/* Packs a header with what follows it, as its number in the order of the bytes: none is the front of another. The length is
 * 0 where there is none. */
static size_t pack_header(Packed *packed, const char *at, const char *end) {
    static const char *const kinds[] = {"GEOMETRYCOLLECTION", "LINESTRING", "MULTILINESTRING", "MULTIPOINT",
                                        "MULTIPOLYGON",       "POINT",      "POLYGON"};
    static const char *const rests[] = {" EMPTY", " M EMPTY", " M(", " Z EMPTY", " Z(", " ZM EMPTY", " ZM(", "("};
    for (size_t kind = 0; kind < lengthof(kinds); kind++) {
        size_t length = begins(at, end, kinds[kind]), more;
        for (size_t rest = 0; length && rest < lengthof(rests); rest++)
            if ((more = begins(at + length, end, rests[rest])) != 0) {
                pack(packed, 8 * kind + rest, 6);
                return length + more;
            }
    }
    return 0;
}

/* The code of a mark, a digit, or the first letter of EMPTY, in their order; 16 for any other letter. */
static uint64 code_of(char c) {
    switch (c) {
    case ' ': return 0;
    case '(': return 1;
    case ')': return 2;
    case ',': return 3;
    case '-': return 4;
    case '.': return 5;
    case 'E': return 15;
    default: return c >= '0' && c <= '9' ? 6 + (c - '0') : 16;
    }
}

/* The front of a canonical text. Of two texts that differ, the bytes where they begin to stand in one place of the grammar,
 * so only bytes that can stand in one place need different codes: EMPTY stands where a parenthesis may, but no number, and
 * the end, which is less than all else as the space is, where no space may. */
static uint64 packed_front(const char *at, const char *end) {
    Packed packed = {0, 64};
    while (at < end && packed.room > 0) {
        uint64 code = code_of(*at);
        size_t length = *at == 'E' ? strlen("EMPTY") : 1;
        if (code < 16)
            pack(&packed, code, 4);
        else if ((length = pack_header(&packed, at, end)) == 0)
            break;
        at += Min(length, (size_t)(end - at));
    }
    return packed.bits;
}

/* Of a long value that is stored elsewhere only the front is fetched. */
static Datum packed_of(Datum value, SortSupport support) {
    text *front = front_of(value, FRONT);
    uint64 bits = packed_front(VARDATA_ANY(front), VARDATA_ANY(front) + VARSIZE_ANY_EXHDR(front));
    (void)support;
    if (front != (text *)DatumGetPointer(value)) pfree(front);
    return (Datum)bits;
}

/* Packing takes less than one comparison, so it isn't given up where many are equal. */
static bool never(int count, SortSupport support) {
    (void)count, (void)support;
    return false;
}

PG_FUNCTION_INFO_V1(pg_wkt_sortsupport);
Datum pg_wkt_sortsupport(PG_FUNCTION_ARGS) {
    SortSupport support = (SortSupport)PG_GETARG_POINTER(0);
    bool abbreviate = support->abbreviate;
    support->abbreviate = false;
    bytea_sortsupport(fcinfo);
    if (abbreviate) {
        support->abbreviate = true;
        support->abbrev_full_comparator = support->comparator;
        support->comparator = ssup_datum_unsigned_cmp;
        support->abbrev_converter = packed_of;
        support->abbrev_abort = never;
    }
    PG_RETURN_VOID();
}
