/* Dialects by their names, for PostgreSQL and SQLite: a list of them, with commas between and nothing else. */
#ifndef DIALECTS_H
#define DIALECTS_H

#include <string.h>

#include <wkt.h>

#define DIALECT_HINT "dialects are ewkt, srid, untagged, exponents and nan, several with commas between"

/* How long the first name of a list is, which ends at `end`. */
static inline size_t dialect_length(const char *list, const char *end) {
    const char *comma = memchr(list, ',', (size_t)(end - list));
    return (size_t)((comma ? comma : end) - list);
}

/* What is added to the places for a dialect; 0 where none has that name. */
static inline uint32_t dialect_named(const char *name, size_t length) {
    static const struct {
        const char *name;
        uint32_t added;
    } dialects[] = {{"ewkt", WKT_EWKT},
                    {"srid", WKT_SRID},
                    {"untagged", WKT_UNTAGGED},
                    {"exponents", WKT_EXPONENTS},
                    {"nan", WKT_NAN}};
    for (size_t i = 0; i < sizeof dialects / sizeof *dialects; i++)
        if (strlen(dialects[i].name) == length && memcmp(dialects[i].name, name, length) == 0) return dialects[i].added;
    return 0;
}

#endif
