/* What the files of the extension share. */
#ifndef WKT_SQLITE_H
#define WKT_SQLITE_H

#include <sqlite3ext.h>
#include <wkt.h>

/* To the places dialects are added. */
typedef struct Question {
    const uint8_t *text;
    size_t length;
    uint32_t places;
} Question;

/* wkt_sqlite.c */
extern uint32_t asked_of(int count, sqlite3_value **values, int at);
extern wkt_status canonical_of(sqlite3_value *value, uint32_t places, Question *asked, char **out, size_t *length);
extern char *error_of(const Question *asked, wkt_status status);

/* tables.c. The counts are -1 where there is no memory. put_made: what was made is the result, or why it wasn't made. */
extern int points_in(const char *canonical, size_t length);
extern int parts_in(const char *canonical, size_t length);
extern int create_tables(sqlite3 *db);
extern void put_made(sqlite3_context *context, sqlite3_str *made);

#endif
