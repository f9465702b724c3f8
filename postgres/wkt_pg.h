/* What the files of the extension share. */
#ifndef WKT_PG_H
#define WKT_PG_H

#include "postgres.h"

#include "fmgr.h"
#include "miscadmin.h"
#include "nodes/nodes.h"
#if PG_VERSION_NUM >= 160000
#include "varatt.h"
#endif

#include <wkt.h>

/* The most places of a text, and of the type. A function over text has those of the type where nothing is said. */
#define MOST_PLACES 36
#define TYPE_PLACES 18
/* A canonical text has its header's end in so many bytes. */
#define LONGEST_FRONT 64

/* A text as the database holds it, and as the library reads it: the same bytes, or in place of those that aren't ASCII,
 * which no geometry has, others that none has. So a place is the same in both. To the places dialects are added. */
typedef struct Question {
    const char *given;
    const uint8_t *utf8;
    size_t length;
    uint32_t places;
} Question;

/* A call of the library: what it is asked, and what it answers. */
typedef struct Call {
    const Question *asked; /* wkt_same: two */
    text *made;            /* with room for the canonical text; NULL where it isn't asked for */
    size_t room;
    union {
        size_t needed, start, end;
    };
    union {
        uint32_t same, expected, hint, kind, srid;
    };
    uint32_t dimension;
} Call;

/* calls.c */
extern wkt_status long_call(wkt_status (*function)(Call *), Call *call);
/* What the library reads within some 30 milliseconds. */
#define LONG_CALL (1 << 20)

/* answers.c */
extern void fail_without_memory(void);

/* Makes a call on so many bytes; no memory is an error. A cancel or a timeout ends it within a second, also amid a long text.
 * The functions are inline, so that a short text is read without a call through a pointer. */
static inline wkt_status make_call(wkt_status (*function)(Call *), Call *call, size_t length) {
    wkt_status status;
    CHECK_FOR_INTERRUPTS();
    status = length < LONG_CALL ? function(call) : long_call(function, call);
    if (status == WKT_NO_MEMORY) fail_without_memory();
    return status;
}

extern void fail_with_places(int32 most);
extern uint32_t asked_of(FunctionCallInfo fcinfo, int at, int32 most);
extern Question question_of(const char *given, size_t length, uint32_t places);
extern Question question_of_text(text *given, uint32_t places);
extern bool canonical_of(const Question *asked, text **answer);
extern bool are_same(const Question asked[2], bool *same);
extern char *header_of(uint32_t kind, uint32_t dimension);
extern text *front_of(Datum given, int32 length);
extern bool header_from(Datum given, uint32_t *kind, uint32_t *dimension);
extern bool srid_from(Datum given, uint32_t *srid);

static inline uint32_t places_of(int32 places, int32 most) {
    if (places < 0 || places > most) fail_with_places(most);
    return (uint32_t)places;
}

/* wkt_type.c */
extern bool has_value(Question *asked, text **answer);

/* refusals.c */
extern char *quoted(const char *given, size_t length);
extern Datum refuse(Node *context, const Question *asked);

/* parts.c */
extern Datum row_of(FunctionCallInfo fcinfo, Datum *row, bool *nulls);

#endif
