/* What the tests of the calls share. They are C and C++. */
#include "wkt.h"
#include <stdio.h>
#include <stdlib.h>
#include <string.h>

#define BYTES(text) (const uint8_t *)(text), strlen(text)
#define CHECK(holds) check((holds) ? 1 : 0, #holds, __FILE__, __LINE__)
#define ROOM 256
#define ROWS 10

/* What the calls fill. */
extern uint8_t out[ROOM];
extern size_t needed, end_at;
extern int64_t ends[ROWS + 1];
extern wkt_status statuses[ROWS];

/* How often memory was taken. With portable C that isn't looked at. */
extern long allocations;
#ifndef PORTABLE
#define PORTABLE 0
#endif

void check(int holds, const char *what, const char *file, int line);
int holds(const char *text);
int untouched(void);

/* texts.c */
void test_texts(void);

/* pointers.c */
void test_pointers(void);
void test_processor(void);

/* explain.c */
void test_explain(void);

/* dialects.c */
void test_dialects(void);
/* events.c */
void test_events(void);

/* columns.c */
void test_columns(void);
wkt_status fill_of(const char *texts, const int64_t *offsets, const uint8_t *valid, size_t rows, uint32_t places,
                   size_t numbers, size_t rings, size_t polygons, const size_t sizes[6]);
int arrays_untouched(void);
