/* heap.c on a processor that lacks what the library is built for, as long as this isn't 0. Linked in its place. */
int processor_lacks = 1;
#define WKT_HAS_CPU (!processor_lacks)
/* The version of the header that is beside the library. */
#include "wkt.h"
#include "../heap.c"
