/* The memory of a host: a region's text, made by the acts that each change writes, and what threads that fetch byte by byte may read there.
   Only the writer's thread calls. */
#ifndef MEMORY_H
#define MEMORY_H

#include "nc_host.h"

#define BUNDLES 64u
#define LIMIT NC_LIMIT(BUNDLES)

/* What was done so far, and what was wrong. */
typedef struct Readings {
    unsigned long acts, serializations, readings, wrong;
} Readings;

extern Readings readings;

/* All places are stops, and bundle starts are marked. */
void memory_begin(void);

/* Makes acts one by one, and reads after each of them. Every bundle of a new chunk gets these marks. */
void memory_make(const NcAct *acts, size_t count, const uint8_t *marks);

/* Only bundle starts of a span that was freed are marked. */
void memory_unmark(uint32_t base, uint32_t length);

uint8_t memory_byte(uint32_t at);
uint8_t memory_mark(uint32_t at);

#endif
