/* A writer that creates, patches, deletes and reclaims chunks of a region as they are drawn, and judges each answer by a plain model. */
#ifndef WRITER_H
#define WRITER_H

#include "nc_host.h"

#include <pthread.h>

/* A region, and the host's lock around its calls. */
typedef struct Host {
    pthread_mutex_t lock;
    NcRegion region;
} Host;

/* What was done, and what was wrong: calls that were done, chunks that were freed, calls that were rightly refused, and comparisons of the
   whole region with the model. */
typedef struct Done {
    unsigned long created, patched, deleted, reclaimed, freed, refused, compared, wrong;
} Done;

extern Done done;

/* A pseudo-random number below `end`. */
static inline uint32_t below(uint64_t *random, uint32_t end) {
    *random = *random * 6364136223846793005u + 1442695040888963407u;
    return (uint32_t)((*random >> 33) % end);
}

void writer_begin(void);

/* Makes one change, or is rightly refused. */
void writer_step(Host *host);

/* Compares the whole region with the model. */
void writer_compare(Host *host);

/* After every seat was left: all that is retired is freed. */
void writer_end(Host *host);

#endif
