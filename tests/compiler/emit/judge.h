/* What the tests of the library for generators share, in a program for this system. */
#ifndef JUDGE_H
#define JUDGE_H

#include "nc_emit.h"

#include <stddef.h>

void check(int is_so, const char *what);                      /* prints WRONG, and ends, if it isn't so */
int vetted(uint32_t base, const uint8_t *code, uint32_t len); /* whether nc_host accepts it */
void refuse_growth(uint32_t which);                           /* of the allocations from now on; 0: none */
int was_refused(void);

void try_edges(void);
void try_codes(void);

#endif
