/* What nc_run.h says of each call of a program, as far as the numbers of files and ranges of memory decide it. */
#ifndef RULES_H
#define RULES_H

#include "nc_sandbox.h"

#define RULES_ROOM 0x120000u /* bytes of the box */
#define RULES_FILES 64u      /* that a program can have */

/* Which files a program gets. */
enum { RULES_READ, RULES_WRITE, RULES_NONE };

/* From now on each call-back that the box gets is judged, since the linker leads ncs_callback to rules.c (--wrap). `most` is what --write
   says. */
void rules_begin(NcsBox *box, int what, uint32_t memory_end, uint64_t most);

/* How many files the program has opened and not closed. */
unsigned rules_opened(void);

#endif
