/* What the processor does with an instruction, beside what the list says of it. */
#ifndef JUDGE_H
#define JUDGE_H

#include "list.h"

#include <stdio.h>

typedef struct Counts {
    uint64_t beginnings, instructions, runs, completed, faulted, cut;
    uint64_t branches_taken, branches_passed, masks, calls, undefined, privileged;
    uint64_t never, wrong; /* beginnings that only divide wrongly; differences */
} Counts;

/* Judges each beginning that is chosen: all without a SIB, and one in `slice` of those with one. Those that differ are marked in the list;
   the first differences are written out where `to` is a file. */
Counts judge(List *list, unsigned slice, FILE *to);

#endif
