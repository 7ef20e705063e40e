/* One thread changes the instruction again and again, while the others execute it and look up what each execution did. */
#ifndef RACE_H
#define RACE_H

#include "patterns.h"

#define READERS 16u

/* How many changes were made, and what the executions did. */
typedef struct Tally {
    uint64_t changes, executions;
    uint64_t beside;                 /* executions during which an act began */
    uint64_t stops, whole;           /* as the text stood at some moment of the execution */
    uint64_t late_stops, late_whole; /* as it stood before, since the last serialization */
    uint64_t mixed[PATTERNS];        /* in the views, but not a whole instruction */
    uint64_t outside;                /* not in the views */
} Tally;

typedef struct Race {
    const char *name, *left_out;
    Acts acts;         /* what the writer does */
    Views views, text; /* what is expected */
    unsigned made;     /* a bit for each serialization that is made */
    unsigned offset;   /* of the instruction in its bundle */
    unsigned readers;
    double seconds;
    int ahead; /* whether each act is counted as made before it is, as in a control */
} Race;

Tally race_run(const Race *race);

#endif
