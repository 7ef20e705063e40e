/* What the library does, step by step: the text at each serialization and at each stamp. And failures of the system's, on demand. */
#ifndef WATCHING_H
#define WATCHING_H

#include "codes.h"

#define STEPS 8u
#define SEEN (2 * BUNDLE) /* bytes from HERE on */

typedef struct Step {
    int stamp;  /* else it is a serialization */
    int locked; /* whether the module's lock is held */
    uint64_t changes;
    uint8_t bytes[SEEN];
} Step;

extern NcsModule *watching_module; /* whose steps are noted, or NULL */
extern Step watching_steps[STEPS];
extern unsigned watching_count;               /* so many steps were noted; the last STEPS of them are kept */
extern unsigned watching_fail_serializations; /* so many serializations fail */
extern uint8_t *watching_lent;                /* a byte of code that becomes a return once the code was judged, or NULL */
extern int watching_refuse; /* the number of a call of the system that is refused so many times, with this error; 0 for none */
extern int watching_times, watching_errno;
extern int watching_advice;      /* of madvise only this one is refused, or 0 */
extern int watching_no_room;     /* whether files in memory get none */
extern long watching_fail_after; /* so many allocations succeed, and one fails; below 0 none does */

#endif
