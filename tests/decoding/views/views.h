/* The views, by the definition IsView, of an instruction that is changed again and again. An effect is what an execution shows of one. */
#ifndef VIEWS_H
#define VIEWS_H

#include "acts.h"

/* What was executed. At the first place the version is known modulo REGISTERS, at the others modulo VERSIONS. */
typedef struct Effect {
    enum { RAN, STOPPED, STRANGE } kind; /* what is STRANGE is no mixture of bytes that were ever put there */
    int bytes[LENGTH];                   /* at each place a version, or STOP_BYTE, if it RAN */
} Effect;

#define STOP_BYTE (-1)

/* The set of bytes at each moment of a change and each place. A moment is the number of acts that have been made. */
typedef struct Views {
    size_t period;
    unsigned sets[MOST_ACTS][LENGTH];
} Views;

/* The views while these acts are made again and again. Serializations without a bit in `made` are left out. */
Views views_of(const Acts *acts, unsigned made);

/* The text as it stands, which the views would be if each act serialized. */
Views text_of(const Acts *acts);

/* Removes the stop from the sets of the first place. A control does so. */
Views without_stops(Views views);

/* Whether some moment from the first to the last, counted since the first change began, has a view with this effect. */
int have(const Views *views, const Effect *effect, uint64_t first, uint64_t last);

#endif
