/* A pattern tells which places of an effect have a byte of its older version, a byte of its newer version, or a stop. */
#ifndef PATTERNS_H
#define PATTERNS_H

#include "views.h"

/* A pattern is a number of LENGTH digits to the base 3, the first place first. A digit is 0 for a byte of the older version or of the only
   one, 1 for a byte of the newer version, and 2 for a stop. So pattern 0 is a whole instruction. */
#define PATTERNS 243u

/* The pattern of an effect that RAN. Its bytes are stops, or of one version, or of two that follow each other. */
unsigned pattern_of(const Effect *effect);

/* The number of patterns, other than 0, of the effects that these views have at any moment. */
unsigned mixtures_in(const Views *views);

/* Writes the digits of a pattern as the letters o, n and s. */
void pattern_letters(unsigned pattern, char letters[LENGTH + 1]);

#endif
