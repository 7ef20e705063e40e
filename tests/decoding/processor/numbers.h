/* The numbers with which a beginning is tried: displacements, offsets and immediates. */
#ifndef NUMBERS_H
#define NUMBERS_H

#include "list.h"

/* Fills in the choice of this index, for index 0, 1, ..: the whole instruction, with zeros behind it. 0 where there is no further choice. */
int numbers_fill(const Beginning *b, size_t index, uint8_t bytes[LONGEST]);

#endif
