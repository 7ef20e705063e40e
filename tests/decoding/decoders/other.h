/* Another decoder, asked for one instruction after the other. */
#ifndef OTHER_H
#define OTHER_H

#include "nc_host.h"

#define FIRST_AT 0x400000u /* where the first instruction stands; each next one stands behind it */

typedef struct Seen {
    uint32_t length; /* 0: it knows no such instruction */
    char text[256];  /* in Intel's syntax */
    int relative;    /* whether a target is written as what is added to the next instruction's address */
} Seen;

/* Begins; all instructions stand in this file too. The name and version of the decoder. */
const char *other_begin(const char *path);

/* The instruction at the front of these bytes, of which there are 15, at that address. */
void other_look(const uint8_t *bytes, uint32_t at, Seen *seen);

#endif
