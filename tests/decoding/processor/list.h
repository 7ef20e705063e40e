/* The beginnings of the table: prefix, opcode, ModRM and SIB of each permitted instruction, as the library's decoder tells them. */
#ifndef LIST_H
#define LIST_H

#include "nc_host.h"

#define LONGEST 15 /* bytes of the longest instruction that a processor reads */

typedef struct Beginning {
    uint8_t bytes[6];
    uint8_t count;  /* how many of them; numbers fill the rest up to `length` */
    uint8_t sib;    /* whether a SIB is among them */
    uint8_t length; /* of the whole instruction */
    uint8_t flow, reg;
    uint8_t wrong; /* whether a run of it differed */
} Beginning;

typedef struct List {
    Beginning *all;
    size_t count, room;
} List;

/* All of them. A list without memory ends the program. */
List list_beginnings(void);

/* A copy, in which bugs can be planted. */
List list_copy(const List *list);

/* The entry with these bytes, which has to be there. */
Beginning *list_find(List *list, const uint8_t *bytes, size_t count);

#endif
