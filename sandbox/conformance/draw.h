/* Random code that the table permits, with much of what can go wrong: wild addresses, stack pointers, string instructions, jumps out. */
#ifndef DRAW_H
#define DRAW_H

#include "kit.h"

typedef struct Draw {
    uint64_t random;
    const KitBox *like; /* a box of the host: where its code stands, and its limits */
    uint32_t tame;      /* of ten numbers, how many are addresses of the box's data, so that runs are longer */
} Draw;

uint32_t draw(Draw *d, uint32_t below);

/* A number that is mostly one at which something might go wrong, in a box at these bases. */
uint32_t draw_number(Draw *d, const KitBox *box);

/* Fills bundles with instructions. */
void draw_code(Draw *d, uint8_t *code, uint32_t len);

#endif
