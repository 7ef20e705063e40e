/* Random programs of a small set of steps: what they do, and the code for them. */
#ifndef PROGRAMS_H
#define PROGRAMS_H

#include "nc_emit.h"

enum { MOST_STEPS = 6000, MOST_LABELS = 3002, REGISTERS = 5, CELLS = 8, CHUNKS = 2, TABLE = 4, MOST_PATCHES = 4, FUEL = 400 };

/* What a program has before and after it. Its code finds this at an address that it has as a number. */
typedef struct State {
    uint32_t registers[REGISTERS], cells[CELLS];
    int32_t fuel; /* each label takes one, and the program ends when there is none */
    uint32_t stack;
    uint32_t table[MOST_LABELS]; /* the addresses of labels that are entries */
} State;

/* The steps. END is the last one of a chunk. GO_OVER and CALL_OVER lead to the beginning of the other chunk, the others to labels of their
   own. */
enum { PLAIN, BIND, ALIGN, END, GO, GO_IF, GO_BY, GO_TABLE, CALL, CALL_BY, RETURN, GO_OVER, CALL_OVER, GO_PATCHED };
typedef struct Step {
    uint8_t kind, op, a, b; /* registers, or a condition */
    uint32_t number;        /* a number, a label, or which patch */
} Step;

/* Chunk k has the steps from begins[k] up to begins[k + 1], and the labels from labels[k] on, the first of which is its beginning. */
typedef struct Program {
    uint32_t begins[CHUNKS + 1], labels[CHUNKS + 1];
    uint32_t places[MOST_LABELS];       /* the step where a label is bound */
    uint32_t patches, to[MOST_PATCHES]; /* the labels to which the patched jumps of the first chunk lead */
    Step steps[MOST_STEPS];
} Program;

/* A chunk that is being made. */
typedef struct Made {
    NceCode code;
    uint32_t state, labels[MOST_LABELS], out, begin; /* `begin` is where C calls it */
    uint32_t patched[MOST_PATCHES];                  /* the patched jumps, for nce_place */
} Made;

void draw_from(uint32_t seed);
uint32_t draw(uint32_t below); /* the next random number */
void program_draw(Program *program, uint32_t most_steps);
void state_draw(State *state);

/* Does what the program says. */
void program_interpret(const Program *program, State *state);

/* Gives a chunk's steps to the library. made->state is where the code finds the state, and `bases` where the chunks will be. */
void program_give(const Program *program, uint32_t chunk, Made *made, const uint32_t *bases);

/* Fills the table with the addresses of a chunk's entries. */
void program_tables(const Program *program, uint32_t chunk, const Made *made, State *state, uint32_t base);

#endif
