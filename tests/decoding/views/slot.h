/* The memory in which the instruction is changed and executed, and one execution of it. */
#ifndef SLOT_H
#define SLOT_H

#include "views.h"

/* How many acts have begun. The last of them may or may not have been made. Those before it have been made. */
extern uint64_t slot_begun;

/* How many acts had begun before an execution and after it, and what it did. */
typedef struct Execution {
    uint64_t before, after;
    Effect effect;
} Execution;

/* Makes the memory. The result is NULL, or the name of what this system refuses. */
const char *slot_open(void);

/* Each thread that executes calls these first and last. The result is NULL, or the name of what this system refuses. */
const char *slot_begin_thread(void);
void slot_end_thread(void);

/* Lays version 0 of the instruction at this offset in a bundle, after nops. Then it serializes. */
void slot_lay(unsigned offset);

/* A sequentially consistent store, as a host's has to be, or a plain one. */
void slot_put(unsigned place, uint8_t byte, int plain);
void slot_serialize(void);

/* Executes the instruction, in a thread that has begun. It enters at the bundle's start or right at the instruction. Its
   first look at the acts is a fast or a slow one. */
Execution slot_execute(int at_start, int is_slow);

#endif
