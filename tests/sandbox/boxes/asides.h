/* Code for the tests of what happens beside untrusted code: signals, other threads, forks. */
#ifndef ASIDES_H
#define ASIDES_H

#include "testing.h"

#include <pthread.h>

/* The functions of asides_module's code, each in a bundle or two of its own. */
enum {
    RETURNS = 0x10000, /* it does nothing else */
    LOOPS = 0x10020,   /* without end, once ESP is the first argument */
    CALLS = 0x10040,   /* calls call-back 0, without arguments, and returns what that returns */
    FAULTS = 0x10080,  /* a load from address 0 */
    COUNTS = 0x100A0,  /* counts in the word at COUNT, without end, and stops if a flag that it sets is lost */
    STOPS = 0x100C0
};
#define ASIDES_LEN (STOPS + 32 - CODE_AT)
#define COUNT 0x110000u
#define ASIDES_MEMORY (4u << 20)

void asides_lay(uint8_t code[ASIDES_LEN]); /* at CODE_AT */
NcsModule *asides_module(void);            /* it ends the process with SKIPPED if the system has no boxes */
NcsBox *asides_box(NcsModule *module, uint32_t milliseconds);
NcsEnd asides_call(NcsBox *box, uint32_t function, uint32_t argument);

/* A call of LOOPS on a thread of its own, with the stack pointer at an address of another box, taken as flat, or as it is. */
typedef struct Aside {
    pthread_t thread;
    NcsBox *box;
    uint32_t function, argument;
    uint32_t how; /* ncs_signals */
    NcsEnd end;
} Aside;

void asides_begin(Aside *aside);                /* its fields but thread and end are set. It returns once the thread is inside */
NcsEnd asides_end(Aside *aside);                /* kills its call, and waits for it */
uint32_t asides_flat(NcsBox *box, uint32_t at); /* the linear address of a place in a box */
unsigned asides_touched(NcsBox *box);           /* bytes of the box's memory above 1 MiB that aren't 0 */

/* Runs a row in a child, before or after the first module, and tells how that ended: its exit status, or 1000 and the signal. */
int asides_child(int (*row)(void));

typedef struct Child {
    const char *name;
    int (*row)(void);
    int ends; /* what asides_child tells */
} Child;

/* Runs rows in children, and prints their names. Nothing follows one that is wrong. Whether the system has boxes. */
int asides_children(const Child *rows, size_t count);

#endif
