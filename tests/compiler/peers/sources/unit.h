/* A unit of tests/compiler/peers: a library with operations over an input. A host calls it in this order. unit.c has what all share. */
#ifndef UNIT_H
#define UNIT_H

#include <stddef.h>
#include <stdint.h>
#include <stdlib.h>
#include <string.h>

#ifdef __wasm__
#define UNIT_CALL(name) __attribute__((export_name(#name)))
#else
#define UNIT_CALL(name)
#endif

UNIT_CALL(unit_room) unsigned char *unit_room(uint32_t len); /* where the host puts the input */
UNIT_CALL(unit_prepare) void unit_prepare(void);
UNIT_CALL(unit_run) void unit_run(uint32_t operation); /* an operation may need those before it */
UNIT_CALL(unit_sum) uint32_t unit_sum(void);           /* a sum over what the last operation made */

/* ---- For units. */

/* Defines unit_run by functions that do the operations. */
#define UNIT_OPERATIONS(...) \
    void unit_run(uint32_t operation) { \
        static void (*const operations[])(void) = {__VA_ARGS__}; \
        operations[operation](); \
    }

extern unsigned char *in;
extern uint32_t in_len;

void need(int holds);                     /* else the unit ends */
void *room_for(size_t len);               /* memory, which there has to be */
void made(const void *bytes, size_t len); /* tells what an operation made, which stays there until the sum is taken */
void made_number(uint32_t number);

#endif
