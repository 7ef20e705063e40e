/* One instruction, run in a 32-bit code segment of the processor itself. */
#ifndef INSIDE_H
#define INSIDE_H

#include <stddef.h>
#include <stdint.h>

#define PAGE_END 0x00011000u /* in the code segment: behind it nothing may be executed */
#define DATA_LEN 0x20000u    /* of the segment of data and stack; what lies beyond it faults */

/* Registers are numbered as in ModRM. */
typedef struct Before {
    uint32_t reg[8], place, flags;
} Before;

typedef struct After {
    uint32_t reg[8], place, flags;
    uint32_t trap, error, address; /* the exception's number, its error code, the linear address of a page fault */
    int segments_stay, floats_stay;
} After;

#define TRAP_DIVIDE 0
#define TRAP_STEP 1
#define TRAP_UNDEFINED 6
#define TRAP_STACK 12
#define TRAP_GENERAL 13
#define TRAP_PAGE 14

#define FLAG_TRAP 0x100u

/* 0, or why no 32-bit code can be run here: a word that names what was refused. */
const char *inside_begin(void);

/* Puts bytes so that the last of them is the last byte of the page; the place of the first. */
uint32_t inside_put(const uint8_t *bytes, size_t count);

/* Fills the data with a byte. */
void inside_fill(uint8_t value);

/* The four bytes at a place of the data segment. */
uint32_t inside_data(uint32_t at);

/* Whether a page fault was one of fetching the first byte behind the page. */
int inside_cut(const After *after);

/* Goes inside. The trap flag, which belongs into `flags`, or a fault ends it. */
void inside_run(const Before *before, After *after);

#endif
