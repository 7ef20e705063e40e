/* Formulas of x become 32-bit code. */
#ifndef COMPILE_H
#define COMPILE_H

#include <stdint.h>

enum { CODE_MAX = 1024, NUMBERS_MAX = 16, NUMBER_LEN = 5 };

typedef struct Code {
    uint8_t bytes[CODE_MAX];
    uint32_t len;                  /* whole bundles */
    uint32_t numbers[NUMBERS_MAX]; /* where the numbers of the formula are, each an instruction of NUMBER_LEN bytes */
    uint32_t number_count;
} Code;

/* A function of a 32-bit number x, with + - * and parentheses, modulo 2 to the 32nd. 0 if it isn't one, or is too long. */
int compile(Code *code, const char *formula);

/* The instruction of a number, for a patch. */
void compile_number(uint8_t to[NUMBER_LEN], uint32_t number);

#endif
