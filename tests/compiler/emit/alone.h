/* A program without a C library: in a box, or with NATIVE a 32-bit program of Linux. */
#ifndef ALONE_H
#define ALONE_H

#include <stdint.h>

/* Writes a text; each `%` in it is a number of the list that follows. */
void say(const char *text, ...);

/* With NATIVE, memory that can be executed, at an address that the system chooses; else NULL. */
void *executable(uint32_t len);

/* Calls a function in bundles, to which its return address has to be a bundle start. */
void enter(void (*function)(void));

/* Frees all that malloc has given. */
void forget(void);

/* The program; its words are numbers. Returns its status. */
int run(int count, const uint32_t *words);

#endif
