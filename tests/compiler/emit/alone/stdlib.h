/* What the library of compiler/runtime/code takes of a C library; alone.c has it. */
#ifndef ALONE_STDLIB_H
#define ALONE_STDLIB_H

#include <stddef.h>

void *malloc(size_t size);
void *calloc(size_t count, size_t size);
void *realloc(void *old, size_t size);
void free(void *old);

#endif
