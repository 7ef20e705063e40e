/* What the library of compiler/runtime/code takes of a C library; alone.c has it. */
#ifndef ALONE_STRING_H
#define ALONE_STRING_H

#include <stddef.h>

void *memcpy(void *to, const void *from, size_t len);
void *memmove(void *to, const void *from, size_t len);
void *memset(void *to, int byte, size_t len);
int memcmp(const void *a, const void *b, size_t len);

#endif
