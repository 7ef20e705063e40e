/* The common part of the programs of this folder: the number of their rounds, their input, and a checksum of their output. */
#ifndef PORT_H
#define PORT_H

#include <stddef.h>
#include <stdlib.h>

/* The number of rounds, which is the first word of the command line, or 1 if there is none. */
static inline int rounds_of(int argc, char **argv) {
    return argc > 1 ? atoi(argv[1]) : 1;
}

/* Numbers below a limit, the same ones each time. */
static inline unsigned next_of(unsigned *state, unsigned limit) {
    *state = *state * 1103515245u + 12345u;
    return (*state >> 16) % limit;
}

/* Text of words and numbers. */
static inline void fill(char *text, size_t count) {
    static const char *const WORDS[] = {"stream", "of", "the", "and", "library", "a", "window", "bytes", "is", "table", "in", "box", "to"};
    unsigned state = 42;
    for (size_t at = 0; at < count;) {
        for (const char *word = WORDS[next_of(&state, 13)]; *word != 0 && at < count; word++) text[at++] = *word;
        if (at < count) text[at++] = "    ,\n7\x93"[next_of(&state, 8)];
    }
}

/* A checksum of bytes behind others (FNV-1a). */
static inline unsigned sum_of(unsigned sum, const void *bytes, size_t count) {
    for (size_t k = 0; k < count; k++) sum = (sum ^ ((const unsigned char *)bytes)[k]) * 16777619u;
    return sum;
}

#endif
