/* What the sources of guest.elf share. */
#ifndef GUEST_H
#define GUEST_H

#include <nc_run.h>

typedef unsigned u32;

static inline u32 length(const char *text) {
    u32 len = 0;
    while (text[len] != 0) len++;
    return len;
}
static inline int same(const char *a, const char *b) {
    while (*a != 0 && *a == *b) a++, b++;
    return *a == *b;
}
static inline void put(int file, const char *text) {
    nc_write(file, text, length(text));
}
static inline void put_number(int file, long long number) {
    char digits[24], *at = digits + sizeof digits;
    unsigned left = (unsigned)(number < 0 ? -number : number); /* numbers here are small */
    *--at = 0;
    do *--at = (char)('0' + left % 10);
    while ((left /= 10) != 0);
    if (number < 0) *--at = '-';
    put(file, at);
}
static inline void line(int file, const char *name, long long number) {
    put(file, name);
    put(file, ": ");
    put_number(file, number);
    put(file, "\n");
}
static inline int number_of(const char *text) {
    int number = 0, negative = *text == '-';
    for (text += negative; *text != 0; text++) number = 10 * number + *text - '0';
    return negative ? -number : number;
}

/* Makes calls as words of the command line say, with a comma between two calls. Each prints its name and its result. */
int do_calls(char **words);

#endif
