/* Where each trial begins: runs the constructors, and ends with the number of answers that are wrong. */

typedef void (*Constructor)(void);
extern const Constructor __init_array_start[], __init_array_end[];
void host_exit(int status);
int wrong(void);

__attribute__((section(".text.start"))) void start(void) {
    for (const Constructor *each = __init_array_start; each != __init_array_end; each++) (*each)();
    host_exit(wrong());
}

/* Compilers call these for copies of structs and arrays. */
void *memcpy(void *to, const void *from, unsigned count) {
    char *at = to;
    for (const char *next = from; count-- > 0;) *at++ = *next++;
    return to;
}

void *memset(void *to, int value, unsigned count) {
    for (volatile char *at = to; count-- > 0;) *at++ = (char)value;
    return to;
}

void *memmove(void *to, const void *from, unsigned count) {
    volatile char *at = to;
    const char *next = from;
    if (to < from) {
        while (count-- > 0) *at++ = *next++;
    } else {
        while (count-- > 0) at[count] = next[count];
    }
    return to;
}
