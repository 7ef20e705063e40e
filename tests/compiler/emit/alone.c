/* A small C library; alone.h describes it. The heap only grows, until all of it is forgotten. */
#include "alone.h"

#include <stdarg.h>
#include <stdlib.h>
#include <string.h>

#define HEAP (24u << 20)
enum { HEAD = 16 };

static _Alignas(16) char heap[HEAP];
static uint32_t taken;

#ifdef NATIVE
static int call(int number, long a, long b, long c) {
    int result;
    __asm__ volatile("int $0x80" : "=a"(result) : "a"(number), "b"(a), "c"(b), "d"(c) : "memory");
    return result;
}

static void write_text(const char *text, uint32_t len) {
    (void)call(4, 1, (long)text, (long)len);
}

void *executable(uint32_t len) {
    const uint32_t words[6] = {0, len, 7, 0x22, ~0u, 0};
    int at = call(90, (long)words, 0, 0);
    return at > -4096 && at < 0 ? NULL : (void *)at;
}
#else
#include <nc_run.h>

static void write_text(const char *text, uint32_t len) {
    (void)nc_write(1, text, len);
}

void *executable(uint32_t len) {
    (void)len;
    return NULL;
}
#endif

void forget(void) {
    taken = 0;
}

void *malloc(size_t size) {
    uint32_t wanted = HEAD + ((uint32_t)size + 15) / 16 * 16;
    char *at = heap + taken + HEAD;
    if (size > HEAP || wanted > HEAP - taken) return NULL;
    memcpy(heap + taken, &size, sizeof size);
    taken += wanted;
    return at;
}

void *calloc(size_t count, size_t size) {
    void *at = malloc(count * size);
    return at == NULL ? NULL : memset(at, 0, count * size);
}

void *realloc(void *old, size_t size) {
    void *at = malloc(size);
    size_t had = 0;
    if (old != NULL) memcpy(&had, (char *)old - HEAD, sizeof had);
    if (at != NULL && old != NULL) memcpy(at, old, had < size ? had : size);
    return at;
}

void free(void *old) {
    (void)old;
}

void *memcpy(void *to, const void *from, size_t len) {
    char *at = to;
    const char *source = from;
    while (len-- != 0) *at++ = *source++;
    return to;
}

void *memmove(void *to, const void *from, size_t len) {
    char *at = to;
    const char *source = from;
    if (at <= source) return memcpy(to, from, len);
    while (len-- != 0) at[len] = source[len];
    return to;
}

void *memset(void *to, int byte, size_t len) {
    char *at = to;
    while (len-- != 0) *at++ = (char)byte;
    return to;
}

int memcmp(const void *a, const void *b, size_t len) {
    const unsigned char *x = a, *y = b;
    for (; len != 0; len--, x++, y++) {
        if (*x != *y) return *x - *y;
    }
    return 0;
}

static void write_number(uint32_t number) {
    char digits[10];
    uint32_t at = sizeof digits;
    do {
        digits[--at] = (char)('0' + number % 10);
        number /= 10;
    } while (number != 0);
    write_text(digits + at, sizeof digits - at);
}

void say(const char *text, ...) {
    va_list numbers;
    va_start(numbers, text);
    for (; *text != 0; text++) {
        if (*text == '%') {
            write_number(va_arg(numbers, uint32_t));
        } else {
            write_text(text, 1);
        }
    }
    va_end(numbers);
}

/* The words of the command line as numbers. */
static int start_with(int argc, char **argv) {
    uint32_t words[8] = {0};
    int k;
    for (k = 1; k < argc && k <= 8; k++) {
        const char *at = argv[k];
        for (; *at >= '0' && *at <= '9'; at++) words[k - 1] = words[k - 1] * 10 + (uint32_t)(*at - '0');
    }
    return run(argc - 1, words);
}

#ifdef NATIVE
__attribute__((noreturn, used)) static void begin(long *stack) {
    (void)call(1, start_with((int)stack[0], (char **)(stack + 1)), 0, 0);
    __builtin_unreachable();
}

__asm__(".p2align 5\n.globl enter\nenter: movl 4(%esp), %eax\n.skip 26, 0x90\ncall *%eax\nret\n");
__asm__(".globl _start\n_start: movl %esp, %eax\nandl $-16, %esp\nsubl $12, %esp\npushl %eax\ncall begin\n");
#else
void enter(void (*function)(void)) {
    function();
}

int start(int argc, char **argv);
int start(int argc, char **argv) {
    return start_with(argc, argv);
}
#endif
