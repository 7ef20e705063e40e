/* What compare_strings.c and time_strings.c share: the functions of compiler/runtime/strings.c, two pieces of memory, and words to print.
   IN_A_BOX they are programs for nc-run without a C library, and otherwise processes. */
#include <stddef.h>
#include <stdint.h>

typedef uint8_t u8;
typedef uint32_t u32;
typedef uint64_t u64;

enum { PAGE = 4096, ROOM = 4 << 20 };

/* The address behind each piece of memory of ROOM bytes. A process may touch neither page that is there. In a box the first piece ends
   where the box's memory ends. */
static u8 *ends[2];

#define FUNCTIONS(F) \
    F(void *, memcpy, (void *, const void *, size_t)) \
    F(void *, memmove, (void *, const void *, size_t)) \
    F(void *, memset, (void *, int, size_t)) \
    F(int, memcmp, (const void *, const void *, size_t)) \
    F(void *, memchr, (const void *, int, size_t)) \
    F(size_t, strlen, (const char *)) \
    F(int, strcmp, (const char *, const char *)) \
    F(int, strncmp, (const char *, const char *, size_t))
#define DECLARE(type, name, arguments) type own_##name arguments;
FUNCTIONS(DECLARE)

#ifdef IN_A_BOX
#include <nc_run.h>
#define main start

/* The words of the command line lie at the end, so they have to be read before. They take less than a page. */
static void make_memory(void) {
    ends[0] = (u8 *)((nc_memory() + PAGE - 1) / PAGE * PAGE);
    ends[1] = ends[0] - ROOM - PAGE;
}

static void print(const char *text, size_t len) {
    nc_write(1, text, len);
}
#else
#include <signal.h>
#include <string.h>
#include <sys/mman.h>
#include <unistd.h>

static void make_memory(void) {
    for (int k = 0; k < 2; k++) {
        u8 *made = mmap(0, ROOM + PAGE, PROT_READ | PROT_WRITE, MAP_PRIVATE | MAP_ANONYMOUS, -1, 0);
        if (made == MAP_FAILED || mprotect(made + ROOM, PAGE, PROT_NONE)) _exit(2);
        ends[k] = made + ROOM;
    }
}

static void print(const char *text, size_t len) {
    if (write(1, text, len) != (ssize_t)len) _exit(2);
}
#endif

static void say(const char *text) {
    size_t len = 0;
    while (text[len]) len++;
    print(text, len);
}

static void say_number(u32 number) {
    char digits[10], *at = digits + sizeof digits;
    do *--at = (char)('0' + number % 10);
    while (number /= 10);
    print(at, (size_t)(digits + sizeof digits - at));
}

static int same(const char *a, const char *b) {
    while (*a && *a == *b) {
        a++;
        b++;
    }
    return *a == *b;
}
