/* Prints for each function of compiler/runtime/strings.c and each size the tenths of a nanosecond that a call takes: those of strings.c, of
   musl where WITH_MUSL, and of the system where there is one. They are measured by turns, and the least counts. */
#include "strings.h"

#ifdef WITH_MUSL
#define DECLARE_MUSL(type, name, arguments) type musl_##name arguments;
FUNCTIONS(DECLARE_MUSL)
#endif

#ifdef IN_A_BOX
static u64 now(void) {
    return (u64)nc_clock(NC_CLOCK_STEADY);
}
#else
#include <time.h>

static u64 now(void) {
    struct timespec time;
    clock_gettime(CLOCK_MONOTONIC, &time);
    return (u64)time.tv_sec * 1000000000u + (u64)time.tv_nsec;
}
#endif

enum { TURNS = 300, ENOUGH = 20000, SLOTS = 16, APART = 128 };

/* How all of them can be called, by the conventions of i386. */
typedef size_t Function(u8 *, size_t, size_t);
typedef struct {
    Function *of[4];
} Makers;

static size_t times; /* how often each call of a turn is made */

#define OF(maker, name) (Function *)(void *)maker##name,
#ifdef WITH_MUSL
#define OF_MUSL(name) OF(musl_, name)
#else
#define OF_MUSL(name)
#endif
#ifdef IN_A_BOX
#define OF_SYSTEM(name)
#else
#define OF_SYSTEM(name) OF(, name)
#endif

/* clang-format off */
static const struct {
    const char *name;
    Makers makers;
} TESTS[] = {
#define ROW(type, name, arguments) {#name, {{OF(own_, name) OF_MUSL(name) OF_SYSTEM(name) 0}}},
    FUNCTIONS(ROW)
};
/* clang-format on */

typedef struct {
    u8 *at;
    size_t second, third;
} Call;

/* Calls with operands at different alignments. Texts have `len` bytes. */
static int calls_of(const char *name, size_t len, Call *calls) {
    int count = len > 1024 ? 2 : SLOTS;
    for (int k = 0; k < count; k++) {
        u8 *a = ends[0] - ROOM + (size_t)k * (len + APART) + (k * 7 & 15), *b = ends[1] - ROOM + (size_t)k * (len + APART) + (k * 13 & 15);
        for (size_t m = 0; m < len + 32; m++) a[m] = b[m] = 'x';
        if (name[0] == 's') a[len] = b[len] = 0;
        calls[k] = (Call){a, (size_t)b, len};
        if (same(name, "memmove")) calls[k] = (Call){a + 16, (size_t)a, len};
        if (same(name, "memset") || same(name, "memchr")) calls[k].second = name[3] == 's' ? 'x' : 'z';
        if (same(name, "strncmp")) calls[k].third = len + 9;
    }
    return count;
}

static u64 turn(Function *volatile function, const Call *calls, int count) {
    u64 begun = now();
    for (size_t k = 0; k < times; k++)
        for (int m = 0; m < count; m++) function(calls[m].at, calls[m].second, calls[m].third);
    return now() - begun;
}

static void try_size(const char *name, const Makers *makers, size_t len) {
    Call calls[SLOTS];
    u64 least[4] = {~0ull, ~0ull, ~0ull, ~0ull};
    int count = calls_of(name, len, calls);
    times = ENOUGH / (size_t)count / (len / 4 + 12) + 1;
    for (int k = 0; k < TURNS; k++)
        for (int m = 0; makers->of[m]; m++) {
            u64 took = turn(makers->of[m], calls, count);
            if (took < least[m]) least[m] = took;
        }
    say(name);
    say(" ");
    say_number((u32)len);
    for (int m = 0; makers->of[m]; m++) {
        say(" ");
        say_number((u32)least[m] * 10 / (u32)(times * (size_t)count));
    }
    say("\n");
}

int main(int count, char **words) {
    static const size_t sizes[] = {1, 4, 8, 16, 32, 64, 128, 256, 512, 1024, 4096, 16384, 65536};
    (void)count;
    (void)words;
    make_memory();
    for (unsigned k = 0; k < sizeof TESTS / sizeof *TESTS; k++)
        for (unsigned m = 0; m < sizeof sizes / sizeof *sizes; m++) try_size(TESTS[k].name, &TESTS[k].makers, sizes[m]);
    return 0;
}
