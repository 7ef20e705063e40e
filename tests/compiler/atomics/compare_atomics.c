/* Tries compiler/runtime/atomics.c, which stands for libatomic: each call beside plain arithmetic, then all of them by two threads at once. */
#include <pthread.h>
#include <stdatomic.h>
#include <stdio.h>
#include <stdlib.h>
#include <string.h>

typedef unsigned long long u64;
typedef struct {
    int parts[3];
} Triple;

enum { THREADS = 2, TIMES = 10 };
static const char *ending = "";
static unsigned long wrong, rounds;
static _Atomic u64 shared, summed;
static _Atomic Triple triple;
static pthread_barrier_t begin, middle;

static void say(const char *name, u64 made, u64 right) {
    if (made == right) return;
    wrong++;
    printf("%s made %llx, and not %llx\n", name, made, right);
    if (strcmp(name, ending) == 0) exit(1);
}

#define TRY(name, with, now) \
    do { \
        atomic_store(&value, is); \
        say("fetch_" #name, atomic_fetch_##name(&value, with), is); \
        say(#name, atomic_load(&value), now); \
        atomic_store(&value, is); \
        say(#name "_fetch", __atomic_##name##_fetch(&value, with, __ATOMIC_SEQ_CST), now); \
    } while (0)

static void try_alone(u64 is, u64 with) {
    static _Atomic u64 value;
    u64 plain = is, other = is + 1;
    TRY(add, with, is + with);
    TRY(sub, with, is - with);
    TRY(and, with, is & with);
    TRY(or, with, is | with);
    TRY(xor, with, is ^ with);
    say("nand", __atomic_fetch_nand(&plain, with, __ATOMIC_SEQ_CST), is);
    say("nand", __atomic_load_n(&plain, __ATOMIC_SEQ_CST), ~(is & with));
    say("nand", __atomic_nand_fetch(&plain, with, __ATOMIC_SEQ_CST), ~(~(is & with) & with));
    atomic_store(&value, is);
    say("compare", atomic_compare_exchange_strong(&value, &other, with), 0);
    say("compare", other, is);
    say("compare", atomic_compare_exchange_strong(&value, &other, with), 1);
    say("exchange", atomic_exchange(&value, is), with);
    say("load", atomic_load(&value), is);
}

static void try_triple(int k) {
    const Triple one = {{k, k + 1, k + 2}};
    Triple seen, other = {{-1, k, 0}};
    atomic_store(&triple, one);
    seen = atomic_load(&triple);
    say("load_any", (u64)memcmp(&seen, &one, sizeof one), 0);
    say("compare_any", atomic_compare_exchange_strong(&triple, &other, seen), 0);
    say("compare_any", (u64)memcmp(&other, &one, sizeof one), 0);
    other.parts[2] = 7;
    seen = atomic_exchange(&triple, other);
    say("exchange_any", (u64)seen.parts[2], (u64)k + 2);
    say("exchange_any", (u64)atomic_load(&triple).parts[2], 7);
}

static void *together(void *nothing) {
    (void)nothing;
    pthread_barrier_wait(&begin);
    for (unsigned long k = 0; k < TIMES * rounds; k++) {
        u64 seen = atomic_load(&summed);
        atomic_fetch_add(&shared, 0x100000001ull);
        while (!atomic_compare_exchange_weak(&summed, &seen, seen + 0xffffffffull)) {}
    }
    pthread_barrier_wait(&middle);
    for (unsigned long k = 0; k < rounds; k++) {
        Triple was = atomic_load(&triple), next;
        do {
            next = (Triple){{was.parts[0] + 1, was.parts[1] + 2, was.parts[2] + 3}};
        } while (!atomic_compare_exchange_weak(&triple, &was, next));
    }
    return NULL;
}

static void try_together(void) {
    pthread_t threads[THREADS];
    atomic_store(&triple, (Triple){{0}});
    if (pthread_barrier_init(&begin, NULL, THREADS) || pthread_barrier_init(&middle, NULL, THREADS)) abort();
    for (int k = 0; k < THREADS; k++)
        if (pthread_create(&threads[k], NULL, together, NULL)) abort();
    for (int k = 0; k < THREADS; k++) pthread_join(threads[k], NULL);
    say("together", atomic_load(&shared), THREADS * TIMES * rounds * 0x100000001ull);
    say("together", atomic_load(&summed), THREADS * TIMES * rounds * 0xffffffffull);
    say("together", (u64)atomic_load(&triple).parts[2], THREADS * rounds * 3);
}

int main(int count, char **words) {
    static const u64 values[] = {0, 1, 0xffffffff, 0x100000000, 0x8000000080000000, ~0ull, 0x123456789abcdef0};
    static const unsigned found = sizeof values / sizeof *values;
    rounds = count > 1 ? strtoul(words[1], NULL, 10) : 0;
    if (count > 2) ending = words[2];
    for (unsigned k = 0; k < found; k++)
        for (unsigned m = 0; m < found; m++) try_alone(values[k], values[m]);
    for (int k = -3; k < 3; k++) try_triple(k);
    say("is_free", __atomic_is_lock_free(8, NULL) && __atomic_is_lock_free(4, NULL) && !__atomic_is_lock_free(12, NULL), 1);
    try_together();
    printf("%lu rounds of %d threads, %lu wrong\n", rounds, THREADS, wrong);
    return wrong != 0;
}
