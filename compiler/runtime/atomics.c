/* What code for i386 calls for atomic objects of 8 bytes and of other sizes than the processor's words. For any number of threads. */

#include <stdbool.h>
#include <stdint.h>
#include <string.h>

/* Names of the compiler's own can't be defined as such. */
#define NAMED(name) __asm__(#name)

/* Puts `next` there if `*expected` is there, else tells in `*expected` what is. */
static bool swapped(volatile uint64_t *at, uint64_t *expected, uint64_t next) {
    bool done;
    __asm__ volatile("lock cmpxchg8b %1"
                     : "=@ccz"(done), "+m"(*at), "+A"(*expected)
                     : "b"((uint32_t)next), "c"((uint32_t)(next >> 32))
                     : "memory");
    return done;
}

uint64_t load_8(volatile uint64_t *at, int order) NAMED(__atomic_load_8);
uint64_t load_8(volatile uint64_t *at, int order) {
    uint64_t is = 0;
    (void)order;
    swapped(at, &is, 0); /* stores nothing but the 0 that is there */
    return is;
}

bool compare_8(volatile uint64_t *at, uint64_t *expected, uint64_t next, int order, int otherwise) NAMED(__atomic_compare_exchange_8);
bool compare_8(volatile uint64_t *at, uint64_t *expected, uint64_t next, int order, int otherwise) {
    (void)order, (void)otherwise;
    return swapped(at, expected, next);
}

/* What changes the object to `next`, which may name `is`, its value before, and `with`. */
#define CHANGES(function, name, next) \
    uint64_t function(volatile uint64_t *at, uint64_t with, int order) NAMED(name); \
    uint64_t function(volatile uint64_t *at, uint64_t with, int order) { \
        uint64_t is = *at; \
        (void)order; \
        while (!swapped(at, &is, next)) {} \
        return is; \
    }
#define FETCHES(name, next) CHANGES(fetch_##name, __atomic_fetch_##name##_8, next)

CHANGES(exchange_8, __atomic_exchange_8, with)
/* clang-format off */
FETCHES(add, is + with)
FETCHES(sub, is - with)
FETCHES(and, is & with)
FETCHES(or, is | with)
FETCHES(xor, is ^ with)
FETCHES(nand, ~(is & with))
/* clang-format on */

void store_8(volatile uint64_t *at, uint64_t with, int order) NAMED(__atomic_store_8);
void store_8(volatile uint64_t *at, uint64_t with, int order) { exchange_8(at, with, order); }

/* Objects of other sizes are behind one lock. */
static volatile bool taken;

static void enter(void) {
    while (__atomic_test_and_set(&taken, __ATOMIC_ACQUIRE)) {}
}

static void leave(void) { __atomic_clear(&taken, __ATOMIC_RELEASE); }

void load(size_t len, const void *at, void *to, int order) NAMED(__atomic_load);
void load(size_t len, const void *at, void *to, int order) {
    (void)order;
    enter();
    memcpy(to, at, len);
    leave();
}

void store(size_t len, void *at, const void *with, int order) NAMED(__atomic_store);
void store(size_t len, void *at, const void *with, int order) {
    (void)order;
    enter();
    memcpy(at, with, len);
    leave();
}

void exchange(size_t len, void *at, const void *with, void *to, int order) NAMED(__atomic_exchange);
void exchange(size_t len, void *at, const void *with, void *to, int order) {
    (void)order;
    enter();
    memcpy(to, at, len);
    memcpy(at, with, len);
    leave();
}

bool compare(size_t len, void *at, void *expected, const void *with, int order, int otherwise) NAMED(__atomic_compare_exchange);
bool compare(size_t len, void *at, void *expected, const void *with, int order, int otherwise) {
    bool same;
    (void)order, (void)otherwise;
    enter();
    same = memcmp(at, expected, len) == 0;
    memcpy(same ? at : expected, same ? with : at, len);
    leave();
    return same;
}

bool is_free(size_t len, const volatile void *at) NAMED(__atomic_is_lock_free);
bool is_free(size_t len, const volatile void *at) { return len <= 8 && (len & (len - 1)) == 0 && ((uintptr_t)at & (len - 1)) == 0; }
