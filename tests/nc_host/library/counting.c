/* The library's calls of malloc, realloc and free, which tests/nc_host/library links to these by --wrap: they are counted, and a test can
   have allocations refused, or one of them held up, and hears how large they are. */
#include <sched.h>
#include <stdatomic.h>
#include <stdbool.h>
#include <stddef.h>

extern void *__real_malloc(size_t size);
extern void *__real_realloc(void *old, size_t size);
extern void __real_free(void *old);

static atomic_long asked, kept, until_held;
static atomic_size_t largest;
static atomic_bool refuses, holds;

/* How many allocations there were, and how many blocks aren't freed. */
long allocations_asked(void) {
    return asked;
}
long blocks_kept(void) {
    return kept;
}

/* The most bytes that one allocation asked for since the last call of this. */
size_t largest_allocation(void) {
    return atomic_exchange(&largest, 0);
}

/* Has each allocation refused from now on, or no longer. */
void refuse_allocations(bool wanted) {
    refuses = wanted;
}

/* Has the nth allocation from now on wait until it is let go; with 0 none. */
void hold_allocation(long nth) {
    until_held = nth;
}
bool allocation_is_held(void) {
    return holds;
}
void let_go(void) {
    holds = false;
}

static bool is_allowed(size_t size) {
    asked++;
    if (size > largest) {
        largest = size;
    }
    if (until_held > 0 && --until_held == 0) {
        for (holds = true; holds;) {
            sched_yield();
        }
    }
    return !refuses;
}

void *__wrap_malloc(size_t size) {
    void *found = is_allowed(size) ? __real_malloc(size) : NULL;
    kept += found != NULL;
    return found;
}

void *__wrap_realloc(void *old, size_t size) {
    void *found = is_allowed(size) ? __real_realloc(old, size) : NULL;
    kept += !old && found;
    return found;
}

void __wrap_free(void *old) {
    kept -= old != NULL;
    __real_free(old);
}
