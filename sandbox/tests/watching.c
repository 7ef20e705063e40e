/* The calls of the library that the linker leads here: each notes a step, or fails, as the variables of watching.h say. */
#define _GNU_SOURCE
#include "watching.h"
#include "wrapping.h"

#include <errno.h>
#include <linux/membarrier.h>
#include <stdarg.h>
#include <string.h>
#include <sys/syscall.h>
#include <unistd.h>

NcsModule *watching_module;
Step watching_steps[STEPS];
unsigned watching_count, watching_fail_serializations;
uint8_t *watching_lent;
int watching_refuse, watching_times, watching_errno, watching_advice, watching_no_room;
long watching_fail_after = -1;

static int is_locked(Live *live) {
    if (pthread_mutex_trylock(&live->lock) != 0) {
        return 1;
    }
    CHECK(pthread_mutex_unlock(&live->lock) == 0);
    return 0;
}

static void note(int stamp) {
    Step *step = &watching_steps[watching_count % STEPS];
    if (watching_module != NULL) {
        step->stamp = stamp;
        step->locked = is_locked(watching_module->live);
        step->changes = watching_module->live->changes;
        memcpy(step->bytes, codes_text(watching_module, HERE), SEEN);
        watching_count++;
    }
}

static int refuses(long number) {
    if (watching_refuse != number || watching_times == 0) {
        return 0;
    }
    watching_times--;
    errno = watching_errno;
    return 1;
}

REAL(int, memfd_create, const char *name, unsigned flags) {
    return refuses(SYS_memfd_create) ? -1 : __real_memfd_create(name, flags);
}

REAL(int, fallocate, int file, int mode, off_t from, off_t len) {
    return watching_no_room || refuses(SYS_fallocate) ? (errno = ENOSPC, -1) : __real_fallocate(file, mode, from, len);
}

REAL(int, ftruncate, int file, off_t len) {
    return refuses(SYS_ftruncate) ? -1 : __real_ftruncate(file, len);
}

REAL(int, madvise, void *at, size_t len, int advice) {
    return (watching_advice == 0 || watching_advice == advice) && refuses(SYS_madvise) ? -1 : __real_madvise(at, len, advice);
}

/* The library passes up to four words, and the kernel takes no more from it. */
REAL(long, syscall, long number, ...) {
    long a, b, c, d;
    va_list words;
    va_start(words, number);
    a = va_arg(words, long);
    b = va_arg(words, long);
    c = va_arg(words, long);
    d = va_arg(words, long);
    va_end(words);
    if (refuses(number)) {
        return -1;
    }
    if (number == SYS_membarrier && (int)a == MEMBARRIER_CMD_PRIVATE_EXPEDITED_SYNC_CORE) {
        if (watching_fail_serializations != 0) {
            watching_fail_serializations--;
            errno = ENOMEM;
            return -1;
        }
        note(0);
    }
    return __real_syscall(number, a, b, c, d);
}

REAL(NcChange, nc_region_load, NcRegion *region, NcVetted *vetted, NcAct *acts, size_t acts_len) {
    if (watching_lent != NULL) {
        *watching_lent = 0xC3;
    }
    return __real_nc_region_load(region, vetted, acts, acts_len);
}

REAL(NcStamp, nc_region_end_delete, NcRegion *region) {
    note(1);
    return __real_nc_region_end_delete(region);
}

static int fails(void) {
    return watching_fail_after >= 0 && watching_fail_after-- == 0;
}

REAL(void *, malloc, size_t len) {
    return fails() ? NULL : __real_malloc(len);
}

REAL(void *, calloc, size_t count, size_t len) {
    return fails() ? NULL : __real_calloc(count, len);
}

REAL(void *, realloc, void *at, size_t len) {
    return fails() ? NULL : __real_realloc(at, len);
}

REAL(void *, aligned_alloc, size_t to, size_t len) {
    return fails() ? NULL : __real_aligned_alloc(to, len);
}
