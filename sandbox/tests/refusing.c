/* Counts the calls of refusing.h, refuses those that are to be refused, and counts what the process has. */
#define _GNU_SOURCE
#include "refusing.h"
#include "testing.h"
#include "wrapping.h"

#include "inner.h"

#include <asm/ldt.h>
#include <errno.h>
#include <linux/membarrier.h>
#include <pthread.h>
#include <signal.h>
#include <stdarg.h>
#include <string.h>
#include <sys/mman.h>
#include <sys/syscall.h>
#include <time.h>
#include <unistd.h>

#define WORDS 5 /* of a system call, at most */

int refusing_releases;
static long blocks, mapped, timers, files;
static __thread unsigned nth, made;
static __thread int later, moved_nothing, first = -1;

void refusing_begin(unsigned from, int all) {
    nth = from;
    later = all;
    made = 0;
    first = -1;
}

int refusing_end(void) {
    nth = 0;
    return first;
}

const char *refusing_name(int which) {
#define AS_TEXT(name) #name,
    static const char *const names[] = {REFUSABLE(AS_TEXT)};
    return which < 0 ? "nothing" : names[which];
}

/* Whether this call is refused. */
static int refuses(int which) {
    int now = nth != 0 && ++made >= nth && (later || made == nth);
    if (now && first < 0) {
        first = which;
    }
    if (now) {
        errno = ENOMEM;
    }
    return now;
}

static void count(long *what, long by) {
    (void)__atomic_add_fetch(what, by, __ATOMIC_SEQ_CST);
}

static void *counted(void *block) {
    count(&blocks, block != NULL);
    return block;
}

REAL(void *, malloc, size_t len) {
    return refuses(REFUSES_malloc) ? NULL : counted(__real_malloc(len));
}

REAL(void *, calloc, size_t many, size_t len) {
    return refuses(REFUSES_calloc) ? NULL : counted(__real_calloc(many, len));
}

REAL(void *, realloc, void *old, size_t len) {
    void *got = refuses(REFUSES_realloc) ? NULL : __real_realloc(old, len);
    return old == NULL ? counted(got) : got;
}

REAL(void *, aligned_alloc, size_t to, size_t len) {
    return refuses(REFUSES_aligned_alloc) ? NULL : counted(__real_aligned_alloc(to, len));
}

REAL(void, free, void *block) {
    count(&blocks, -(block != NULL));
    __real_free(block);
}

/* Behind a move that was refused, what is there is only asked for once more. */
REAL(void *, mmap, void *at, size_t len, int protection, int flags, int file, off_t offset) {
    int asks = moved_nothing;
    void *got;
    moved_nothing = 0;
    got = !asks && refuses(REFUSES_mmap) ? MAP_FAILED : __real_mmap(at, len, protection, flags, file, offset);
    count(&mapped, got != MAP_FAILED ? (long)len : 0);
    return got;
}

/* What was at the place to which it moves is gone. */
REAL(void *, mremap, void *at, size_t len, size_t to_len, int flags, void *to) {
    void *got = refuses(REFUSES_mremap) ? MAP_FAILED : __real_mremap(at, len, to_len, flags, to);
    count(&mapped, got != MAP_FAILED ? -(long)len : 0);
    moved_nothing = got == MAP_FAILED;
    return got;
}

/* Nobody waits for the library's lock while much memory is given back. */
static void check_unlocked(size_t len) {
    int is_free = len <= 4096 || pthread_mutex_trylock(&ncs_lock) == 0;
    CHECK(is_free);
    if (is_free && len > 4096) {
        (void)pthread_mutex_unlock(&ncs_lock);
    }
}

REAL(int, munmap, void *at, size_t len) {
    int got = -1;
    check_unlocked(len);
    if (!refusing_releases) {
        got = __real_munmap(at, len);
        count(&mapped, got == 0 ? -(long)len : 0);
    }
    return got;
}

REAL(int, mprotect, void *at, size_t len, int protection) {
    return refuses(REFUSES_mprotect) ? -1 : __real_mprotect(at, len, protection);
}

REAL(int, madvise, void *at, size_t len, int advice) {
    if (advice == MADV_DONTNEED) {
        check_unlocked(len);
    }
    return refuses(REFUSES_madvise) ? -1 : __real_madvise(at, len, advice);
}

REAL(int, memfd_create, const char *name, unsigned flags) {
    int got = refuses(REFUSES_memfd_create) ? -1 : __real_memfd_create(name, flags);
    count(&files, got >= 0);
    return got;
}

REAL(int, fallocate, int file, int mode, off_t from, off_t len) {
    return refuses(REFUSES_fallocate) ? -1 : __real_fallocate(file, mode, from, len);
}

REAL(int, ftruncate, int file, off_t len) {
    return refuses(REFUSES_ftruncate) ? -1 : __real_ftruncate(file, len);
}

REAL(ssize_t, pwrite, int file, const void *from, size_t len, off_t at) {
    return refuses(REFUSES_pwrite) ? -1 : __real_pwrite(file, from, len, at);
}

REAL(int, close, int file) {
    int got = __real_close(file);
    count(&files, -(got == 0));
    return got;
}

REAL(int, pthread_mutex_init, pthread_mutex_t *lock, const pthread_mutexattr_t *how) {
    return refuses(REFUSES_pthread_mutex_init) ? ENOMEM : __real_pthread_mutex_init(lock, how);
}

/* To give back a signal isn't refused. */
REAL(int, sigaction, int sig, const struct sigaction *to, struct sigaction *was) {
    int gives_back = was == NULL;
    return !gives_back && refuses(REFUSES_sigaction) ? -1 : __real_sigaction(sig, to, was);
}

/* To give up a stack isn't refused. */
REAL(int, sigaltstack, const stack_t *to, stack_t *was) {
    int gives_up = to != NULL && (to->ss_flags & SS_DISABLE) != 0;
    return !gives_up && refuses(REFUSES_sigaltstack) ? -1 : __real_sigaltstack(to, was);
}

/* To give back a mask, or signals, isn't refused. */
REAL(int, pthread_sigmask, int how, const sigset_t *to, sigset_t *was) {
    return was != NULL && refuses(REFUSES_pthread_sigmask) ? EINVAL : __real_pthread_sigmask(how, to, was);
}

REAL(int, pthread_key_create, pthread_key_t *key, void (*end)(void *)) {
    return refuses(REFUSES_pthread_key_create) ? EAGAIN : __real_pthread_key_create(key, end);
}

REAL(int, pthread_setspecific, pthread_key_t key, const void *value) {
    return refuses(REFUSES_pthread_setspecific) ? ENOMEM : __real_pthread_setspecific(key, value);
}

REAL(int, pthread_atfork, void (*prepare)(void), void (*parent)(void), void (*child)(void)) {
    return refuses(REFUSES_pthread_atfork) ? ENOMEM : __real_pthread_atfork(prepare, parent, child);
}

REAL(int, pthread_create, pthread_t *thread, const pthread_attr_t *how, void *(*what)(void *), void *one) {
    return refuses(REFUSES_pthread_create) ? EAGAIN : __real_pthread_create(thread, how, what, one);
}

REAL(ssize_t, getrandom, void *to, size_t len, unsigned how) {
    return refuses(REFUSES_getrandom) ? -1 : __real_getrandom(to, len, how);
}

REAL(int, timer_create, clockid_t clock, struct sigevent *event, timer_t *timer) {
    int got = refuses(REFUSES_timer_create) ? -1 : __real_timer_create(clock, event, timer);
    count(&timers, got == 0);
    return got;
}

REAL(int, timer_delete, timer_t timer) {
    int got = __real_timer_delete(timer);
    count(&timers, -(got == 0));
    return got;
}

/* To stop a timer, which a tick may do at any moment, isn't refused. */
REAL(int, timer_settime, timer_t timer, int flags, const struct itimerspec *to, struct itimerspec *was) {
    int stops = to->it_value.tv_sec == 0 && to->it_value.tv_nsec == 0;
    return !stops && refuses(REFUSES_timer_settime) ? -1 : __real_timer_settime(timer, flags, to, was);
}

/* Of a modify_ldt that empties an entry. */
static int is_release(const long *words) {
    const struct user_desc *d = (const struct user_desc *)words[1];
    return words[0] == 0x11 && d->seg_not_present;
}

/* Whether a system call of the second wall is refused. */
static int refuses_number(long number) {
    static const struct {
        long number;
        int which;
    } known[] = {{SYS_seccomp, REFUSES_seccomp},
                 {444, REFUSES_landlock_create_ruleset},
                 {445, REFUSES_landlock_add_rule},
                 {446, REFUSES_landlock_restrict_self}};
    size_t k = 0;
    while (k < sizeof known / sizeof *known && known[k].number != number) {
        k++;
    }
    return k < sizeof known / sizeof *known && refuses(known[k].which);
}

REAL(long, syscall, long number, ...) {
    long words[WORDS];
    int k, refused = 0;
    va_list more;
    va_start(more, number);
    for (k = 0; k < WORDS; k++) {
        words[k] = va_arg(more, long);
    }
    va_end(more);
    if (number == SYS_modify_ldt) {
        refused = is_release(words) ? refusing_releases : refuses(REFUSES_modify_ldt);
    } else if (number == SYS_rt_sigaction) {
        refused = refuses(REFUSES_rt_sigaction);
    } else if (number == SYS_sigaltstack) {
        refused = refuses(REFUSES_sigaltstack);
    } else if (number == SYS_membarrier && (int)words[0] == MEMBARRIER_CMD_REGISTER_PRIVATE_EXPEDITED_SYNC_CORE) {
        refused = refuses(REFUSES_membarrier);
    } else {
        refused = refuses_number(number);
    }
    return refused ? -1 : __real_syscall(number, words[0], words[1], words[2], words[3], words[4]);
}

/* To end what it has begun isn't refused. */
REAL(int, prctl, int option, ...) {
    unsigned long words[4];
    int k;
    va_list more;
    va_start(more, option);
    for (k = 0; k < 4; k++) {
        words[k] = va_arg(more, unsigned long);
    }
    va_end(more);
    return words[0] != 0 && refuses(REFUSES_prctl) ? -1 : __real_prctl(option, words[0], words[1], words[2], words[3]);
}

Holding refusing_holding(void) {
    static unsigned long table[LDT_ENTRIES];
    Holding h = {blocks, mapped, 0, timers, files};
    long len = __real_syscall(SYS_modify_ldt, 0L, table, sizeof table, 0L), k;
    for (k = 0; k < len / (long)sizeof *table; k++) {
        h.segments += table[k] != 0;
    }
    return h;
}
