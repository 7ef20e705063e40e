/* What each thread needs before it calls a box: a stack for handlers, its signals, and a timer. TRUSTED, NOT PROVED. [20, 22, 24] */
#define _GNU_SOURCE
#include "inner.h"

#include <stdlib.h>
#include <string.h>
#include <sys/mman.h>
#include <sys/syscall.h>
#include <unistd.h>

#ifndef sigev_notify_thread_id
#define sigev_notify_thread_id _sigev_un._tid
#endif
#ifndef _SC_MINSIGSTKSZ
#define _SC_MINSIGSTKSZ 249
#endif
#define FRAME_LEAST 4096u /* of a signal, where the system doesn't tell */
#define HANDLERS 32768u   /* for handlers of the host's, at least, in a stack that is kept */
#define REPORTER 262144u  /* for one that the library hands a fault on to; what isn't used takes no memory */

_Static_assert(offsetof(Thread, place) == 32 && offsetof(Thread, code_selector) == 36 && offsetof(Thread, host_stack) == 40 &&
                   offsetof(Thread, why) == 48 && offsetof(Thread, data_selector) == 52 && offsetof(Thread, flags) == 56 &&
                   offsetof(Thread, serializes) == 60 && offsetof(Thread, landing) == 64,
               "switch.S and the landing page have these numbers");

__thread Thread *ncs_thread;
static __thread int has_ended; /* its destructor has run */
static pthread_key_t at_end;

/* Two frames of signals, with each register that this processor has, since a tick may come in the handler of a fault. */
static size_t frames_len(void) {
    static size_t len; /* atomic */
    size_t known = __atomic_load_n(&len, __ATOMIC_RELAXED);
    if (known == 0) {
        long frame = sysconf(_SC_MINSIGSTKSZ);
        known = 2 * (frame > (long)FRAME_LEAST ? (size_t)frame : FRAME_LEAST);
        __atomic_store_n(&len, known, __ATOMIC_RELAXED);
    }
    return known;
}

/* ---- The alternate stack */

/* Whether this stack is one that no 32-bit stack pointer reaches. */
static int is_good(const stack_t *stack) {
    return (stack->ss_flags & SS_DISABLE) == 0 && (uint64_t)(uintptr_t)stack->ss_sp >> 32 != 0 && stack->ss_size >= frames_len() + HANDLERS;
}

int ncs_thread_has_stack(void) {
    stack_t stack;
    return syscall(SYS_sigaltstack, NULL, &stack) == 0 && is_good(&stack);
}

/* A guard lies below it, so that a handler that needs more faults, and overwrites nothing. */
static int map_stack(Thread *t, stack_t *stack) {
    size_t len = (frames_len() + REPORTER + PAGE - 1) / PAGE * PAGE;
    uint8_t *at = mmap(NULL, PAGE + len, PROT_NONE, MAP_PRIVATE | MAP_ANONYMOUS | MAP_NORESERVE, -1, 0);
    if (at == MAP_FAILED) {
        return 0;
    }
    t->stack = at;
    t->stack_len = PAGE + len;
    memset(stack, 0, sizeof *stack);
    stack->ss_sp = at + PAGE;
    stack->ss_size = len;
    return mprotect(at + PAGE, len, PROT_READ | PROT_WRITE) == 0 && is_good(stack);
}

/* The stack that the thread has already is kept if it is a good one. */
static int make_stack(Thread *t) {
    stack_t stack;
    if (ncs_thread_has_stack()) {
        return 1;
    }
    if (map_stack(t, &stack) && sigaltstack(&stack, NULL) == 0) {
        return 1;
    }
    if (t->stack != NULL) {
        (void)munmap(t->stack, t->stack_len);
    }
    return 0;
}

/* Another one that the host has installed since stays. */
static void end_stack(Thread *t) {
    stack_t now, none;
    memset(&none, 0, sizeof none);
    none.ss_flags = SS_DISABLE;
    if (t->stack == NULL) {
        return;
    }
    if ((sigaltstack(NULL, &now) == 0 && now.ss_sp != (uint8_t *)t->stack + PAGE) || sigaltstack(&none, NULL) == 0) {
        (void)munmap(t->stack, t->stack_len);
    }
}

/* ---- Time */

/* It counts the processor time of the thread, so neither another thread nor a busy machine uses up a limit. */
static int make_timer(Thread *t) {
    struct sigevent event;
    memset(&event, 0, sizeof event);
    event.sigev_notify = SIGEV_THREAD_ID;
    event.sigev_signo = TICK_SIGNAL;
    event.sigev_notify_thread_id = (pid_t)syscall(SYS_gettid);
    return timer_create(CLOCK_THREAD_CPUTIME_ID, &event, &t->timer) == 0;
}

void ncs_thread_count(Thread *t) {
    struct timespec used;
    if (syscall(SYS_clock_gettime, CLOCK_THREAD_CPUTIME_ID, &used) == 0) {
        t->used = (uint64_t)used.tv_sec * 1000 * MILLISECOND + (uint64_t)used.tv_nsec;
    } else { /* a filter of the host's may forbid it */
        t->used += TICK;
    }
}

/* The handler ends the ticks only where it finds depth 0, so they run on until the calls end. */
int ncs_thread_watch(Thread *t) {
    static const struct itimerspec each = {{0, TICK}, {0, TICK}};
    if (t->ticking) {
        return 1;
    }
    ncs_thread_count(t);
    t->mask.looks = 1;
    t->ticking = 1;
    if (timer_settime(t->timer, 0, &each, NULL) != 0) {
        t->ticking = 0;
        return 0;
    }
    return 1;
}

/* ---- A thread */

/* The handler may tick until the timer is gone, and uses the thread and its stack until then. */
static void thread_end(void *one) {
    Thread *t = one;
    ncs_calls_abandon(t);
    ncs_mask_end(t);
    if (t->life == ncs_life()) {
        (void)timer_delete(t->timer);
    }
    ncs_thread = NULL;
    has_ended = 1;
    end_stack(t);
    free(t);
}

int ncs_threads_begin(void) {
    return pthread_key_create(&at_end, thread_end) == 0;
}

void ncs_threads_end(void) {
    (void)pthread_key_delete(at_end);
}

static int prepare(Thread *t) {
    t->landing = ncs_switch_landing;
    t->life = ncs_life();
    if (!make_stack(t)) {
        return 0;
    }
    if (ncs_signals_unblock() && make_timer(t)) {
        return 1;
    }
    end_stack(t);
    return 0;
}

/* The child of a fork has none of the timers. The calls that were under way there have been the parent's. */
static Thread *revive(Thread *t) {
    t->ticking = 0;
    t->mask.armed = 0;
    t->mask.is_useless = 0;
    if (!make_timer(t)) {
        return NULL;
    }
    t->life = ncs_life();
    return t;
}

/* A thread whose destructors run gets no second preparation, since nobody would end that. */
Thread *ncs_thread_get(void) {
    Thread *t = ncs_thread;
    uint32_t life = ncs_life();
    if (t != NULL && t->life == life) {
        return t;
    }
    if (life == 0 || has_ended) {
        return NULL;
    }
    if (t != NULL) {
        return revive(t);
    }
    t = calloc(1, sizeof *t);
    if (t == NULL || !prepare(t)) {
        free(t);
        return NULL;
    }
    ncs_thread = t;
    if (pthread_setspecific(at_end, t) != 0) {
        thread_end(t);
        has_ended = 0;
        return NULL;
    }
    return t;
}
