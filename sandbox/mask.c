/* While a thread is inside, the signals of others are blocked, so the system writes no frame of their handlers where untrusted code
   chooses. TRUSTED, NOT PROVED. [21]

   It takes a system call to set a mask, and two for each way in and out would cost more than the way. So the mask may stay on after a way
   out, until the host's code makes its next system call. The system turns that into a SIGSYS first (syscall user dispatch, Linux 5.11). The
   handler gives the host its mask back, and then the call is made. So no code of the host's can see the mask, and signals wait no longer
   than to the next tick. A SIGSYS costs as much as a few masks, so the mask stays on only after as many ways out as made that pay. */
#define _GNU_SOURCE
#include "inner.h"

#include <string.h>
#include <sys/prctl.h>
#include <sys/syscall.h>
#include <ucontext.h>
#include <unistd.h>

/* Older headers lack these. */
enum { SET_DISPATCH = 59, DISPATCH_OFF = 0, DISPATCH_ON = 1, DISPATCHED_CALL = 2 }; /* of prctl; the last is an si_code */
#define KEEPS_AFTER 8u   /* ways out, at first; as many behind them make a SIGSYS pay */
#define DOUBLED_MOST 8u  /* so often, where it doesn't pay */
#define LOOKS_EACH 4096u /* ways in, even if no tick comes */
#define CALL_LEN 2       /* bytes of the instruction of a system call */

/* By the system call itself, since glibc keeps two signals out of each mask. */
static int set_mask(const uint64_t *mask, uint64_t *old) {
    long made;
    register long len __asm__("r10") = sizeof *mask;
    __asm__ volatile("syscall"
                     : "=a"(made)
                     : "0"((long)SYS_rt_sigprocmask), "D"(SIG_SETMASK), "S"(mask), "d"(old), "r"(len)
                     : "rcx", "r11", "memory");
    return made == 0;
}

void ncs_mask_set(uint64_t mask) {
    ncs_must(set_mask(&mask, NULL), "a thread can't have its mask");
}

/* One instruction, so no handler comes between. It isn't locked, since only this thread and its handlers write the selector. Whether the
   mask has stayed on until now. No handler takes it back any more. */
static int claim(Mask *m) {
    uint8_t was = CALLS_DISPATCHED, now = CALLS_ALLOWED;
    __asm__ volatile("cmpxchgb %2, %1" : "+a"(was), "+m"(m->selector) : "q"(now) : "memory", "cc");
    return was == CALLS_DISPATCHED;
}

static void arm(Mask *m, int on) {
    int made = on ? prctl(SET_DISPATCH, (long)DISPATCH_ON, 0l, 0l, &m->selector) : prctl(SET_DISPATCH, (long)DISPATCH_OFF, 0l, 0l, 0l);
    m->armed = on && made == 0;
    m->is_useless = on && made != 0;
}

/* Whether handlers and alternate stack are there. The stack of this thread can't have gone without a system call, so it is looked at unless
   the mask has stayed on. Another thread can replace a handler at any time, so these are looked at for each tick. */
static int can_go(Mask *m, int stayed_on) {
    int looks = m->looks || ++m->entries >= LOOKS_EACH;
    if ((looks || !stayed_on) && !ncs_thread_has_stack()) {
        return 0;
    }
    if (looks) {
        m->entries = 0;
        m->looks = 0;
        looks = ncs_signals_lost() != 0;
        m->looks |= looks;
    }
    return !looks;
}

/* Ticks that waited may have waited since long before the call. */
static void put_on(Thread *t) {
    Mask *m = &t->mask;
    uint64_t inside = ~ncs_signals_own(), used = t->used;
    ncs_must(set_mask(&inside, &m->hosts), "a thread can't have its mask");
    if (t->begins && (m->hosts & SIGNAL_BIT(TICK_SIGNAL)) != 0) {
        ncs_thread_count(t);
        t->deadline += t->used - used;
    }
}

/* A thread that can't go in has the host's mask. */
int ncs_mask_in(Thread *t) {
    Mask *m = &t->mask;
    int stayed_on = claim(m), blocks = m->how == NCS_SIGNALS_BLOCKED;
    if (blocks && !stayed_on) {
        put_on(t);
    }
    t->begins = 0;
    if (can_go(m, stayed_on || !blocks)) {
        return 1;
    }
    if (blocks) {
        ncs_mask_set(m->hosts);
    }
    return 0;
}

static int may_stay_on(Thread *t) {
    Mask *m = &t->mask;
    if (++m->outs < KEEPS_AFTER << m->doubled || m->is_useless || t->why == OUT_SIGNALS || t->why == OUT_LOST) {
        return 0;
    }
    if (!m->armed && ncs_signals_dispatch()) {
        arm(m, 1);
    }
    return m->armed;
}

void ncs_mask_out(Thread *t) {
    if (t->mask.how != NCS_SIGNALS_BLOCKED) {
        return;
    }
    if (may_stay_on(t)) {
        t->mask.selector = CALLS_DISPATCHED;
    } else {
        ncs_mask_set(t->mask.hosts);
    }
}

/* ---- For the handlers */

int ncs_mask_waits(const Thread *t) {
    uint64_t waiting = 0;
    return t->mask.how == NCS_SIGNALS_BLOCKED && syscall(SYS_rt_sigpending, &waiting, sizeof waiting) == 0 &&
           (waiting & ~ncs_signals_own() & ~t->mask.hosts) != 0;
}

void ncs_mask_take_back(Thread *t, void *context) {
    Mask *m = &t->mask;
    if (claim(m)) {
        memcpy(&((ucontext_t *)context)->uc_sigmask, &m->hosts, sizeof m->hosts);
        arm(m, 0);
    }
}

int ncs_mask_on_call(Thread *t, const siginfo_t *info, void *context) {
    Mask *m;
    if (t == NULL || info->si_code != DISPATCHED_CALL || !t->mask.armed) {
        return 0;
    }
    m = &t->mask;
    ncs_mask_take_back(t, context);
    m->doubled = m->outs >= (KEEPS_AFTER << m->doubled) + KEEPS_AFTER ? 0 : m->doubled < DOUBLED_MOST ? m->doubled + 1 : m->doubled;
    m->outs = 0;
    ((ucontext_t *)context)->uc_mcontext.gregs[REG_RIP] -= CALL_LEN;
    return 1;
}

/* ---- The choice of the host's */

static void choose(Mask *m, uint32_t how) {
    if (claim(m) || m->how == NCS_SIGNALS_HELD) {
        ncs_mask_set(m->hosts);
    }
    if (how == NCS_SIGNALS_HELD) {
        uint64_t held = ~(ncs_signals_own() | SIGNAL_BIT(FIRST_OF_LIBC) | SIGNAL_BIT(LAST_OF_LIBC)); /* others wait for these */
        ncs_must(set_mask(&held, &m->hosts), "a thread can't have its mask");
    }
    if (how == NCS_SIGNALS_PROMISED) {
        ncs_must(ncs_signals_unblock(), "a thread can't have its mask");
    }
    m->looks = 1;
    m->how = how;
}

/* The system reads the selector as long as calls are dispatched. */
void ncs_mask_end(Thread *t) {
    if (claim(&t->mask)) {
        ncs_mask_set(t->mask.hosts);
    }
    arm(&t->mask, 0);
}

int ncs_mask_is_kept(NcsRefusal *why) {
    return ncs_thread == NULL || ncs_thread->mask.how != NCS_SIGNALS_PROMISED || ncs_signals_promised(why);
}

int ncs_signals(uint32_t how, NcsRefusal *why) {
    Thread *t;
    ncs_refuse(why, NCS_OK, "nothing is refused");
    if (how > NCS_SIGNALS_PROMISED) {
        ncs_refuse(why, NCS_BAD_LIMITS, "there is no such way to treat signals");
        return 0;
    }
    if (how == NCS_SIGNALS_HELD && !ncs_signals_of_libc()) {
        ncs_refuse(why, NCS_BAD_SYSTEM, "the C library's own signals can't be held");
        return 0;
    }
    if ((how == NCS_SIGNALS_PROMISED && !ncs_signals_promised(why)) || !ncs_prepare(why)) {
        return 0;
    }
    t = ncs_thread_get();
    if (t == NULL) {
        ncs_unprepare();
        ncs_refuse(why, NCS_BAD_SYSTEM, "this thread can't be prepared for boxes");
        return 0;
    }
    choose(&t->mask, how);
    return 1;
}
