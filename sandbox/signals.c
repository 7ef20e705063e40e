/* The handlers: a thread that faults inside, whose time is over, or for which signals wait, comes out by its signal frame. TRUSTED, NOT
   PROVED. [21, 23, 24, 26] */
#define _GNU_SOURCE
#include "inner.h"

#include <errno.h>
#include <string.h>
#include <sys/syscall.h>
#include <ucontext.h>
#include <unistd.h>

static int is_inside(const Thread *t, const greg_t *reg) {
    return t != NULL && ((uint64_t)reg[REG_CSGSFS] & 0xFFFF) == t->code_selector;
}

/* The thread comes out on the host's stack and with the host's selectors. */
static void come_out(Thread *t, greg_t *reg, uint32_t why) {
    static const int order[8] = {REG_RAX, REG_RCX, REG_RDX, REG_RBX, REG_RSP, REG_RBP, REG_RSI, REG_RDI};
    int i;
    for (i = 0; i < 8; i++) {
        t->reg[i] = (uint32_t)reg[order[i]];
    }
    t->place = (uint32_t)reg[REG_RIP];
    t->flags = (uint32_t)reg[REG_EFL];
    t->why = why;
    reg[REG_R8] = (greg_t)(uintptr_t)t;
    reg[REG_RIP] = (greg_t)(uintptr_t)ncs_switch_out;
    reg[REG_RSP] = (greg_t)t->host_stack;
    reg[REG_EFL] = 0x202;
    reg[REG_CSGSFS] = (greg_t)(((uint64_t)reg[REG_CSGSFS] & 0x0000FFFFFFFF0000ull) | HOST_CODE | (uint64_t)HOST_DATA << 48);
}

/* ---- What isn't this library's */

/* With no handler there, as the system would have done it. The instruction faults again, or else the signal is sent again. */
static void end_by(int sig, int faults_again) {
    (void)signal(sig, SIG_DFL);
    if (!faults_again) {
        (void)raise(sig);
    }
}

/* The mask with which the system would have begun an earlier handler. At the return the frame's mask is on again. */
static void set_mask_of(int sig, const struct sigaction *old, const ucontext_t *context) {
    uint64_t mask, further;
    memcpy(&mask, &context->uc_sigmask, sizeof mask);
    memcpy(&further, &old->sa_mask, sizeof further);
    ncs_mask_set(mask | further | ((old->sa_flags & SA_NODEFER) ? 0 : SIGNAL_BIT(sig)));
}

/* A signal of the host's own goes to what handled it before, as the system would have done it. */
static void hand_on(int sig, siginfo_t *info, ucontext_t *context) {
    struct sigaction old = ncs_before[sig];
    int sent = info->si_code <= 0, is_default = !(old.sa_flags & SA_SIGINFO) && old.sa_handler == SIG_DFL;
    int ignores = !(old.sa_flags & SA_SIGINFO) && old.sa_handler == SIG_IGN;
    if (is_default || (ignores && !sent)) {
        end_by(sig, !sent && sig != SIGSYS);
        return;
    }
    if (ignores) {
        return;
    }
    if (old.sa_flags & SA_RESETHAND) {
        memset(&ncs_before[sig], 0, sizeof ncs_before[sig]);
    }
    set_mask_of(sig, &old, context);
    if (old.sa_flags & SA_SIGINFO) {
        old.sa_sigaction(sig, info, context);
    } else {
        old.sa_handler(sig);
    }
}

/* ---- Faults and ticks */

int ncs_is_killed(const Thread *t) {
    unsigned k = 0;
    while (k < t->depth && !__atomic_load_n(&t->frames[k].box->killed, __ATOMIC_SEQ_CST)) {
        k++;
    }
    return k < t->depth;
}

/* Whether this call is to end, or one around it, with which it ends too. */
int ncs_is_over(const Thread *t) {
    return t->used >= t->deadline || ncs_is_killed(t);
}

/* A stop is a general protection at F4. In live code it may be one of a change that is under way, and gone by now [25]. Live code also stops
   where it has no page. */
static int meet(Thread *t, uint32_t place) {
    const NcsModule *m = t->box->module;
    int has_no_page = t->trap == PAGE_FAULT && m->live != NULL && t->fault_at == m->text_at + place;
    if ((t->trap != GENERAL_PROTECTION && !has_no_page) || place >= m->limit) {
        return MET_FAULT;
    }
    if (m->live != NULL) {
        return ncs_live_meet(m->live, t, place);
    }
    return *(const volatile uint8_t *)((uintptr_t)m->text_at + place) == NC_STOP ? MET_STOP : MET_FAULT;
}

/* A thread that goes back to its instruction may trap there again, as long as changes are made. It goes back no more when its time is
   over. */
static void on_fault(Thread *t, siginfo_t *info, greg_t *reg) {
    int met;
    t->trap = (uint32_t)reg[REG_TRAPNO];
    t->fault_at = t->trap == PAGE_FAULT ? (uint32_t)(uintptr_t)info->si_addr : 0;
    if (ncs_life() != t->life) { /* a child that was made on top of untrusted code has none of its text */
        come_out(t, reg, OUT_LOST);
        return;
    }
    met = meet(t, (uint32_t)reg[REG_RIP]);
    t->at_stop = met == MET_STOP;
    if (t->at_stop) { /* the same interrupt with and without a page */
        t->trap = GENERAL_PROTECTION;
        t->fault_at = 0;
    }
    if (met != MET_NOTHING) {
        come_out(t, reg, OUT_TRAP);
    } else if (ncs_is_over(t)) {
        come_out(t, reg, OUT_TICK);
    }
}

/* Why a thread inside has to come out at a tick, or 0. */
static uint32_t comes_out(const Thread *t) {
    return ncs_is_over(t) ? OUT_TICK : ncs_signals_lost() != 0 ? OUT_LOST : ncs_mask_waits(t) ? OUT_SIGNALS : 0;
}

/* Where the thread is in the host it comes out by a later tick, or doesn't go in any more. Without a call under way the ticks end. Anybody
   may send the signal, since the time is read from the thread's clock. */
static void on_tick(Thread *t, greg_t *reg) {
    static const struct itimerspec never;
    if (t->depth == 0) {
        t->ticking = timer_settime(t->timer, 0, &never, NULL) != 0;
        return;
    }
    ncs_thread_count(t);
    t->mask.looks = 1;
    if (is_inside(t, reg)) {
        uint32_t why = comes_out(t);
        if (why != 0) {
            come_out(t, reg, why);
        }
    }
}

/* By way of ncs_handler. Errors of the host's are as they were. */
void ncs_handle(int sig, siginfo_t *info, void *context) {
    greg_t *reg = ((ucontext_t *)context)->uc_mcontext.gregs;
    Thread *t = ncs_thread;
    int kept = errno;
    if (sig == SIGSYS && ncs_mask_on_call(t, info, context)) {
        errno = kept;
        return;
    }
    if (t != NULL && !is_inside(t, reg)) {
        ncs_mask_take_back(t, context);
    }
    if (sig == TICK_SIGNAL) {
        if (t != NULL) {
            on_tick(t, reg);
        }
    } else if (sig != SIGSYS && is_inside(t, reg) && info->si_code > 0) {
        on_fault(t, info, reg);
    } else {
        hand_on(sig, info, context);
    }
    errno = kept;
}
