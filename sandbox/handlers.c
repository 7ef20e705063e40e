/* Which handlers are there: those of this library, what they have replaced, and whether others may run on top of untrusted code. TRUSTED,
   NOT PROVED. [21, 23, 24] */
#define _GNU_SOURCE
#include "inner.h"

#include <string.h>
#include <sys/syscall.h>
#include <unistd.h>

static const int FAULTS[] = {SIGSEGV, SIGBUS, SIGILL, SIGFPE, SIGTRAP}; /* by which untrusted code can come out: all of them */
#define FAULT_COUNT (sizeof FAULTS / sizeof *FAULTS)

struct sigaction ncs_before[SIGNALS];
static uint64_t own; /* the bits of this library's signals */

uint64_t ncs_signals_own(void) {
    return own;
}

/* An action as the system call has it. */
typedef struct KernelAction {
    uintptr_t handler;
    unsigned long flags;
    void *restorer;
    uint64_t mask;
} KernelAction;

static int action_of(int sig, KernelAction *action) {
    return syscall(SYS_rt_sigaction, sig, NULL, action, sizeof action->mask) == 0;
}

static int is_ours(int sig) {
    KernelAction action;
    return action_of(sig, &action) && action.handler == (uintptr_t)ncs_handler && (action.flags & SA_ONSTACK);
}

/* SIGSYS may become the host's. Then it isn't unblocked inside any more. */
int ncs_signals_lost(void) {
    KernelAction action;
    size_t i;
    if ((own & SIGNAL_BIT(SIGSYS)) && action_of(SIGSYS, &action) && action.handler != (uintptr_t)ncs_handler) {
        (void)__atomic_and_fetch(&own, ~SIGNAL_BIT(SIGSYS), __ATOMIC_SEQ_CST);
    }
    for (i = 0; i < FAULT_COUNT; i++) {
        if (!is_ours(FAULTS[i])) {
            return FAULTS[i];
        }
    }
    return is_ours(TICK_SIGNAL) ? 0 : TICK_SIGNAL;
}

int ncs_signals_dispatch(void) {
    return (own & SIGNAL_BIT(SIGSYS)) != 0 && is_ours(SIGSYS);
}

/* No tick comes between one of these signals and its handler, which gives the host's mask back in the frame that it finds. */
static int take(int sig) {
    struct sigaction action;
    memset(&action, 0, sizeof action);
    action.sa_sigaction = ncs_handler;
    action.sa_flags = SA_SIGINFO | SA_ONSTACK | SA_RESTART;
    if (sigemptyset(&action.sa_mask) != 0 || sigaddset(&action.sa_mask, TICK_SIGNAL) != 0 ||
        sigaction(sig, &action, &ncs_before[sig]) != 0) {
        return 0;
    }
    own |= SIGNAL_BIT(sig);
    return 1;
}

static int is_free(int sig) {
    struct sigaction now;
    return sigaction(sig, NULL, &now) == 0 && !(now.sa_flags & SA_SIGINFO) && (now.sa_handler == SIG_DFL || now.sa_handler == SIG_IGN);
}

/* The signal of the ticks must be free. SIGSYS is taken if it is. */
int ncs_signals_begin(void) {
    size_t i;
    if (!is_free(TICK_SIGNAL) || !take(TICK_SIGNAL)) {
        return 0;
    }
    for (i = 0; i < FAULT_COUNT; i++) {
        if (!take(FAULTS[i])) {
            ncs_signals_end();
            return 0;
        }
    }
    if (is_free(SIGSYS)) {
        (void)take(SIGSYS);
    }
    return 1;
}

/* Gives back what was taken, where nobody has taken it since. */
void ncs_signals_end(void) {
    KernelAction now;
    int sig;
    for (sig = 1; sig < SIGNALS; sig++) {
        if ((own & SIGNAL_BIT(sig)) && (!action_of(sig, &now) || now.handler == (uintptr_t)ncs_handler)) {
            (void)sigaction(sig, &ncs_before[sig], NULL);
        }
    }
    own = 0;
}

int ncs_signals_unblock(void) {
    sigset_t needed;
    int sig, made = sigemptyset(&needed) == 0;
    for (sig = 1; sig < SIGNALS && made; sig++) {
        made = !(own & SIGNAL_BIT(sig)) || sigaddset(&needed, sig) == 0;
    }
    return made && pthread_sigmask(SIG_UNBLOCK, &needed, NULL) == 0;
}

static int is_fault(int sig) {
    size_t i = 0;
    while (i < FAULT_COUNT && FAULTS[i] != sig) {
        i++;
    }
    return i < FAULT_COUNT;
}

/* The number of a signal whose handler lacks SA_ONSTACK; 0, or -1 if the system doesn't tell. Those of faults are this library's, or will
   be. */
static int bad_handler(void) {
    int sig;
    for (sig = 1; sig < SIGNALS; sig++) {
        KernelAction action;
        if (!action_of(sig, &action)) {
            return -1;
        }
        if (action.handler > (uintptr_t)SIG_IGN && !(action.flags & SA_ONSTACK) && !is_fault(sig)) {
            return sig;
        }
    }
    return 0;
}

static void *wait_for_end(void *none) {
    for (;;) {
        (void)pause();
    }
    return none;
}

/* glibc hides its two handlers from sigaction, and installs them without SA_ONSTACK, with the process's first thread and its first
   cancellation. So these are made here, and then the handlers get the flag. The thread takes none of the host's signals. */
int ncs_signals_of_libc(void) {
    static int are_there; /* atomic */
    KernelAction action;
    int sig;
    sigset_t all, kept;
    pthread_t thread;
    int made;
    if (__atomic_load_n(&are_there, __ATOMIC_SEQ_CST)) {
        return 1;
    }
    if (sigfillset(&all) != 0 || pthread_sigmask(SIG_SETMASK, &all, &kept) != 0) {
        return 0;
    }
    made = pthread_create(&thread, NULL, wait_for_end, NULL) == 0;
    made = pthread_sigmask(SIG_SETMASK, &kept, NULL) == 0 && made && pthread_cancel(thread) == 0 && pthread_join(thread, NULL) == 0;
    for (sig = FIRST_OF_LIBC; sig <= LAST_OF_LIBC && made; sig++) {
        made = action_of(sig, &action);
        action.flags |= SA_ONSTACK;
        made = made && (action.handler <= (uintptr_t)SIG_IGN || syscall(SYS_rt_sigaction, sig, &action, NULL, sizeof action.mask) == 0);
    }
    __atomic_store_n(&are_there, made, __ATOMIC_SEQ_CST);
    return made;
}

int ncs_signals_promised(NcsRefusal *why) {
    int sig = ncs_signals_of_libc() ? bad_handler() : -1;
    if (sig < 0) {
        ncs_refuse(why, NCS_BAD_SYSTEM, "the system doesn't tell which handlers there are");
        return 0;
    }
    return sig == 0 || ncs_refuse_signal(why, NCS_BAD_HANDLER, sig);
}
