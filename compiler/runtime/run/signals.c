/* Signals that a program sends to itself: none comes from outside. One that is blocked waits. */

#include <signal.h>
#include <string.h>
#include "calls.h"
#include "ksigaction.h"

enum { SIGNALS = 65, ENDED_BY_SIGNAL = 128 };

typedef unsigned long long Set;

static struct k_sigaction actions[SIGNALS];
static Set blocked, waiting;
static unsigned handled; /* how many times a handler has begun */

static Set bit(int signal) { return 1ull << (signal - 1); }

static Set set_of(const void *words) {
    Set set;
    memcpy(&set, words, sizeof set);
    return set;
}

static int is_ignored(int signal) {
    int by_default = signal == SIGCHLD || signal == SIGURG || signal == SIGWINCH || signal == SIGCONT;
    return actions[signal].handler == SIG_IGN || (actions[signal].handler == SIG_DFL && by_default);
}

static void handle(int signal) {
    struct k_sigaction action = actions[signal];
    if (is_ignored(signal)) return;
    if (action.handler == SIG_DFL) nc_exit(ENDED_BY_SIGNAL + signal);
    if (action.flags & SA_RESETHAND) actions[signal].handler = SIG_DFL;
    Set before = blocked;
    siginfo_t about = {.si_signo = signal, .si_code = SI_TKILL};
    handled++;
    blocked |= set_of(action.mask) | (action.flags & SA_NODEFER ? 0 : bit(signal));
    ((void (*)(int, siginfo_t *, void *))action.handler)(signal, &about, 0);
    blocked = before;
}

/* Those that wait and are no longer blocked, the lowest first. A handler may change both. */
static void handle_waiting(void) {
    for (int signal = 1; waiting & ~blocked; signal = signal % (SIGNALS - 1) + 1) {
        if (waiting & ~blocked & bit(signal)) {
            waiting &= ~bit(signal);
            handle(signal);
            signal = 0;
        }
    }
}

static long send(int signal) {
    if (signal < 0 || signal >= SIGNALS) return -EINVAL;
    if (signal == 0) return 0;
    waiting |= bit(signal);
    handle_waiting();
    return 0;
}

static long set_action(int signal, const struct k_sigaction *to, struct k_sigaction *before) {
    if (signal < 1 || signal >= SIGNALS || (to && (signal == SIGKILL || signal == SIGSTOP))) return -EINVAL;
    if (before) *before = actions[signal];
    if (to) actions[signal] = *to;
    return 0;
}

static long set_blocked(int how, const void *words, void *before) {
    Set never = bit(SIGKILL) | bit(SIGSTOP), set = words ? set_of(words) & ~never : 0, was = blocked;
    if (words && how != SIG_BLOCK && how != SIG_UNBLOCK && how != SIG_SETMASK) return -EINVAL;
    if (words) blocked = how == SIG_BLOCK ? was | set : how == SIG_UNBLOCK ? was & ~set : set;
    if (before) memcpy(before, &was, sizeof was);
    handle_waiting();
    return 0;
}

int let_signals(const void *mask) {
    Set was = blocked;
    unsigned before = handled;
    blocked = set_of(mask);
    handle_waiting();
    blocked = was;
    return handled != before;
}

static long tell_waiting(void *to) {
    Set set = waiting & blocked;
    memcpy(to, &set, sizeof set);
    return 0;
}

long call_of_signals(long number, long a, long b, long c) {
    switch (number) {
    case SYS_tkill: return send((int)b);
    case SYS_kill: return a == 0 || a == OWN_PROCESS ? send((int)b) : -ESRCH;
    case SYS_rt_sigaction: return set_action((int)a, (const struct k_sigaction *)b, (struct k_sigaction *)c);
    case SYS_rt_sigprocmask: return set_blocked((int)a, (const void *)b, (void *)c);
    case SYS_rt_sigpending: return tell_waiting((void *)a);
    default: return -ENOSYS;
    }
}
