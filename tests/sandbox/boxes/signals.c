/* Signals of the host's while threads are inside: whoever handles them, no frame is written where untrusted code chooses, and each comes
   in. What the library does with those that it takes from the host. Rows that want a process of their own run in a child. */
#define _GNU_SOURCE
#include "asides.h"

#include "inner.h"

#include <errno.h>
#include <fcntl.h>
#include <sched.h>
#include <stdio.h>
#include <stdlib.h>
#include <string.h>
#include <sys/mman.h>
#include <sys/syscall.h>
#include <sys/wait.h>
#include <time.h>
#include <unistd.h>

#define LONG 100000u /* milliseconds */
#define MANY 5000    /* calls, more than come before the mask stays on */

static NcsModule *module;
static volatile unsigned handled;     /* signals, by the handler below */
static volatile uintptr_t handled_on; /* on which stack */

static void on_signal(int sig) {
    int here;
    (void)sig;
    handled_on = (uintptr_t)&here;
    __atomic_add_fetch(&handled, 1, __ATOMIC_SEQ_CST);
}

static void handle(int sig, void (*handler)(int), int flags, int also_blocked) {
    struct sigaction action;
    memset(&action, 0, sizeof action);
    action.sa_handler = handler;
    action.sa_flags = flags;
    CHECK(sigemptyset(&action.sa_mask) == 0 && (also_blocked == 0 || sigaddset(&action.sa_mask, also_blocked) == 0));
    CHECK(sigaction(sig, &action, NULL) == 0);
}

static int wait_for(unsigned signals) {
    unsigned k;
    for (k = 0; k < 10000 && __atomic_load_n(&handled, __ATOMIC_SEQ_CST) < signals; k++) {
        (void)usleep(1000);
    }
    return k < 10000;
}

/* ---- While a thread is inside */

/* A handler that comes late, without SA_ONSTACK, while the code has its stack pointer in another box. */
static void try_late_handler(void) {
    NcsBox *victim = asides_box(module, LONG);
    Aside a = {.box = asides_box(module, LONG), .function = LOOPS, .argument = asides_flat(victim, 0x300000)};
    asides_begin(&a);
    handle(SIGUSR1, on_signal, 0, 0);
    handled = 0;
    CHECK(pthread_kill(a.thread, SIGUSR1) == 0 && wait_for(1) && handled_on >> 32 != 0);
    CHECK(asides_end(&a).how == NCS_KILLED && asides_touched(victim) == 0);
    CHECK(ncs_free(a.box) && ncs_free(victim));
    puts("a handler that comes late");
}

/* They wait until the thread makes another choice. */
static uint64_t release(NcsBox *box, void *user, const uint32_t *args) {
    (void)args;
    (void)user;
    CHECK(raise(SIGUSR1) == 0 && handled == 0 && ncs_signals(NCS_SIGNALS_BLOCKED, NULL) && handled == 1);
    CHECK(ncs_signals(NCS_SIGNALS_HELD, NULL) && raise(SIGUSR1) == 0 && handled == 1);
    (void)box;
    return 3;
}

static void try_held(void) {
    NcsBox *victim = asides_box(module, LONG), *box = asides_box(module, LONG);
    Aside a = {.box = asides_box(module, LONG), .function = LOOPS, .argument = asides_flat(victim, 0x300000), .how = NCS_SIGNALS_HELD};
    handled = 0;
    asides_begin(&a);
    CHECK(pthread_kill(a.thread, SIGUSR1) == 0 && usleep(50000) == 0 && handled == 0);
    CHECK(asides_end(&a).how == NCS_KILLED && asides_touched(victim) == 0);
    handled = 0; /* the thread has ended with it */
    CHECK(ncs_callback(box, release, NULL, 0).at != 0 && ncs_signals(NCS_SIGNALS_HELD, NULL));
    CHECK(asides_call(box, CALLS, 0).result == 3 && handled == 1 && ncs_signals(NCS_SIGNALS_BLOCKED, NULL) && handled == 2);
    CHECK(ncs_free(a.box) && ncs_free(victim) && ncs_free(box));
    puts("signals that are held");
}

/* The code goes on where it was, with its registers: it counts. */
static void try_going_on(void) {
    Aside a = {.box = asides_box(module, LONG), .function = COUNTS};
    volatile uint32_t *count = ncs_at(a.box, (NcsAt){COUNT}, 4);
    unsigned k;
    asides_begin(&a);
    handled = 0;
    for (k = 1; k <= 20 && testing_wrong == 0; k++) {
        uint32_t before;
        CHECK(pthread_kill(a.thread, SIGUSR1) == 0 && wait_for(k));
        before = *count;
        while (*count - before < 1000 && a.end.how == 0) {
            (void)sched_yield();
        }
    }
    CHECK(asides_end(&a).how == NCS_KILLED && a.end.place >= COUNTS && a.end.place < COUNTS + 26 && ncs_free(a.box));
    puts("code that goes on");
}

/* glibc ends a thread by a signal that it hides. */
static void try_cancel(void) {
    NcsBox *victim = asides_box(module, LONG);
    Aside a = {.box = asides_box(module, LONG), .function = LOOPS, .argument = asides_flat(victim, 0x300000)};
    void *result = NULL;
    asides_begin(&a);
    CHECK(pthread_cancel(a.thread) == 0);
    ncs_kill(a.box); /* cancellation is deferred, to a point that the thread passes outside */
    CHECK(pthread_join(a.thread, &result) == 0 && asides_touched(victim) == 0);
    CHECK(asides_call(a.box, RETURNS, 0).how == NCS_DEAD && ncs_reset(a.box) && ncs_free(a.box) && ncs_free(victim));
    puts("a thread that is cancelled");
}

static void *cancel_at_once(void *one) {
    Aside *a = one;
    CHECK(pthread_setcanceltype(PTHREAD_CANCEL_ASYNCHRONOUS, NULL) == 0);
    a->end = asides_call(a->box, a->function, a->argument);
    return NULL;
}

/* AddressSanitizer takes what such a thread leaves on its stack for a fault. */
static void try_cancel_inside(void) {
#ifndef __SANITIZE_ADDRESS__
    NcsBox *victim = asides_box(module, LONG);
    Aside a = {.box = asides_box(module, LONG), .function = LOOPS, .argument = asides_flat(victim, 0x300000)};
    void *result = NULL;
    CHECK(pthread_create(&a.thread, NULL, cancel_at_once, &a) == 0);
    while (__atomic_load_n(&a.box->owner, __ATOMIC_SEQ_CST) == NULL) {
        (void)usleep(1000);
    }
    CHECK(usleep(20000) == 0 && pthread_cancel(a.thread) == 0 && pthread_join(a.thread, &result) == 0);
    CHECK(result == PTHREAD_CANCELED && asides_touched(victim) == 0);
    CHECK(asides_call(a.box, RETURNS, 0).how == NCS_DEAD && ncs_reset(a.box) && asides_call(a.box, RETURNS, 0).how == NCS_RETURNED);
    CHECK(ncs_free(a.box) && ncs_free(victim));
#else
    (void)cancel_at_once;
#endif
    puts("a thread that is cancelled at once");
}

/* The host's own end of a signal is as without boxes. */
static int loop_in_child(void) {
    NcsBox *box = asides_box(asides_module(), LONG);
    (void)alarm(1);
    return (int)asides_call(box, LOOPS, 0).how;
}

/* Ticks that anybody sends take no time. The thread has handled them before its box is killed. */
static void try_forged_ticks(void) {
    Aside a = {.box = asides_box(module, 2000), .function = COUNTS};
    siginfo_t info;
    unsigned k;
    asides_begin(&a);
    memset(&info, 0, sizeof info);
    info.si_code = SI_TIMER;
    for (k = 0; k < 2000; k++) {
        CHECK(k % 2 != 0 ? pthread_kill(a.thread, TICK_SIGNAL) == 0 : syscall(SYS_rt_sigqueueinfo, getpid(), TICK_SIGNAL, &info) == 0);
    }
    CHECK(usleep(50000) == 0 && asides_end(&a).how == NCS_KILLED && ncs_free(a.box));
    puts("ticks that aren't the timer's");
}

/* ---- Outside: nobody sees the mask */

static uint64_t mask_now(void) {
    uint64_t mask = 0;
    CHECK(syscall(SYS_rt_sigprocmask, SIG_SETMASK, NULL, &mask, sizeof mask) == 0);
    return mask;
}

static void call_often(NcsBox *box, int outcome) {
    unsigned k, good = 0;
    for (k = 0; k < MANY; k++) {
        good += asides_call(box, RETURNS, 0).how == (uint32_t)outcome;
    }
    CHECK(good == MANY);
}

/* What a host may do right behind its calls, with a mask of its own. */
#define HOSTS_MASK SIGNAL_BIT(SIGUSR2)

static int asks_for_it(void) {
    return mask_now() == HOSTS_MASK;
}

static int sends_itself_a_signal(void) {
    handled = 0;
    return pthread_kill(pthread_self(), SIGUSR1) == 0 && handled == 1 && mask_now() == HOSTS_MASK;
}

static int forks(void) {
    int status = -1;
    pid_t child = fork();
    if (child == 0) {
        _exit(mask_now() != HOSTS_MASK);
    }
    return child > 0 && waitpid(child, &status, 0) == child && status == 0;
}

static void *mask_of_new(void *mask) {
    *(uint64_t *)mask = mask_now();
    return NULL;
}

static int starts_a_thread(void) {
    uint64_t mask = 0;
    pthread_t thread;
    return pthread_create(&thread, NULL, mask_of_new, &mask) == 0 && pthread_join(thread, NULL) == 0 && mask == HOSTS_MASK;
}

static int loses_its_stack(void) {
    stack_t none = {.ss_flags = SS_DISABLE};
    return sigaltstack(&none, NULL) == 0;
}

/* Ticks come at any moment, as between a system call that is dispatched and its handler. */
static int has_ended;

static void *send_ticks(void *thread) {
    while (!__atomic_load_n(&has_ended, __ATOMIC_SEQ_CST)) {
        (void)pthread_kill(*(pthread_t *)thread, TICK_SIGNAL); /* so many may be queued, and no more */
        (void)usleep(10);
    }
    return NULL;
}

static void try_ticks(void) {
    NcsBox *box = asides_box(module, LONG);
    pthread_t self = pthread_self(), other;
    uint64_t before = mask_now();
    unsigned k, good = 0;
    CHECK(asides_call(box, RETURNS, 0).how == NCS_RETURNED && pthread_create(&other, NULL, send_ticks, &self) == 0);
    for (k = 0; k < 4 * MANY; k++) {
        ncs_thread->mask.outs = 100000; /* as after many calls, and no system call for long */
        good += asides_call(box, RETURNS, 0).how == NCS_RETURNED && mask_now() == before;
    }
    __atomic_store_n(&has_ended, 1, __ATOMIC_SEQ_CST);
    CHECK(good == 4 * MANY && pthread_join(other, NULL) == 0 && ncs_free(box));
    puts("ticks at any moment");
}

static volatile int is_time; /* for a signal to the thread that waits */

/* It makes no system call. */
static int waits_for_a_signal(void) {
    uint64_t k;
    handled = 0;
    is_time = 1;
    for (k = 0; k < 20000000000u && handled == 0; k++) {}
    return handled == 1;
}

static const struct Deed {
    const char *name;
    int (*does)(void);
    uint32_t then; /* a call ends so */
} DEEDS[] = {
    {"asks for its mask", asks_for_it, NCS_RETURNED},
    {"sends itself a signal", sends_itself_a_signal, NCS_RETURNED},
    {"forks", forks, NCS_RETURNED},
    {"starts a thread", starts_a_thread, NCS_RETURNED},
    {"loses its alternate stack", loses_its_stack, NCS_HOST},
    {"waits for a signal without a system call", waits_for_a_signal, NCS_RETURNED},
};

static void *do_one(void *one) {
    const struct Deed *deed = one;
    NcsBox *box = asides_box(module, LONG);
    uint64_t mine = HOSTS_MASK;
    CHECK(syscall(SYS_rt_sigprocmask, SIG_SETMASK, &mine, NULL, sizeof mine) == 0);
    call_often(box, NCS_RETURNED);
    CHECK(deed->does());
    CHECK(asides_call(box, RETURNS, 0).how == deed->then && ncs_free(box));
    return NULL;
}

/* Each on a thread of its own, whose mask stays on between two calls. */
static void try_deeds(void) {
    size_t k;
    for (k = 0; k < sizeof DEEDS / sizeof *DEEDS; k++) {
        pthread_t thread;
        is_time = 0;
        CHECK(pthread_create(&thread, NULL, do_one, (void *)(uintptr_t)&DEEDS[k]) == 0);
        while (DEEDS[k].does == waits_for_a_signal && !is_time) {
            (void)usleep(1000);
        }
        if (is_time) {
            CHECK(usleep(50000) == 0 && pthread_kill(thread, SIGUSR1) == 0);
        }
        CHECK(pthread_join(thread, NULL) == 0);
        printf("a host that %s\n", DEEDS[k].name);
    }
}

/* ---- What gets lost */

static void try_lost_stack(void) {
    NcsBox *box = asides_box(module, LONG);
    stack_t none, before;
    memset(&none, 0, sizeof none);
    none.ss_flags = SS_DISABLE;
    call_often(box, NCS_RETURNED);
    CHECK(sigaltstack(&none, &before) == 0 && asides_call(box, RETURNS, 0).how == NCS_HOST);
    CHECK(sigaltstack(&before, NULL) == 0 && asides_call(box, RETURNS, 0).how == NCS_RETURNED && ncs_free(box));
    puts("an alternate stack that is lost");
}

static void lose(int sig, int at_once) {
    NcsBox *box = asides_box(module, LONG);
    Aside a = {.box = asides_box(module, LONG), .function = COUNTS};
    NcsLimits limits = {.memory = ASIDES_MEMORY, .depth = 1, .milliseconds = 1};
    struct sigaction ours;
    NcsRefusal why;
    asides_begin(&a);
    CHECK(sigaction(sig, NULL, &ours) == 0);
    handle(sig, on_signal, SA_ONSTACK, 0);
    CHECK(ncs_box_new(module, &limits, &why) == NULL && why.kind == NCS_LOST_HANDLER && why.at == (uint32_t)sig);
    CHECK(ncs_module_code("\xF4", 1, NULL) == NULL);
    if (at_once) {
        CHECK(pthread_join(a.thread, NULL) == 0 && a.end.how == NCS_HOST);
    }
    CHECK(sigaction(sig, &ours, NULL) == 0);
    CHECK((at_once || asides_end(&a).how == NCS_KILLED) && ncs_free(a.box));
    CHECK(asides_call(box, RETURNS, 0).how == NCS_RETURNED && ncs_free(box));
}

/* Without the signal of the ticks a loop isn't interrupted. */
static void try_lost_handlers(void) {
    lose(SIGSEGV, 1);
    lose(SIGTRAP, 1);
    lose(TICK_SIGNAL, 0);
    puts("handlers that are lost");
}

/* A promise that isn't kept ends the process before anything of the stack is used. */
static int lose_promised_stack(void) {
    NcsBox *box = asides_box(asides_module(), LONG);
    stack_t none;
    memset(&none, 0, sizeof none);
    none.ss_flags = SS_DISABLE;
    CHECK(asides_call(box, RETURNS, 0).how == NCS_RETURNED && ncs_signals(NCS_SIGNALS_PROMISED, NULL));
    CHECK(asides_call(box, RETURNS, 0).how == NCS_RETURNED && sigaltstack(&none, NULL) == 0 && dup2(open("/dev/null", O_WRONLY), 2) == 2);
    (void)asides_call(box, LOOPS, asides_flat(box, 0x300000));
    return testing_wrong != 0;
}

/* ---- Promises */

static int has_flag(int sig) {
    struct {
        void *handler;
        unsigned long flags;
        void *restorer;
        uint64_t mask;
    } action;
    CHECK(syscall(SYS_rt_sigaction, sig, NULL, &action, sizeof action.mask) == 0);
    return action.handler != NULL && (action.flags & SA_ONSTACK) != 0;
}

/* glibc has handled no cancellation yet. */
static int promise_in_child(void) {
    NcsModule *m = asides_module();
    NcsBox *box = asides_box(m, LONG);
    NcsLimits limits = {.memory = ASIDES_MEMORY, .depth = 1, .milliseconds = 1};
    NcsRefusal why;
    handle(SIGUSR2, on_signal, 0, 0);
    CHECK(!ncs_signals(NCS_SIGNALS_PROMISED, &why) && why.kind == NCS_BAD_HANDLER && why.at == SIGUSR2);
    CHECK(!ncs_signals(3, &why) && why.kind == NCS_BAD_LIMITS);
    handle(SIGUSR2, on_signal, SA_ONSTACK, 0);
    CHECK(ncs_signals(NCS_SIGNALS_PROMISED, &why) && why.kind == NCS_OK && has_flag(32) && has_flag(33));
    CHECK(asides_call(box, RETURNS, 0).how == NCS_RETURNED);
    handle(SIGUSR2, on_signal, 0, 0);
    CHECK(ncs_box_new(m, &limits, &why) == NULL && why.kind == NCS_BAD_HANDLER && why.at == SIGUSR2);
    CHECK(ncs_signals(NCS_SIGNALS_BLOCKED, NULL));
    CHECK(ncs_free(ncs_box_new(m, &limits, &why)) && why.kind == NCS_OK);
    return testing_wrong != 0;
}

/* The thread has blocked all signals since its first call. */
static int block_and_promise(void) {
    NcsBox *box = asides_box(asides_module(), 20);
    uint64_t all = ~0ull;
    CHECK(asides_call(box, RETURNS, 0).how == NCS_RETURNED);
    CHECK(syscall(SYS_rt_sigprocmask, SIG_SETMASK, &all, NULL, sizeof all) == 0 && ncs_signals(NCS_SIGNALS_PROMISED, NULL));
    CHECK(asides_call(box, LOOPS, 0).how == NCS_LATE && ncs_reset(box) && asides_call(box, FAULTS, 0).how == NCS_FAULTED);
    return testing_wrong != 0;
}

/* ---- What handlers of the host's do while a thread is inside */

static NcsBox *one_box;
static pthread_key_t behind;
static int is_looping;

/* Another library's destructor takes memory that was just freed, and makes a system call. */
static void fill_memory(void *none) {
    size_t len;
    (void)none;
    for (len = 1024; len < 8192; len += 64) {
        void *taken = malloc(len);
        CHECK(taken != NULL && memset(taken, 0xFF, len) == taken);
    }
    (void)usleep(1);
}

static void end_thread(int sig) {
    (void)sig;
    pthread_exit(NULL);
}

static void *loop(void *none) {
    CHECK(asides_call(one_box, RETURNS, 0).how == NCS_RETURNED && pthread_setspecific(behind, &behind) == 0);
    call_often(one_box, NCS_RETURNED);
    __atomic_store_n(&is_looping, 1, __ATOMIC_SEQ_CST);
    (void)asides_call(one_box, LOOPS, 0);
    return none;
}

static int end_in_handler(void) {
    pthread_t thread;
    one_box = asides_box(asides_module(), LONG);
    CHECK(asides_call(one_box, RETURNS, 0).how == NCS_RETURNED); /* its key is before this one */
    CHECK(pthread_key_create(&behind, fill_memory) == 0);
    handle(SIGUSR1, end_thread, 0, 0);
    CHECK(pthread_create(&thread, NULL, loop, NULL) == 0);
    while (!__atomic_load_n(&is_looping, __ATOMIC_SEQ_CST)) {
        (void)usleep(1000);
    }
    CHECK(usleep(20000) == 0 && pthread_kill(thread, SIGUSR1) == 0 && pthread_join(thread, NULL) == 0);
    CHECK(asides_call(one_box, RETURNS, 0).how == NCS_DEAD);
    return testing_wrong != 0;
}

static volatile pid_t forked = -1;

static void fork_here(int sig) {
    (void)sig;
    forked = fork();
}

/* The child has none of the code, and the host's mask. */
static int fork_in_handler(void) {
    uint64_t before = mask_now();
    int status = -1;
    NcsEnd end;
    one_box = asides_box(asides_module(), 900);
    handle(SIGALRM, fork_here, 0, 0);
    (void)ualarm(700000, 0);           /* the loop has begun by then, even on a busy machine */
    call_often(one_box, NCS_RETURNED); /* and no system call from here on */
    end = asides_call(one_box, LOOPS, 0);
    if (forked == 0) {
        _exit(end.how != NCS_HOST || mask_now() != before);
    }
    CHECK(end.how == NCS_LATE && waitpid(forked, &status, 0) == forked && status == 0);
    return testing_wrong != 0;
}

/* ---- What the host blocks */

static uint64_t own_time(void) {
    struct timespec now = {0, 0};
    CHECK(clock_gettime(CLOCK_THREAD_CPUTIME_ID, &now) == 0);
    return (uint64_t)now.tv_sec * 1000 + (uint64_t)now.tv_nsec / 1000000;
}

/* A tick that has waited since before the call takes none of its time. */
static int block_ticks(void) {
    NcsBox *box = asides_box(asides_module(), 200);
    uint64_t all = ~0ull, begun;
    CHECK(asides_call(box, RETURNS, 0).how == NCS_RETURNED);
    CHECK(syscall(SYS_rt_sigprocmask, SIG_SETMASK, &all, NULL, sizeof all) == 0);
    for (begun = own_time(); own_time() < begun + 400;) {}
    begun = own_time();
    CHECK(asides_call(box, LOOPS, 0).how == NCS_LATE && own_time() >= begun + 200);
    return testing_wrong != 0;
}

static void *hold_and_wait(void *none) {
    CHECK(ncs_signals(NCS_SIGNALS_HELD, NULL));
    __atomic_store_n(&is_looping, 1, __ATOMIC_SEQ_CST);
    for (;;) {
        (void)pause();
    }
    return none;
}

/* glibc asks each thread by a signal of its own. */
static int change_user(void) {
    pthread_t thread;
    (void)asides_module();
    CHECK(pthread_create(&thread, NULL, hold_and_wait, NULL) == 0);
    while (!__atomic_load_n(&is_looping, __ATOMIC_SEQ_CST)) {
        (void)usleep(1000);
    }
    (void)alarm(20);
    CHECK(setresuid((uid_t)-1, (uid_t)-1, (uid_t)-1) == 0);
    return testing_wrong != 0;
}

/* ---- What the host had before */

static volatile sig_atomic_t reports, was_blocked, usr2_waited;

static void on_reported(int sig) {
    uint64_t mask = mask_now();
    reports++;
    was_blocked = (mask & SIGNAL_BIT(sig)) != 0;
    usr2_waited = (mask & SIGNAL_BIT(SIGUSR2)) != 0;
    if (reports > 3) {
        _exit(40);
    }
}

static void *null_page(void) {
    void *page = mmap(NULL, 4096, PROT_NONE, MAP_PRIVATE | MAP_ANONYMOUS, -1, 0);
    return page;
}

/* The usual crash reporter: it reports, and returns to the instruction that faults again, this time by default. */
static int report_once(void) {
    handle(SIGSEGV, on_reported, SA_RESETHAND, SIGUSR2);
    (void)asides_module();
    *(volatile char *)null_page() = 1;
    return 41;
}

static void mend(int sig, siginfo_t *info, void *context) {
    (void)context;
    on_reported(sig);
    CHECK(mprotect((void *)((uintptr_t)info->si_addr & ~4095ul), 4096, PROT_READ | PROT_WRITE) == 0);
}

static int hand_on_masks(void) {
    struct sigaction action;
    memset(&action, 0, sizeof action);
    action.sa_sigaction = mend;
    action.sa_flags = SA_SIGINFO;
    CHECK(sigaddset(&action.sa_mask, SIGUSR2) == 0 && sigaction(SIGSEGV, &action, NULL) == 0);
    action.sa_flags = SA_SIGINFO | SA_NODEFER;
    CHECK(sigemptyset(&action.sa_mask) == 0 && sigaction(SIGBUS, &action, NULL) == 0);
    (void)asides_module();
    *(volatile char *)null_page() = 1;
    CHECK(reports == 1 && was_blocked && usr2_waited && (mask_now() & SIGNAL_BIT(SIGUSR2)) == 0);
    return testing_wrong != 0;
}

static int hand_on_nodefer(void) {
    handle(SIGBUS, on_reported, SA_NODEFER, 0);
    (void)asides_module();
    CHECK(raise(SIGBUS) == 0 && reports == 1 && !was_blocked && !usr2_waited);
    return testing_wrong != 0;
}

static int ignored_ticks(void) {
    CHECK(signal(TICK_SIGNAL, SIG_IGN) != SIG_ERR);
    CHECK(asides_call(asides_box(asides_module(), 20), LOOPS, 0).how == NCS_LATE);
    return testing_wrong != 0;
}

/* A host that has a handler for SIGSYS keeps it. */
static int own_sigsys(void) {
    NcsBox *box;
    handle(SIGSYS, on_reported, 0, 0);
    box = asides_box(asides_module(), LONG);
    call_often(box, NCS_RETURNED);
    CHECK(reports == 0 && raise(SIGSYS) == 0 && reports == 1);
    return testing_wrong != 0;
}

/* Nothing of the host's is touched by a refusal. */
static int refuse_first(void) {
    static const int taken[] = {SIGSEGV, SIGBUS, SIGILL, SIGFPE, SIGTRAP, SIGSYS};
    unsigned maps = testing_low_maps(), segments = testing_segments();
    struct sigaction before[sizeof taken / sizeof *taken], now;
    NcsRefusal why;
    size_t k;
    handle(SIGSEGV, on_reported, 0, 0);
    handle(TICK_SIGNAL, on_reported, 0, 0);
    for (k = 0; k < sizeof taken / sizeof *taken; k++) {
        CHECK(sigaction(taken[k], NULL, &before[k]) == 0);
    }
    CHECK(ncs_module_code("\xC3", 1, &why) == NULL && why.kind == NCS_BAD_CODE);
    CHECK(ncs_module_live(1, 1, &why) == NULL && why.kind == NCS_BAD_SYSTEM && !ncs_signals(NCS_SIGNALS_BLOCKED, &why));
    for (k = 0; k < sizeof taken / sizeof *taken; k++) {
        CHECK(sigaction(taken[k], NULL, &now) == 0 && now.sa_handler == before[k].sa_handler && now.sa_flags == before[k].sa_flags);
    }
    CHECK(testing_low_maps() == maps && testing_segments() == segments && signal(TICK_SIGNAL, SIG_DFL) != SIG_ERR);
    CHECK(asides_call(asides_box(asides_module(), 20), LOOPS, 0).how == NCS_LATE);
    return testing_wrong != 0;
}

static const Child CHILDREN[] = {
    {"a crash reporter that runs once", report_once, 1000 + SIGSEGV},
    {"a handler's mask", hand_on_masks, 0},
    {"a handler that isn't deferred", hand_on_nodefer, 0},
    {"ticks that the parent ignores", ignored_ticks, 0},
    {"a host with a handler for SIGSYS", own_sigsys, 0},
    {"a refusal", refuse_first, 0},
    {"a promise", promise_in_child, 0},
    {"a promise where all is blocked", block_and_promise, 0},
    {"a promise that isn't kept", lose_promised_stack, 134},
    {"a loop that a signal ends", loop_in_child, 1000 + SIGALRM},
    {"a handler that ends its thread", end_in_handler, 0},
    {"a handler that forks", fork_in_handler, 0},
    {"a host that blocks ticks", block_ticks, 0},
    {"another user beside held signals", change_user, 0},
};

static void (*const ROWS[])(void) = {
    try_late_handler, try_held,  try_going_on, try_cancel,     try_cancel_inside,
    try_forged_ticks, try_deeds, try_ticks,    try_lost_stack, try_lost_handlers,
};

/* What is wrong in one row may keep the next ones waiting, so nothing follows it. */
int main(void) {
    size_t k;
    (void)setvbuf(stdout, NULL, _IOLBF, 0);
    if (!asides_children(CHILDREN, sizeof CHILDREN / sizeof *CHILDREN)) {
        puts("skipped: signals beside boxes: the system has no boxes");
        return SKIPPED;
    }
    module = asides_module();
    for (k = 0; k < sizeof ROWS / sizeof *ROWS && testing_wrong == 0; k++) {
        ROWS[k]();
    }
    ncs_module_free(module);
    printf("%u wrong\n", testing_wrong);
    return testing_wrong != 0;
}
