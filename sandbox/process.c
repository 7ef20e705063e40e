/* What a process needs before its first module: segments, handlers, and a page that leads out. TRUSTED, NOT PROVED. */
#define _GNU_SOURCE
#define NC_FAULT_NAMES
#include "inner.h"

#include <dlfcn.h>
#include <stdio.h>
#include <stdlib.h>
#include <string.h>
#include <sys/mman.h>

uint32_t ncs_landing_at, ncs_texts;
volatile uint32_t *ncs_life_page; /* in a child it is 0, however that was made */
static uint32_t life;

void ncs_must(int good, const char *what) {
    if (!good) {
        fprintf(stderr, "nc_sandbox: %s\n", what);
        abort();
    }
}

/* ---- Children */

/* Nobody else holds the lock at a fork. The child goes on with a life of its own, in which modules and boxes of before aren't used. */
static void before_fork(void) {
    ncs_must(pthread_mutex_lock(&ncs_lock) == 0, "a lock failed");
}

static void after_fork(void) {
    ncs_must(pthread_mutex_unlock(&ncs_lock) == 0, "a lock failed");
}

static void in_child(void) {
    if (ncs_life_page != NULL) {
        *ncs_life_page = ++life;
    }
    after_fork();
}

static int see_forks(void) {
    static int sees;
    return sees = sees || pthread_atfork(before_fork, after_fork, in_child) == 0;
}

/* The page stays, since threads look there without the lock. */
static int make_life(void) {
    void *page;
    if (ncs_life_page != NULL) {
        return 1;
    }
    page = mmap(NULL, PAGE, PROT_READ | PROT_WRITE, MAP_PRIVATE | MAP_ANONYMOUS, -1, 0);
    if (page == MAP_FAILED) {
        return 0;
    }
    if (madvise(page, PAGE, MADV_WIPEONFORK) != 0) {
        (void)munmap(page, PAGE);
        return 0;
    }
    *(volatile uint32_t *)page = ++life;
    __atomic_store_n(&ncs_life_page, page, __ATOMIC_SEQ_CST);
    return 1;
}

/* ---- The landing page */

/* A far jump has an offset of 32 bits, and the host may be linked anywhere. So trampolines lead to a page of their own below 4 GiB. It has
   no address of the host's, but takes it from the thread: `mov %fs:own, %r8` and `jmp *landing(%r8)`. */
static int make_landing(void) {
    static const uint8_t load[] = {0x64, 0x4C, 0x8B, 0x04, 0x25}, jump[] = {0x41, 0xFF, 0x60, offsetof(Thread, landing)};
    int32_t own = (int32_t)((intptr_t)&ncs_thread - (intptr_t)__builtin_thread_pointer());
    uint32_t at = ncs_low_new(PAGE, PROT_READ | PROT_WRITE, -1);
    uint8_t *page = (uint8_t *)(uintptr_t)at;
    if (at == 0) {
        return 0;
    }
    memset(page, NC_STOP, PAGE);
    memcpy(page, load, sizeof load);
    memcpy(page + sizeof load, &own, sizeof own);
    memcpy(page + sizeof load + sizeof own, jump, sizeof jump);
    if (mprotect(page, PAGE, PROT_READ | PROT_EXEC) != 0) {
        ncs_low_free(at, PAGE);
        return 0;
    }
    ncs_landing_at = at;
    return 1;
}

static void end_landing(void) {
    ncs_low_free(ncs_landing_at, PAGE);
    ncs_landing_at = 0;
}

/* ---- The beginning */

static int check_version(void) {
    return nc_host_version() == NC_VERSION;
}

/* The handlers stay, so a shared library that contains this one does. A program without dlopen unloads none. */
#pragma weak dlopen
#pragma weak dladdr
static int stay_loaded(void) {
    Dl_info about;
    if (dlopen != NULL && dladdr != NULL && dladdr(&ncs_texts, &about) != 0 && about.dli_fname != NULL) {
        (void)dlopen(about.dli_fname, RTLD_LAZY | RTLD_NOLOAD | RTLD_NODELETE); /* fails for the program itself, which stays */
    }
    return 1;
}

/* The host's handlers come last, so no refusal replaces them. */
static const struct Step {
    int (*make)(void);
    void (*end)(void);
    uint32_t kind;
    const char *sentence;
} STEPS[] = {
    {check_version, NULL, NCS_BAD_SYSTEM, "nc_host is of another version"},
    {ncs_segments_begin, NULL, NCS_BAD_SYSTEM, "the system makes no segments (modify_ldt)"},
    {make_landing, end_landing, NCS_NO_MEMORY, "there is no room below 4 GiB"},
    {make_life, NULL, NCS_BAD_SYSTEM, "the system has no memory that it wipes in a child (MADV_WIPEONFORK)"},
    {see_forks, NULL, NCS_BAD_SYSTEM, "the system refuses what boxes need"},
    {ncs_threads_begin, ncs_threads_end, NCS_BAD_SYSTEM, "the system refuses what boxes need"},
    {stay_loaded, NULL, NCS_BAD_SYSTEM, ""},
    {ncs_signals_begin, ncs_signals_end, NCS_BAD_SYSTEM, "SIGRTMAX - 1 has a handler, perhaps of another copy of this library"},
};
#define STEP_COUNT (sizeof STEPS / sizeof *STEPS)
static uint64_t users; /* of what these have made: all that there ever were, but for those that were refused */

static void end_steps(size_t made) {
    while (made != 0) {
        if (STEPS[--made].end != NULL) {
            STEPS[made].end();
        }
    }
}

static int begin(NcsRefusal *why) {
    size_t made = 0;
    while (made < STEP_COUNT && STEPS[made].make()) {
        made++;
    }
    if (made == STEP_COUNT) {
        return 1;
    }
    end_steps(made);
    ncs_refuse(why, STEPS[made].kind, STEPS[made].sentence);
    return 0;
}

static int begin_once(NcsRefusal *why) {
    int begun;
    ncs_must(pthread_mutex_lock(&ncs_lock) == 0, "a lock failed");
    begun = users != 0 || begin(why);
    users += begun ? 1 : 0;
    ncs_must(pthread_mutex_unlock(&ncs_lock) == 0, "a lock failed");
    return begun;
}

void ncs_unprepare(void) {
    ncs_must(pthread_mutex_lock(&ncs_lock) == 0, "a lock failed");
    if (--users == 0) {
        end_steps(STEP_COUNT);
    }
    ncs_must(pthread_mutex_unlock(&ncs_lock) == 0, "a lock failed");
}

static int has_handlers(NcsRefusal *why) {
    int sig = ncs_signals_lost();
    return sig == 0 || ncs_refuse_signal(why, NCS_LOST_HANDLER, sig);
}

int ncs_may_begin(NcsRefusal *why) {
    int may = __atomic_load_n(&ncs_life_page, __ATOMIC_SEQ_CST) == NULL || ncs_life() != 0;
    ncs_refuse(why, may ? NCS_OK : NCS_BAD_SYSTEM, may ? "nothing is refused" : "this is a child that was made without fork()");
    return may;
}

int ncs_prepare(NcsRefusal *why) {
    if (!ncs_may_begin(why) || !begin_once(why)) {
        return 0;
    }
    if (has_handlers(why)) {
        return 1;
    }
    ncs_unprepare();
    return 0;
}

/* ---- Refusals */

void *ncs_refuse(NcsRefusal *why, uint32_t kind, const char *sentence) {
    if (why != NULL) {
        memset(why, 0, sizeof *why);
        why->kind = kind;
        why->sentence = sentence;
    }
    return NULL;
}

int ncs_refuse_fault(NcsRefusal *why, uint32_t kind, uint32_t fault, uint32_t at) {
    ncs_refuse(why, fault == NC_OUT_OF_MEMORY ? NCS_NO_MEMORY : kind, nc_fault_sentence(fault));
    if (why != NULL && fault != NC_OUT_OF_MEMORY) {
        why->fault = fault;
        why->at = at;
    }
    return 0;
}

int ncs_refuse_signal(NcsRefusal *why, uint32_t kind, int sig) {
    const char *bad = "a signal has a handler without SA_ONSTACK", *lost = "a signal of this library has another handler";
    ncs_refuse(why, kind, kind == NCS_BAD_HANDLER ? bad : lost);
    if (why != NULL) {
        why->at = (uint32_t)sig;
    }
    return 0;
}
