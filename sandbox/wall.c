/* The second wall, by which a process gives up for good what it doesn't need to run boxes. Code that has come out of a box by a fault of
   this library then finds little to use. TRUSTED, NOT PROVED. */
#define _GNU_SOURCE
#include "inner.h"

#include <errno.h>
#include <linux/audit.h>
#include <linux/filter.h>
#include <linux/seccomp.h>
#include <sched.h>
#include <stddef.h>
#include <sys/mman.h>
#include <sys/prctl.h>
#include <sys/syscall.h>
#include <unistd.h>

#define COUNT(table) ((unsigned)(sizeof(table) / sizeof *(table)))

/* System calls that headers of older systems lack. */
enum { CALL_RSEQ = 334, CALL_CLONE3 = 435, CALL_OPENAT2 = 437, CALL_NEW_RULES = 444, CALL_ADD_RULE = 445, CALL_OBEY_RULES = 446 };
#define USER_DISPATCH 59 /* of prctl */
#define X32 0x40000000   /* where the numbers of x32 begin */

/* ---- Landlock: which files are opened, and how */

#define READ (1u << 2 | 1u << 3) /* a file; the names in a folder */
/* A file; remove a folder or a file; make one; give it another folder below the same one; cut a file. */
#define WRITE (1u << 1 | 1u << 4 | 1u << 5 | 1u << 7 | 1u << 8 | 1u << 13 | 1u << 14)
#define ASK_VERSION 1u
#define PATH_BENEATH 1

enum { NO_LANDLOCK = -1, NO_RULES = -2 };

/* Rights as the system calls have them. */
typedef struct Rights {
    uint64_t files, network, scopes;
} Rights;

typedef struct Rule {
    uint64_t rights;
    int32_t folder;
} __attribute__((packed)) Rule;

/* All that this version of Landlock knows. Behind each one stands what it was the first to know. */
static Rights rights_of(long version) {
    static const struct {
        long from;
        Rights rights;
    } known[] = {
        {6, {0xFFFF, 3, 3}}, /* signals, and sockets that have a name in no file system */
        {5, {0xFFFF, 3, 0}}, /* what devices are told */
        {4, {0x7FFF, 3, 0}}, /* TCP */
        {3, {0x7FFF, 0, 0}}, /* cutting a file */
        {2, {0x3FFF, 0, 0}}, /* another folder for a file */
        {1, {0x1FFF, 0, 0}}, /* opening, making and removing files */
    };
    unsigned k = 0;
    while (k + 1 < COUNT(known) && known[k].from > version) {
        k++;
    }
    return known[k].rights;
}

static int add_folders(int rules, const NcsWall *wall, uint64_t known) {
    unsigned k;
    for (k = 0; k < wall->folder_count; k++) {
        const Rule rule = {(READ | (wall->folders[k].writable ? WRITE : 0)) & known, wall->folders[k].file};
        if (syscall(CALL_ADD_RULE, rules, PATH_BENEATH, &rule, 0) != 0) {
            return 0;
        }
    }
    return 1;
}

/* The file of rules that allow the folders and nothing else, or one of the two numbers above. */
static int new_rules(const NcsWall *wall) {
    long version = syscall(CALL_NEW_RULES, NULL, 0, ASK_VERSION);
    Rights all;
    int rules;
    if (version < 1) {
        return NO_LANDLOCK;
    }
    all = rights_of(version);
    rules = (int)syscall(CALL_NEW_RULES, &all, sizeof all, 0);
    if (rules >= 0 && !add_folders(rules, wall, all.files)) {
        (void)close(rules);
        return NO_RULES;
    }
    return rules >= 0 ? rules : NO_RULES;
}

/* ---- seccomp: which system calls are made */

/* Whatever their arguments. The first are made most often. */
/* clang-format off */
static const int ALWAYS[] = {
    SYS_read, SYS_write, SYS_writev, SYS_lseek, SYS_fstat, SYS_close,
    SYS_rt_sigreturn, SYS_rt_sigprocmask, SYS_rt_sigaction, SYS_rt_sigpending, SYS_sigaltstack,
    SYS_timer_create, SYS_timer_settime, SYS_timer_gettime, SYS_timer_getoverrun, SYS_timer_delete,
    SYS_clock_gettime, SYS_clock_nanosleep, SYS_restart_syscall,
    SYS_futex, SYS_sched_yield, SYS_membarrier, SYS_modify_ldt,
    SYS_brk, SYS_munmap, SYS_mremap, SYS_madvise,
    SYS_getrandom, SYS_getpid, SYS_gettid, SYS_exit, SYS_exit_group,
};
/* clang-format on */
static const int WITH_FOLDERS[] = {SYS_openat, CALL_OPENAT2, SYS_fstatfs};
static const int WITH_THREADS[] = {SYS_set_robust_list, CALL_RSEQ, SYS_sched_getaffinity};

/* A call that is made only if some bits of an argument have this value. All of them are in the argument's lower half. */
typedef struct Judged {
    int call;
    unsigned argument;
    uint32_t bits, value;
} Judged;

/* No memory becomes executable. Of the options of prctl one may be set, which sends a thread's own system calls to a handler. */
static const Judged JUDGED[] = {{SYS_mmap, 2, PROT_EXEC, 0}, {SYS_mprotect, 2, PROT_EXEC, 0}, {SYS_prctl, 0, UINT32_MAX, USER_DISPATCH}};

/* A thread of this process, and no process or namespace. */
#define NAMESPACES (CLONE_NEWNS | CLONE_NEWCGROUP | CLONE_NEWUTS | CLONE_NEWIPC | CLONE_NEWUSER | CLONE_NEWPID | CLONE_NEWNET)
static const Judged NEW_THREAD = {SYS_clone, 0, CLONE_THREAD | NAMESPACES, CLONE_THREAD};

/* The C library makes these by itself, and can do without them. */
static const struct {
    int call, error;
} ANSWERED[] = {
    {SYS_ioctl, ENOTTY},      /* it asks whether a file is a terminal */
    {SYS_newfstatat, ENOSYS}, /* its fstat, to which a path can be given as well */
    {CALL_CLONE3, ENOSYS},    /* it then makes clone, whose flags can be judged */
};

#define ANSWER_STEPS 2u
#define JUDGED_STEPS 6u
#define TIMES_STEPS 7u
/* clang-format off */
#define STEPS_MOST (5u + JUDGED_STEPS * (COUNT(JUDGED) + 2) + TIMES_STEPS + \
                    ANSWER_STEPS * (COUNT(ALWAYS) + COUNT(WITH_FOLDERS) + COUNT(WITH_THREADS) + COUNT(ANSWERED) + NCS_WALL_CALLS))
/* clang-format on */

typedef struct Filter {
    struct sock_filter steps[STEPS_MOST];
    unsigned short len;
} Filter;

#define LOAD (BPF_LD | BPF_W | BPF_ABS)
#define AND (BPF_ALU | BPF_AND | BPF_K)
#define EQUAL (BPF_JMP | BPF_JEQ | BPF_K)
#define ANSWER (BPF_RET | BPF_K)

/* Adds a step, and how many behind it are passed over if what it asks is so, or isn't. */
static void add(Filter *f, unsigned code, uint32_t value, unsigned past_if, unsigned past_if_not) {
    const struct sock_filter step = {(uint16_t)code, (uint8_t)past_if, (uint8_t)past_if_not, value};
    f->steps[f->len++] = step;
}

static void add_answer(Filter *f, int call, uint32_t answer) {
    add(f, EQUAL, (uint32_t)call, 0, ANSWER_STEPS - 1);
    add(f, ANSWER, answer, 0, 0);
}

static void add_calls(Filter *f, const int *calls, unsigned count) {
    unsigned k;
    for (k = 0; k < count; k++) {
        add_answer(f, calls[k], SECCOMP_RET_ALLOW);
    }
}

static void add_answered(Filter *f) {
    unsigned k;
    for (k = 0; k < COUNT(ANSWERED); k++) {
        add_answer(f, ANSWERED[k].call, SECCOMP_RET_ERRNO | (uint32_t)ANSWERED[k].error);
    }
}

static void add_judged(Filter *f, const Judged *judged, unsigned count) {
    unsigned k;
    for (k = 0; k < count; k++) {
        add(f, EQUAL, (uint32_t)judged[k].call, 0, JUDGED_STEPS - 1);
        add(f, LOAD, (uint32_t)(offsetof(struct seccomp_data, args) + 8 * judged[k].argument), 0, 0);
        add(f, AND, judged[k].bits, 0, 0);
        add(f, EQUAL, judged[k].value, 0, 1);
        add(f, ANSWER, SECCOMP_RET_ALLOW, 0, 0);
        add(f, ANSWER, SECCOMP_RET_KILL_PROCESS, 0, 0);
    }
}

/* The times of an open file are set. Landlock has no rule for them, so there may be no path. */
static void add_times(Filter *f) {
    const uint32_t path = offsetof(struct seccomp_data, args) + 8;
    add(f, EQUAL, SYS_utimensat, 0, TIMES_STEPS - 1);
    add(f, LOAD, path, 0, 0);
    add(f, EQUAL, 0, 0, 3);
    add(f, LOAD, path + 4, 0, 0);
    add(f, EQUAL, 0, 0, 1);
    add(f, ANSWER, SECCOMP_RET_ALLOW, 0, 0);
    add(f, ANSWER, SECCOMP_RET_KILL_PROCESS, 0, 0);
}

static int has_writable(const NcsWall *wall) {
    unsigned k = 0;
    while (k < wall->folder_count && !wall->folders[k].writable) {
        k++;
    }
    return k < wall->folder_count;
}

/* What isn't named ends the process, and so does each call by the way of 32-bit code, where the numbers mean other calls. Those of x32 have
   numbers of their own. A signal is sent only to this process. */
static void fill(Filter *f, const NcsWall *wall) {
    const Judged own_signal = {SYS_tgkill, 0, UINT32_MAX, (uint32_t)getpid()};
    f->len = 0;
    add(f, LOAD, (uint32_t)offsetof(struct seccomp_data, arch), 0, 0);
    add(f, EQUAL, AUDIT_ARCH_X86_64, 1, 0);
    add(f, ANSWER, SECCOMP_RET_KILL_PROCESS, 0, 0);
    add(f, LOAD, (uint32_t)offsetof(struct seccomp_data, nr), 0, 0);
    add_calls(f, ALWAYS, COUNT(ALWAYS));
    add_calls(f, wall->calls, wall->call_count);
    add_calls(f, WITH_FOLDERS, wall->folder_count != 0 ? COUNT(WITH_FOLDERS) : 0);
    add_calls(f, WITH_THREADS, wall->threads ? COUNT(WITH_THREADS) : 0);
    add_judged(f, JUDGED, COUNT(JUDGED));
    add_judged(f, &own_signal, 1);
    add_judged(f, &NEW_THREAD, wall->threads ? 1 : 0);
    if (has_writable(wall)) {
        add_times(f);
    }
    add_answered(f);
    add(f, ANSWER, SECCOMP_RET_KILL_PROCESS, 0, 0);
}

/* The filter is for each thread of the process. */
static int confine_calls(const NcsWall *wall) {
    Filter filter;
    struct sock_fprog program;
    fill(&filter, wall);
    program.len = filter.len;
    program.filter = filter.steps;
    return syscall(SYS_seccomp, SECCOMP_SET_MODE_FILTER, SECCOMP_FILTER_FLAG_TSYNC, &program) == 0;
}

static int has_filters(void) {
    const uint32_t answer = SECCOMP_RET_KILL_PROCESS;
    return syscall(SYS_seccomp, SECCOMP_GET_ACTION_AVAIL, 0, &answer) == 0;
}

/* ---- Both */

/* What is wrong with a system call that the host names, or NULL. */
static const char *judge(const NcsWall *wall) {
    unsigned k = 0;
    if (wall->call_count > NCS_WALL_CALLS) {
        return "the host names too many system calls";
    }
    while (k < wall->call_count && wall->calls[k] >= 0 && wall->calls[k] < X32) {
        k++;
    }
    return k < wall->call_count ? "the host names a number that no system call has" : NULL;
}

/* Nothing is given up before the rules are made. */
static int build(const NcsWall *wall) {
    int rules = has_filters() ? new_rules(wall) : NO_RULES, obeyed;
    if (rules == NO_RULES) {
        return NCS_NO_WALL;
    }
    obeyed = prctl(PR_SET_NO_NEW_PRIVS, 1ul, 0ul, 0ul, 0ul) == 0 && (rules == NO_LANDLOCK || syscall(CALL_OBEY_RULES, rules, 0) == 0);
    if (rules != NO_LANDLOCK) {
        (void)close(rules);
    }
    return !obeyed || !confine_calls(wall) ? NCS_NO_WALL : rules == NO_LANDLOCK ? NCS_WALL_FILTER : NCS_WALL_WHOLE;
}

int ncs_wall(const NcsWall *wall, NcsRefusal *why) {
    static int begun; /* by a thread, and not refused; atomic */
    const char *wrong = judge(wall);
    int stands;
    if (wrong != NULL || __atomic_exchange_n(&begun, 1, __ATOMIC_SEQ_CST)) {
        ncs_refuse(why, wrong != NULL ? NCS_BAD_LIMITS : NCS_BAD_SYSTEM, wrong != NULL ? wrong : "the second wall stands already");
        return NCS_NO_WALL;
    }
    stands = build(wall);
    if (stands == NCS_NO_WALL) {
        __atomic_store_n(&begun, 0, __ATOMIC_SEQ_CST);
        ncs_refuse(why, NCS_BAD_SYSTEM, "the system refuses what the second wall needs");
    } else {
        ncs_refuse(why, NCS_OK, "nothing is refused");
    }
    return stands;
}
