/* Hosts that do what they shouldn't, or what others do beside boxes: call-backs that are left, threads that end or move, children, another
   user of the local table, memory that is locked. Rows that want a process of their own run in a child. */
#define _GNU_SOURCE
#include "asides.h"

#include "inner.h"

#include <asm/ldt.h>
#include <elf.h>
#include <fcntl.h>
#include <sched.h>
#include <setjmp.h>
#include <stdio.h>
#include <stdlib.h>
#include <string.h>
#include <sys/mman.h>
#include <sys/syscall.h>
#include <sys/wait.h>
#include <ucontext.h>
#include <unistd.h>

#define LONG 100000u /* milliseconds */
#define SHORT 20u

static NcsModule *module;

static int returns(NcsBox *box) {
    return asides_call(box, RETURNS, 0).how == NCS_RETURNED;
}

static NcsBox *box_with(uint32_t milliseconds, NcsCallback function, void *user) {
    NcsBox *box = asides_box(module, milliseconds);
    CHECK(ncs_callback(box, function, user, 0).at == NCS_CALLBACK(0));
    return box;
}

/* ---- Call-backs that don't return */

static jmp_buf out;

static uint64_t jump_out(NcsBox *box, void *user, const uint32_t *args) {
    (void)box;
    (void)user;
    (void)args;
    longjmp(out, 1);
}

/* The outer box calls the inner one, which leaves both. */
static uint64_t call_inner(NcsBox *box, void *user, const uint32_t *args) {
    (void)box;
    (void)args;
    return asides_call(user, CALLS, 0).result;
}

/* The limit of the call that was left is over long before the others. */
static void try_jump(void) {
    NcsBox *inner = box_with(SHORT, jump_out, NULL), *outer = box_with(SHORT, call_inner, inner), *other = asides_box(module, SHORT);
    uint64_t k, good = 0;
    if (setjmp(out) == 0) {
        (void)asides_call(outer, CALLS, 0);
        CHECK(0);
    }
    CHECK(ncs_thread->depth == 0);
    for (k = 0; k < 400000; k++) {
        good += returns(other);
    }
    CHECK(good == 400000 && asides_call(inner, RETURNS, 0).how == NCS_DEAD && asides_call(outer, RETURNS, 0).how == NCS_DEAD);
    CHECK(ncs_reset(inner) && ncs_reset(outer) && returns(inner) && returns(outer));
    CHECK(ncs_free(inner) && ncs_free(outer) && ncs_free(other));
    puts("a call-back that jumps out");
}

static uint64_t end_thread(NcsBox *box, void *user, const uint32_t *args) {
    (void)box;
    (void)user;
    (void)args;
    pthread_exit(NULL);
}

static void *call_and_end(void *box) {
    (void)asides_call(box, CALLS, 0);
    return box;
}

static void *find_dead(void *box) {
    CHECK(asides_call(box, RETURNS, 0).how == NCS_DEAD);
    return NULL;
}

static void join_new(void *(*what)(void *), void *box, void *wanted) {
    void *result = box;
    pthread_t thread;
    CHECK(pthread_create(&thread, NULL, what, box) == 0 && pthread_join(thread, &result) == 0 && result == wanted);
}

/* The next thread's may be at the same address. */
static void try_end(void) {
    NcsBox *box = box_with(LONG, end_thread, NULL);
    unsigned k;
    join_new(call_and_end, box, NULL);
    for (k = 0; k < 3; k++) {
        join_new(find_dead, box, NULL);
    }
    CHECK(ncs_reset(box) && returns(box) && ncs_free(box));
    puts("a call-back that ends its thread");
}

/* More threads end in a call-back than calls of live code may be under way at once. */
static void try_endings(void) {
    NcsModule *all = module;
    uint8_t code[ASIDES_LEN];
    unsigned k, over = 0;
    NcsBox *box;
    asides_lay(code);
    module = ncs_module_live(ASIDES_LEN / 32, NCS_LIVE_CALLS, NULL);
    CHECK(module != NULL && ncs_create(module, (NcsAt){CODE_AT}, code, sizeof code, NULL));
    box = box_with(LONG, end_thread, NULL);
    for (k = 0; k < NCS_LIVE_CALLS + 45; k++) {
        join_new(call_and_end, box, NULL);
        over += ncs_reset(box);
    }
    CHECK(over == NCS_LIVE_CALLS + 45 && returns(box) && ncs_free(box));
    ncs_module_free(module);
    module = all;
    puts("threads that end in call-backs of live code");
}

/* A thread whose time is over waits for no change, since the writer may never get this processor. */
static void try_waiting(void) {
    NcsModule *live = ncs_module_live(ASIDES_LEN / 32, NCS_LIVE_CALLS, NULL);
    NcsBox *box = asides_box(live, LONG);
    Thread late = {.used = UINT64_MAX, .deadline = 5, .box = box};
    live->live->changes++; /* a writer has begun */
    CHECK(ncs_live_meet(live->live, &late, CODE_AT) == MET_NOTHING && late.met_stops == 0);
    live->live->changes++;
    CHECK(ncs_free(box));
    ncs_module_free(live);
    puts("a change that lasts");
}

static ucontext_t fiber, first, second;
static char fiber_stack[1 << 18];
static int is_second;

static uint64_t yield(NcsBox *box, void *user, const uint32_t *args) {
    (void)box;
    (void)user;
    (void)args;
    CHECK(swapcontext(&fiber, is_second ? &second : &first) == 0);
    return 7;
}

static void run_fiber(void) {
    (void)asides_call(box_with(LONG, yield, NULL), CALLS, 0);
    _exit(1); /* it has returned on another thread */
}

static void *steal(void *none) {
    is_second = 1;
    CHECK(returns(asides_box(module, LONG)) && swapcontext(&second, &fiber) == 0);
    return none;
}

static void be_silent(void) {
    int null = open("/dev/null", O_WRONLY);
    CHECK(null >= 0 && dup2(null, 2) == 2);
}

static int move(void) {
    pthread_t thief;
    be_silent();
    module = asides_module();
    CHECK(getcontext(&fiber) == 0);
    fiber.uc_stack.ss_sp = fiber_stack;
    fiber.uc_stack.ss_size = sizeof fiber_stack;
    makecontext(&fiber, run_fiber, 0);
    CHECK(swapcontext(&first, &fiber) == 0 && pthread_create(&thief, NULL, steal, NULL) == 0 && pthread_join(thief, NULL) == 0);
    return 2;
}

/* ---- Kills */

static NcsEnd inner_end;

static uint64_t loop_inside(NcsBox *box, void *user, const uint32_t *args) {
    (void)box;
    (void)args;
    inner_end = asides_call(user, COUNTS, 0);
    return 0;
}

static void try_outer_kill(void) {
    NcsBox *inner = asides_box(module, LONG);
    Aside a = {.box = box_with(LONG, loop_inside, inner), .function = CALLS};
    asides_begin(&a);
    CHECK(asides_end(&a).how == NCS_KILLED && inner_end.how == NCS_KILLED && ncs_free(a.box) && ncs_free(inner));
    puts("a kill of the outer box");
}

/* ---- Children */

/* It has modules of its own, and none of the parent's. */
static int use_in_child(NcsBox *before) {
    NcsLimits limits = {.memory = ASIDES_MEMORY, .depth = 1, .milliseconds = SHORT};
    NcsModule *own = asides_module();
    NcsBox *box = asides_box(own, SHORT);
    NcsRefusal why;
    CHECK(returns(box) && asides_call(box, LOOPS, 0).how == NCS_LATE && ncs_reset(box) && returns(box));
    CHECK(asides_call(before, RETURNS, 0).how == NCS_HOST && !ncs_reset(before) && !ncs_free(before));
    CHECK(ncs_box_new(module, &limits, &why) == NULL && why.kind == NCS_BAD_SYSTEM);
    ncs_module_free(module);
    CHECK(ncs_free(box));
    ncs_module_free(own);
    return testing_wrong != 0;
}

static int ended(pid_t child) {
    int status = -1;
    CHECK(child > 0 && waitpid(child, &status, 0) == child);
    return status;
}

static void try_fork(void) {
    NcsBox *box = asides_box(module, LONG);
    pid_t child;
    CHECK(returns(box));
    fflush(stdout);
    child = fork();
    if (child == 0) {
        _exit(use_in_child(box));
    }
    CHECK(ended(child) == 0 && returns(box) && ncs_free(box));
    puts("a child");
}

/* A child of which the library doesn't learn. */
static void try_clone(void) {
    NcsBox *box = asides_box(module, LONG);
    NcsRefusal why;
    pid_t child;
    fflush(stdout);
    child = (pid_t)syscall(SYS_clone, SIGCHLD, 0, 0, 0, 0);
    if (child == 0) {
        _exit(asides_call(box, RETURNS, 0).how != NCS_HOST || ncs_module_code("\xF4", 1, &why) != NULL || why.kind != NCS_BAD_SYSTEM ||
              ncs_reset(box));
    }
    CHECK(ended(child) == 0 && returns(box) && ncs_free(box));
    puts("a child by clone");
}

static pid_t made;

static uint64_t fork_inside(NcsBox *box, void *user, const uint32_t *args) {
    int how = *(int *)user;
    (void)box;
    (void)args;
    made = how == 0 ? fork() : how == 1 ? _Fork() : (pid_t)syscall(SYS_clone, SIGCHLD, 0, 0, 0, 0);
    return 5;
}

static void try_fork_inside(void) {
    int how;
    for (how = 0; how < 3; how++) {
        NcsBox *box = box_with(LONG, fork_inside, &how);
        NcsEnd end;
        fflush(stdout);
        end = asides_call(box, CALLS, 0);
        if (made == 0) {
            _exit(end.how != NCS_HOST);
        }
        CHECK(end.how == NCS_RETURNED && end.result == 5 && ended(made) == 0 && ncs_free(box));
    }
    puts("a child in a call-back");
}

/* A handler with SA_ONSTACK forks on top of untrusted code. The child has no code to go back to. */
static void fork_on_top(int sig) {
    (void)sig;
    made = _Fork();
}

static int fork_above(void) {
    struct sigaction action = {.sa_handler = fork_on_top, .sa_flags = SA_ONSTACK};
    NcsBox *box = asides_box(asides_module(), 300);
    NcsEnd end;
    made = -1;
    CHECK(sigaction(SIGALRM, &action, NULL) == 0 && ncs_signals(NCS_SIGNALS_PROMISED, NULL) && returns(box));
    (void)ualarm(100000, 0);
    end = asides_call(box, COUNTS, 0);
    if (made == 0) {
        _exit(end.how != NCS_HOST);
    }
    CHECK(end.how == NCS_LATE && ended(made) == 0);
    return testing_wrong != 0;
}

/* ---- Threads that end */

static unsigned own_timers(void) {
    FILE *in = fopen("/proc/self/timers", "r");
    unsigned count = 0;
    char line[256];
    while (in != NULL && fgets(line, sizeof line, in) != NULL) {
        count += strncmp(line, "ID:", 3) == 0;
    }
    if (in != NULL) {
        fclose(in);
    }
    return count;
}

static pthread_key_t again;

/* A destructor that calls a box in each round. */
static void call_again(void *box) {
    uint32_t how = asides_call(box, RETURNS, 0).how;
    CHECK(how == NCS_RETURNED || how == NCS_HOST);
    CHECK(pthread_setspecific(again, box) == 0);
}

static void *set_again(void *box) {
    CHECK(pthread_setspecific(again, box) == 0 && returns(box));
    return NULL;
}

static void try_destructors(void) {
    NcsBox *box = asides_box(module, LONG);
    unsigned before, k;
    CHECK(pthread_key_create(&again, call_again) == 0 && returns(box));
    before = own_timers();
    for (k = 0; k < 20; k++) {
        join_new(set_again, box, NULL);
    }
    CHECK(own_timers() == before && ncs_free(box));
    puts("destructors that call");
}

/* ---- Neighbours */

static uint64_t table[LDT_ENTRIES];

static void read_table(void) {
    CHECK(syscall(SYS_modify_ldt, 0, table, sizeof table) >= 0);
}

/* Another library takes the entry that the system shows as free. */
static void try_table(void) {
    struct user_desc d = {.base_addr = 0x12345000, .limit = 0, .limit_in_pages = 1, .seg_32bit = 1, .useable = 1};
    NcsBox *box;
    uint64_t theirs;
    unsigned k = 0;
    read_table();
    while (table[k] != 0) {
        k++;
    }
    d.entry_number = k;
    CHECK(syscall(SYS_modify_ldt, 0x11, &d, sizeof d) == 0);
    read_table();
    theirs = table[k];
    box = asides_box(module, LONG);
    read_table();
    CHECK(theirs != 0 && table[k] == theirs && returns(box) && ncs_free(box));
    puts("another user of the local table");
}

/* Of the second box, since the first one has base 0. */
static int place(void) {
    NcsModule *own = asides_module();
    return asides_box(own, LONG) != NULL ? (int)(asides_flat(asides_box(own, LONG), 0) >> 12 & 0xFF) : 0;
}

/* Eight processes have not all the same low byte of a page's number, but once in 2^56. */
static void try_places(void) {
    unsigned k, same = 0;
    int first_place = asides_child(place);
    for (k = 0; k < 7; k++) {
        same += asides_child(place) == first_place;
    }
    CHECK(same < 7);
    puts("places");
}

static void try_landing(void) {
    const uint8_t *page = (const uint8_t *)(uintptr_t)ncs_landing_at;
    unsigned k, found = 0;
    for (k = 0; k + 8 <= PAGE; k++) {
        uint64_t word;
        memcpy(&word, page + k, sizeof word);
        found += word >> 32 != 0 && word >> 47 == 0 && word >> 40 == (uint64_t)(uintptr_t)ncs_switch_landing >> 40;
    }
    CHECK(found == 0);
    puts("the landing page");
}

/* A page that nobody may touch lies below the alternate stack. */
static void *find_guard(void *box) {
    stack_t stack, none = {.ss_flags = SS_DISABLE}; /* a sanitizer has given the thread one */
    FILE *maps;
    char line[512];
    unsigned guards = 0;
    CHECK(sigaltstack(&none, NULL) == 0 && returns(box) && sigaltstack(NULL, &stack) == 0 && (stack.ss_flags & SS_DISABLE) == 0);
    maps = fopen("/proc/self/maps", "r");
    while (maps != NULL && fgets(line, sizeof line, maps) != NULL) {
        unsigned long from = 0, to = 0;
        char rights[5] = "";
        guards += sscanf(line, "%lx-%lx %4s", &from, &to, rights) == 3 && to == (unsigned long)stack.ss_sp && strncmp(rights, "--", 2) == 0;
    }
    CHECK(guards == 1 && stack.ss_size >= 2 * (size_t)sysconf(_SC_MINSIGSTKSZ) + (200u << 10) && maps != NULL && fclose(maps) == 0);
    return NULL;
}

static void try_guard(void) {
    NcsBox *box = asides_box(module, LONG);
    join_new(find_guard, box, NULL);
    CHECK(ncs_free(box));
    puts("the guard of the alternate stack");
}

static void try_locked(void) {
    NcsBox *box = asides_box(module, LONG);
    uint32_t one = 1, now = 1;
    CHECK(ncs_set(box, (NcsAt){COUNT}, &one, 4) && mlock(ncs_at(box, (NcsAt){COUNT}, 4096), 4096) == 0);
    CHECK(ncs_reset(box) && ncs_get(box, &now, (NcsAt){COUNT}, 4) && now == 0 && returns(box) && ncs_free(box));
    puts("memory that is locked");
}

static void try_copy(void) {
    NcsBox *box = asides_box(module, LONG);
    uint8_t *bytes = ncs_at(box, (NcsAt){COUNT}, 200);
    unsigned k, good = 0;
    for (k = 0; k < 200; k++) {
        bytes[k] = (uint8_t)k;
    }
    CHECK(ncs_set(box, (NcsAt){COUNT + 4}, bytes, 196));
    for (k = 0; k < 196; k++) {
        good += bytes[4 + k] == k;
    }
    CHECK(ncs_get(box, bytes, (NcsAt){COUNT + 4}, 196));
    for (k = 0; k < 196; k++) {
        good += bytes[k] == k;
    }
    CHECK(good == 2 * 196 && ncs_free(box));
    puts("a copy within a box");
}

/* ---- A file with more symbols than are read, each with the same long name but two. One of these comes behind the last that is read */

#define NAMES 512u
#define FIRST_OUT (1u << 20)
#define LAST_LOOKED_AT (FIRST_OUT - 4096) /* for the name of a place */
#define SYMBOLS (FIRST_OUT + 1000u)

static size_t lay_symbols(uint8_t *file, uint32_t in) {
    Elf32_Ehdr *h = (Elf32_Ehdr *)file;
    Elf32_Shdr *s;
    Elf32_Sym *symbol;
    uint8_t code[CODE_LEN];
    uint32_t at, k;
    memset(code, 0xF4, sizeof code);
    at = (uint32_t)(testing_elf(file, code, sizeof code) + 15) & ~15u;
    s = (Elf32_Shdr *)(file + at);
    h->e_shoff = at;
    h->e_shnum = 4;
    h->e_shentsize = sizeof *s;
    at += 4 * sizeof *s;
    s[1] = (Elf32_Shdr){.sh_type = SHT_PROGBITS, .sh_flags = SHF_EXECINSTR, .sh_offset = 0, .sh_size = 0};
    s[2] = (Elf32_Shdr){.sh_type = SHT_STRTAB, .sh_offset = at, .sh_size = NAMES};
    memset(file + at, 'a', NAMES);
    memcpy(file + at, "\0in\0out", 8);
    file[at + NAMES - 1] = 0;
    at += NAMES;
    s[3] = (Elf32_Shdr){.sh_type = SHT_SYMTAB, .sh_offset = at, .sh_size = SYMBOLS * (uint32_t)sizeof *symbol, .sh_link = 2};
    symbol = (Elf32_Sym *)(file + at);
    for (k = 0; k < SYMBOLS; k++) {
        symbol[k] = (Elf32_Sym){.st_name = k == in        ? 1
                                         : k == FIRST_OUT ? 4
                                                          : 8,
                                .st_value = CODE_AT + 32 * (k == FIRST_OUT),
                                .st_info = ELF32_ST_INFO(STB_GLOBAL, STT_FUNC),
                                .st_shndx = 1};
    }
    return at + SYMBOLS * sizeof *symbol;
}

static void try_symbol(uint8_t *file, uint32_t in, int is_named) {
    size_t len = lay_symbols(file, in);
    NcsModule *m = ncs_module_elf(file, len, NULL);
    uint32_t offset = 0;
    CHECK(m != NULL && ncs_symbol(m, "in").at == CODE_AT && ncs_symbol(m, "out").at == 0);
    CHECK((ncs_function_in(file, len, (NcsAt){CODE_AT + 32}, &offset) != NULL) == is_named && offset == (is_named ? 32 : 0));
    ncs_module_free(m);
}

static void try_symbols(void) {
    uint8_t *file = malloc(FILE_ROOM + NAMES + SYMBOLS * sizeof(Elf32_Sym));
    try_symbol(file, LAST_LOOKED_AT, 1);
    try_symbol(file, LAST_LOOKED_AT - 1, 0);
    free(file);
    puts("a file with too many symbols");
}

static const Child CHILDREN[] = {
    {"a call-back that returns on another thread", move, 1000 + SIGABRT},
    {"a child on top of untrusted code", fork_above, 0},
};

static void (*const ROWS[])(void) = {
    try_jump,        try_end,   try_endings, try_waiting, try_outer_kill, try_fork, try_clone,   try_fork_inside,
    try_destructors, try_table, try_landing, try_guard,   try_locked,     try_copy, try_symbols,
};

/* What is wrong in one row may keep the next ones waiting, so nothing follows it. */
int main(void) {
    size_t k;
    (void)setvbuf(stdout, NULL, _IOLBF, 0);
    if (!asides_children(CHILDREN, sizeof CHILDREN / sizeof *CHILDREN)) {
        puts("skipped: misuse of boxes: the system has no boxes");
        return SKIPPED;
    }
    try_places();
    module = asides_module();
    for (k = 0; k < sizeof ROWS / sizeof *ROWS && testing_wrong == 0; k++) {
        ROWS[k]();
    }
    ncs_module_free(module);
    printf("%u wrong\n", testing_wrong);
    return testing_wrong != 0;
}
