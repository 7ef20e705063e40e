/* The interface, on a module made by nc-cc: lives GUEST. Each group prints a line; a WRONG line says what isn't as it has to be. */
#define _GNU_SOURCE
#include "testing.h"

#include <pthread.h>
#include <sched.h>
#include <signal.h>
#include <stdio.h>
#include <stdlib.h>
#include <string.h>
#include <sys/mman.h>
#include <sys/wait.h>
#include <time.h>
#include <unistd.h>

#define ROOM 0x120000u /* of data and heap: the guest's data ends just above 00112000 */
#define THREADS 4
#define SHORT 30u /* milliseconds */
#define LONG 10000u

static uint8_t file[1 << 16];
static size_t file_len;
static NcsModule *guest;
static const NcsLimits limits = {.memory = ROOM, .depth = 8, .milliseconds = LONG};

static NcsBox *box_of(const NcsLimits *wanted) {
    NcsRefusal why;
    NcsBox *box = ncs_box_new(guest, wanted, &why);
    if (box == NULL) {
        printf("no box: %s\n", why.sentence);
        exit(2);
    }
    return box;
}

static NcsEnd call2(NcsBox *box, const char *name, uint32_t a, uint32_t b) {
    return ncs_call(box, ncs_symbol(guest, name), NCS_ARGS(a, b));
}

static uint32_t number(NcsBox *box, const char *name, uint32_t a, uint32_t b) {
    NcsEnd end = call2(box, name, a, b);
    CHECK(end.how == NCS_RETURNED);
    return end.result;
}

/* Code without a file: its first bundle adds two numbers. */
static void try_code(void) {
    static const uint8_t add[] = {0x8B, 0x44, 0x24, 4, 0x03, 0x44, 0x24, 8, 0x59, 0x83, 0xE1, 0xE0, 0xFF, 0xE1};
    static const NcsLimits wanted = {.memory = ROOM, .depth = 1, .milliseconds = SHORT};
    uint8_t code[32];
    NcsModule *module;
    NcsBox *box;
    NcsEnd end;
    memset(code, 0x90, sizeof code);
    memcpy(code, add, sizeof add);
    module = ncs_module_code(code, sizeof code, NULL);
    box = module != NULL ? ncs_box_new(module, &wanted, NULL) : NULL;
    if (box == NULL) {
        CHECK(box != NULL);
        return;
    }
    CHECK(ncs_symbol(module, "add").at == 0 && ncs_take(box, 1).at == 0x110000);
    ncs_module_free(module); /* its box keeps it */
    end = ncs_call(box, (NcsAt){CODE_AT}, NCS_ARGS(7, 8));
    CHECK(end.how == NCS_RETURNED && end.result == 15);
    CHECK(ncs_free(box));
}

/* The name of a place, and whether it is so far behind the function's beginning. */
static int is_in(uint32_t place, const char *name, uint32_t far) {
    uint32_t offset = 77, other = 77;
    const char *found = ncs_function_at(guest, (NcsAt){place}, &offset), *in = ncs_function_in(file, file_len, (NcsAt){place}, &other);
    if (name == NULL || found == NULL || in == NULL) {
        return name == NULL && found == NULL && in == NULL && offset == 77 && other == 77;
    }
    return strcmp(found, name) == 0 && strcmp(in, name) == 0 && offset == far && other == far;
}

static void try_names(void) {
    uint32_t stop = ncs_symbol(guest, "stop").at, leave = ncs_symbol(guest, "leave").at;
    CHECK(ncs_entry(guest).at == ncs_symbol(guest, "start").at);
    CHECK(is_in(stop, "stop", 0) && is_in(stop + 31, "stop", 31) && is_in(leave + 1, "leave", 1));
    CHECK(is_in(0, NULL, 0) && is_in(NCS_CALLBACK(0), NULL, 0) && is_in(CODE_AT - 1, NULL, 0));
    CHECK(is_in(ncs_symbol(guest, "greeting").at, NULL, 0) && is_in(UINT32_MAX, NULL, 0));
    CHECK(ncs_function_in(file, 100, (NcsAt){stop}, &stop) == NULL && ncs_function_in("", 0, (NcsAt){stop}, &stop) == NULL);
}

static void try_calls(void) {
    NcsBox *box = box_of(&limits), *other = box_of(&limits);
    static const uint32_t many[NCS_ARGS_MAX + 1] = {1, 2, 3, 4, 5, 6, 7, 8, 0xFEDCBA98};
    NcsEnd end;
    CHECK(number(box, "add", 2, 3) == 5);
    end = call2(box, "wide", 0x89ABCDEF, 0x01234567);
    CHECK(end.how == NCS_RETURNED && end.result == 0x89ABCDEF && end.high == 0x01234567 && end.place == 0);
    CHECK(ncs_call(box, ncs_symbol(guest, "ninth"), 9, many).result == 0xFEDCBA98);
    CHECK(ncs_call(box, ncs_symbol(guest, "ninth"), NCS_ARGS_MAX, many).result == 0xFEDCBA98);
    CHECK(ncs_call(box, ncs_symbol(guest, "ninth"), NCS_ARGS_MAX + 1, many).how == NCS_HOST);
    CHECK(ncs_call(box, ncs_symbol(guest, "nothing"), NCS_NO_ARGS).how == NCS_BAD_ENTRY);
    CHECK(ncs_call(box, (NcsAt){0x20}, NCS_NO_ARGS).how == NCS_BAD_ENTRY);
    CHECK(ncs_call(box, ncs_symbol(guest, "greeting"), NCS_NO_ARGS).how == NCS_BAD_ENTRY);
    CHECK(number(box, "count", 0, 0) == 41 && number(box, "count", 0, 0) == 42 && number(other, "count", 0, 0) == 41);
    end = call2(box, "leave", 9, 0);
    CHECK(end.how == NCS_EXITED && end.status == 9 && end.place == NCS_EXIT);
    CHECK(call2(box, "add", 2, 3).how == NCS_DEAD && number(other, "count", 0, 0) == 42);
    CHECK(ncs_reset(box) && number(box, "count", 0, 0) == 41);
    end = call2(box, "stop", 0, 0);
    CHECK(end.how == NCS_STOPPED && end.place == ncs_symbol(guest, "stop").at && end.trap == 13);
    CHECK(ncs_reset(box));
    end = call2(box, "touch", 0x1234, 0);
    CHECK(end.how == NCS_FAULTED && end.trap == 14 && end.data == 0x1234);
    CHECK(ncs_free(box) && ncs_free(other) && ncs_free(NULL));
    try_code();
    try_names();
    puts("calls");
}

static void try_memory(void) {
    NcsBox *box = box_of(&limits);
    char text[64];
    uint8_t bytes[256];
    uint32_t k;
    NcsAt at, last = {ROOM - 1}, end = {ROOM};
    memset(bytes, 3, sizeof bytes);
    CHECK(ncs_text(box, text, sizeof text, ncs_symbol(guest, "greeting")) == 12 && strcmp(text, "good morning") == 0);
    CHECK(ncs_text(box, text, 5, ncs_symbol(guest, "greeting")) == 4 && strcmp(text, "good") == 0);
    CHECK(ncs_text(box, text, 0, ncs_symbol(guest, "greeting")) == -1);
    CHECK(ncs_set(box, last, "x", 1) && ncs_text(box, text, sizeof text, last) == -1 && strcmp(text, "x") == 0);
    CHECK(!ncs_set(box, last, "xy", 2) && !ncs_set(box, (NcsAt){0xFFFF}, "xy", 2) && !ncs_get(box, text, (NcsAt){0xFFFFFFFF}, 2));
    CHECK(ncs_set(box, end, NULL, 0) && ncs_at(box, last, 1) != NULL && ncs_at(box, last, 2) == NULL && ncs_at(box, end, 1) == NULL);
    CHECK(ncs_at(box, (NcsAt){0}, 1) == NULL && ncs_at(box, (NcsAt){0x10000}, 0xFFFFFFFF) == NULL);
    at = ncs_put(box, bytes, sizeof bytes);
    CHECK(at.at % 16 == 0 && at.at >= ncs_symbol(guest, "_end").at && number(box, "sum", at.at, sizeof bytes) == 3 * sizeof bytes);
    CHECK(number(box, "sum", ncs_symbol(guest, "zeros").at, 5000) == 0);
    CHECK(ncs_take(box, ROOM).at == 0 && ncs_take(box, 0xFFFFFFFF).at == 0);
    for (k = 0; ncs_take(box, 4096).at != 0; k++) {}
    CHECK(k == (ROOM - at.at - sizeof bytes) / 4096 && ncs_put(box, bytes, sizeof bytes).at != 0);
    CHECK(ncs_reset(box) && ncs_put(box, bytes, 1).at == at.at && *(uint8_t *)ncs_at(box, last, 1) == 0);
    CHECK(ncs_get(box, text, ncs_symbol(guest, "buffer"), 6) && strcmp(text, "first") == 0);
    CHECK(ncs_free(box));
    puts("memory");
}

typedef struct Seen {
    unsigned calls, deny_at;
    NcsEnd inner;
    const char *inner_name;
} Seen;

/* Its box is called while it runs, if there is a name. */
static uint64_t see(NcsBox *box, void *user, const uint32_t *args) {
    Seen *seen = user;
    seen->calls++;
    if (seen->inner_name != NULL) {
        seen->inner = call2(box, seen->inner_name, args[0], 100);
    }
    if (seen->calls == seen->deny_at) {
        ncs_deny(box);
    }
    CHECK(!ncs_reset(box) && !ncs_free(box));
    return args[0] * 2;
}

static void try_callbacks(void) {
    NcsBox *box = box_of(&limits);
    Seen seen = {.inner_name = "add"};
    NcsAt f = ncs_callback(box, see, &seen, 1);
    unsigned k = 1;
    CHECK(f.at == NCS_CALLBACK(0) && ncs_callback(box, NULL, NULL, 1).at == 0);
    CHECK(ncs_callback(box, see, &seen, NCS_CALLBACK_ARGS + 1).at == 0);
    CHECK(number(box, "each", 10, f.at) == 110 && seen.calls == 10 && seen.inner.result == 101);
    CHECK(number(box, "logged", 21, 0) == 43);
    seen.inner_name = "stop";
    CHECK(call2(box, "each", 10, f.at).how == NCS_STOPPED && seen.inner.how == NCS_STOPPED && seen.calls == 12);
    CHECK(ncs_reset(box));
    seen.inner_name = "logged";
    CHECK(number(box, "logged", 1, 0) == 3 && seen.inner.how == NCS_RETURNED && seen.calls == 12 + 8);
    seen.inner_name = NULL;
    seen.deny_at = seen.calls + 3;
    CHECK(call2(box, "each", 10, f.at).how == NCS_DENIED && seen.calls == seen.deny_at);
    CHECK(call2(box, "each", 10, f.at).how == NCS_DEAD && ncs_reset(box) && number(box, "each", 10, f.at) == 110);
    for (; ncs_callback(box, see, &seen, 0).at == NCS_CALLBACK(k); k++) {}
    CHECK(k == NCS_CALLBACKS && ncs_free(box));
    puts("call-backs");
}

static void check_limits(uint32_t memory, uint32_t depth, uint32_t milliseconds) {
    NcsLimits wanted = {.memory = memory, .depth = depth, .milliseconds = milliseconds};
    NcsRefusal why;
    CHECK(ncs_box_new(guest, &wanted, &why) == NULL && why.kind == NCS_BAD_LIMITS && why.sentence != NULL);
}

static void on_signal(int sig) {
    (void)sig;
}

static void try_refusals(void) {
    struct sigaction action = {.sa_handler = on_signal}, before;
    NcsRefusal why;
    check_limits(ROOM + 1, 1, 1);
    check_limits(0, 1, 1);
    check_limits(0x112000, 1, 1);
    check_limits(NCS_MEMORY_MAX + 4096, 1, 1);
    check_limits(ROOM, 0, 1);
    check_limits(ROOM, NCS_DEPTH_MAX + 1, 1);
    check_limits(ROOM, 1, 0);
    CHECK(ncs_module_code(NULL, 0, &why) == NULL && why.kind == NCS_BAD_CODE && why.fault == 2);
    CHECK(ncs_module_code("\x90", 1, &why) == NULL && why.kind == NCS_BAD_CODE && why.fault == 2);
    CHECK(ncs_module_elf("\177ELF", 4, &why) == NULL && why.kind == NCS_BAD_FILE && ncs_module_elf(NULL, 0, NULL) == NULL);
    CHECK(sigaction(SIGUSR1, &action, &before) == 0 && ncs_free(ncs_box_new(guest, &limits, &why)) && why.kind == NCS_OK);
    CHECK(sigaction(SIGUSR1, &before, NULL) == 0);
    ncs_module_free(NULL);
    puts("refusals");
}

static void *call_spin(void *box) {
    NcsEnd *end = malloc(sizeof *end);
    sigset_t all;
    if (end == NULL || sigfillset(&all) != 0 || pthread_sigmask(SIG_BLOCK, &all, NULL) != 0) {
        abort();
    }
    do {
        *end = call2(box, "spin", 0, 0);
    } while (end->how == NCS_BUSY);
    return end;
}

static pthread_t started(void *(*what)(void *), void *argument) {
    pthread_t thread;
    if (pthread_create(&thread, NULL, what, argument) != 0) {
        abort();
    }
    return thread;
}

static NcsEnd ended(pthread_t thread) {
    NcsEnd end, *told;
    if (pthread_join(thread, (void **)&told) != 0) {
        abort();
    }
    end = *told;
    free(told);
    return end;
}

static uint64_t own_time(void) {
    struct timespec t = {0, 0};
    CHECK(clock_gettime(CLOCK_THREAD_CPUTIME_ID, &t) == 0);
    return (uint64_t)t.tv_sec * 1000000000u + (uint64_t)t.tv_nsec;
}

/* Takes more of the thread's time than a short limit. It seldom asks for the time: on a busy machine Linux takes the processor from a thread
   at such a call, so that no tick finds it. */
static uint64_t take_long(NcsBox *box, void *user, const uint32_t *args) {
    uint64_t end = own_time() + 4 * SHORT * 1000000ull;
    volatile unsigned work = 0;
    (void)box;
    (void)user;
    (void)args;
    while (own_time() < end) {
        for (work = 0; work < 30000000; work++) {}
    }
    return 0;
}

static uint64_t kill_it(NcsBox *box, void *user, const uint32_t *args) {
    (void)user;
    ncs_kill(box);
    return args[0];
}

/* The code would return at once from such a call-back, and doesn't get there. */
static void try_ends_in_callbacks(void) {
    static const NcsLimits brief = {.memory = ROOM, .depth = 8, .milliseconds = SHORT};
    NcsBox *box = box_of(&brief), *other = box_of(&limits);
    CHECK(ncs_callback(box, take_long, NULL, 1).at != 0 && ncs_callback(other, kill_it, NULL, 1).at != 0);
    CHECK(call2(box, "logged", 1, 0).how == NCS_LATE && call2(other, "logged", 1, 0).how == NCS_KILLED);
    CHECK(ncs_reset(box) && number(box, "add", 1, 1) == 2);
    CHECK(ncs_free(box) && ncs_free(other));
}

/* The threads were begun with all signals blocked. */
static void try_kills(void) {
    static const NcsLimits brief = {.memory = ROOM, .depth = 8, .milliseconds = SHORT};
    NcsBox *box = box_of(&limits), *short_of_time = box_of(&brief);
    pthread_t thread = started(call_spin, box), other = started(call_spin, short_of_time);
    NcsEnd end;
    CHECK(ended(other).how == NCS_LATE);
    while (call2(box, "nothing", 0, 0).how != NCS_BUSY) {
        (void)sched_yield();
    }
    CHECK(!ncs_free(box) && !ncs_reset(box));
    ncs_kill(box);
    end = ended(thread);
    CHECK(end.how == NCS_KILLED && end.place >= ncs_symbol(guest, "spin").at && end.place < ncs_symbol(guest, "spin").at + 32);
    CHECK(call2(box, "add", 1, 1).how == NCS_DEAD && ncs_reset(box) && number(box, "add", 1, 1) == 2);
    ncs_kill(box);
    CHECK(call2(box, "add", 1, 1).how == NCS_KILLED && ncs_reset(box));
    CHECK(ncs_free(box) && ncs_free(short_of_time));
    try_ends_in_callbacks();
    puts("kills and time");
}

/* Each thread has a box of its own, whose calls end in all ways. */
static void *live(void *none) {
    static const NcsLimits brief = {.memory = ROOM, .depth = 2, .milliseconds = 1};
    unsigned k;
    NcsBox *box = box_of(&brief);
    for (k = 0; k < 400; k++) {
        CHECK(number(box, "add", k, 5) == k + 5 && number(box, "count", 0, 0) == 41);
        CHECK(k % 100 != 0 || call2(box, "spin", 0, 0).how == NCS_LATE);
        CHECK(k % 100 == 0 || call2(box, "stop", 0, 0).how == NCS_STOPPED);
        CHECK(ncs_reset(box));
        if (k % 50 == 0) {
            CHECK(ncs_free(box));
            box = box_of(&brief);
        }
    }
    CHECK(ncs_free(box));
    return none;
}

static void try_threads(void) {
    pthread_t threads[THREADS];
    unsigned k;
    for (k = 0; k < THREADS; k++) {
        threads[k] = started(live, NULL);
    }
    for (k = 0; k < THREADS; k++) {
        CHECK(pthread_join(threads[k], NULL) == 0);
    }
    puts("threads");
}

static int status_of(pid_t child) {
    int status = -1;
    CHECK(child > 0 && waitpid(child, &status, 0) == child);
    return status;
}

/* A forked child may use no box of its parent's. A fault of the host's own has its own end. */
static void try_children(void) {
    NcsBox *box = box_of(&limits);
    pid_t child;
    int status;
    fflush(stdout);
    child = fork();
    if (child == 0) {
        NcsRefusal why;
        int refused = call2(box, "add", 1, 1).how == NCS_HOST && ncs_box_new(guest, &limits, &why) == NULL && why.kind == NCS_BAD_SYSTEM;
        _exit(refused && !ncs_free(box) && !ncs_reset(box) && ncs_module_elf(file, file_len, NULL) != NULL ? 0 : 1);
    }
    status = status_of(child);
    CHECK(WIFEXITED(status) && WEXITSTATUS(status) == 0);
    child = fork();
    if (child == 0) {
        uint8_t *page = mmap(NULL, 4096, PROT_READ, MAP_PRIVATE | MAP_ANONYMOUS, -1, 0);
        *(volatile uint8_t *)page = 1;
        _exit(0);
    }
    status = status_of(child);
    CHECK(WIFSIGNALED(status) ? WTERMSIG(status) == SIGSEGV : WEXITSTATUS(status) == 3);
    CHECK(ncs_free(box));
    puts("children");
}

static volatile sig_atomic_t own_faults;

/* The application's own handler, installed before the first module: it mends the page. */
static void on_own_fault(int sig, siginfo_t *info, void *context) {
    (void)sig;
    (void)context;
    own_faults++;
    if (own_faults > 1 || mprotect(info->si_addr, 4096, PROT_READ | PROT_WRITE) != 0) {
        _exit(3);
    }
}

static void try_own_faults(void) {
    uint8_t *page = mmap(NULL, 4096, PROT_READ, MAP_PRIVATE | MAP_ANONYMOUS, -1, 0);
    NcsBox *box = box_of(&limits);
    CHECK(page != MAP_FAILED && call2(box, "stop", 0, 0).how == NCS_STOPPED && own_faults == 0);
    *(volatile uint8_t *)page = 1;
    CHECK(own_faults == 1 && munmap(page, 4096) == 0 && ncs_free(box));
    puts("faults of the host's own");
}

static int read_guest(const char *name) {
    FILE *in = fopen(name, "rb");
    struct sigaction action = {.sa_sigaction = on_own_fault, .sa_flags = SA_SIGINFO | SA_ONSTACK};
    NcsRefusal why;
    file_len = in != NULL ? fread(file, 1, sizeof file, in) : 0;
    if (in == NULL || fclose(in) != 0 || sigaction(SIGSEGV, &action, NULL) != 0) {
        perror(name);
        return 2;
    }
    guest = ncs_module_elf(file, file_len, &why);
    if (guest == NULL) {
        printf("%s: boxes: %s\n", why.kind == NCS_BAD_SYSTEM ? "skipped" : "refused", why.sentence);
        return why.kind == NCS_BAD_SYSTEM ? SKIPPED : 2;
    }
    return 0;
}

int main(int argc, char **argv) {
    int refused = argc == 2 ? read_guest(argv[1]) : 2;
    if (refused != 0) {
        return refused;
    }
    (void)setvbuf(stdout, NULL, _IOLBF, 0);
    try_calls();
    try_memory();
    try_callbacks();
    try_refusals();
    try_kills();
    try_threads();
    try_own_faults();
    try_children();
    ncs_module_free(guest);
    printf("%u wrong\n", testing_wrong);
    return testing_wrong != 0;
}
