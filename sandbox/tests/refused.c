/* Each call by which the library asks the system or the allocator for something is refused in turn, by itself and with all later ones. The
   request is refused with the kind that belongs to it, nothing is kept, and the same request is granted afterwards. A line tells for each
   request which calls were refused in it. */
#define _GNU_SOURCE
#include "refusing.h"
#include "testing.h"

#include <pthread.h>
#include <signal.h>
#include <stdio.h>
#include <stdlib.h>
#include <string.h>
#include <sys/mman.h>
#include <sys/wait.h>
#include <unistd.h>

#define MANY 20u /* calls */
enum { GRANTED, REFUSED, WRONG };

typedef struct Request {
    const char *name;
    int (*make)(unsigned nth, int later, int *which); /* one of the three, and which call was refused first */
    void (*undo)(void);
} Request;

/* What a child tells. */
typedef struct Told {
    Holding holding;
    int ended, which, wrong;
} Told;

static uint8_t file[FILE_ROOM], code[CODE_LEN];
static size_t file_len;
static NcsModule *module, *live, *made_module;
static NcsBox *box, *made_box;
static Told *told; /* shared with the children */

/* The kinds of refusal: where memory or a segment lacks, where a handler isn't seen, and where anything else lacks. Of memory for the
   process, or a table that isn't told, the system is to blame. */
static int is_right(int which, const NcsRefusal *why) {
    int of_memory = which <= REFUSES_modify_ldt, of_system = !of_memory || which >= REFUSES_madvise || which == REFUSES_mmap;
    int of_handlers = which == REFUSES_rt_sigaction || which == REFUSES_sigaction;
    return why->sentence != NULL && ((of_memory && why->kind == NCS_NO_MEMORY) || (of_system && why->kind == NCS_BAD_SYSTEM) ||
                                     (of_handlers && (why->kind == NCS_LOST_HANDLER || why->kind == NCS_BAD_HANDLER)));
}

static int outcome(int given, int which, const NcsRefusal *why) {
    return given ? (why->kind == NCS_OK ? GRANTED : WRONG) : which >= 0 && is_right(which, why) ? REFUSED : WRONG;
}

static int make_module(unsigned nth, int later, int *which) {
    NcsRefusal why;
    refusing_begin(nth, later);
    made_module = ncs_module_elf(file, file_len, &why);
    *which = refusing_end();
    return outcome(made_module != NULL, *which, &why);
}

static int make_code(unsigned nth, int later, int *which) {
    NcsRefusal why;
    refusing_begin(nth, later);
    made_module = ncs_module_code(code, sizeof code, &why);
    *which = refusing_end();
    return outcome(made_module != NULL, *which, &why);
}

static void undo_module(void) {
    ncs_module_free(made_module);
}

static int make_box(unsigned nth, int later, int *which) {
    static const NcsLimits limits = {.memory = MEMORY, .depth = 16, .milliseconds = 30};
    NcsRefusal why;
    refusing_begin(nth, later);
    made_box = ncs_box_new(module, &limits, &why);
    *which = refusing_end();
    return outcome(made_box != NULL, *which, &why);
}

static void undo_box(void) {
    CHECK(ncs_free(made_box));
}

static int make_live(unsigned nth, int later, int *which) {
    NcsRefusal why;
    refusing_begin(nth, later);
    made_module = ncs_module_live(2, 2, &why);
    *which = refusing_end();
    return outcome(made_module != NULL, *which, &why);
}

static int make_live_file(unsigned nth, int later, int *which) {
    NcsRefusal why;
    refusing_begin(nth, later);
    made_module = ncs_module_live_elf(file, file_len, 2, 2, &why);
    *which = refusing_end();
    return outcome(made_module != NULL, *which, &why);
}

/* The first change of a module, whose text has no page for it yet. */
static int make_growth(unsigned nth, int later, int *which) {
    NcsRefusal why;
    int made;
    made_module = ncs_module_live(200, 2, NULL);
    CHECK(made_module != NULL);
    refusing_begin(nth, later);
    made = ncs_create(made_module, (NcsAt){CODE_AT}, code, 32, &why);
    *which = refusing_end();
    made = outcome(made, *which, &why);
    if (made == REFUSED) {
        CHECK(ncs_create(made_module, (NcsAt){CODE_AT}, code, 32, NULL));
        ncs_module_free(made_module);
    }
    return made;
}

/* Changes of a live module, which has a chunk of one bundle while none of them is under way. */
static const NcsAt CHUNK = {CODE_AT}, NEXT = {CODE_AT + 32};

static int make_creation(unsigned nth, int later, int *which) {
    NcsRefusal why;
    int made;
    refusing_begin(nth, later);
    made = ncs_create(live, NEXT, code, 32, &why);
    *which = refusing_end();
    return outcome(made, *which, &why);
}

static void undo_creation(void) {
    CHECK(ncs_delete(live, NEXT, NULL) && ncs_reclaim(live) == 1);
}

static int make_patch(unsigned nth, int later, int *which) {
    NcsRefusal why;
    int made;
    refusing_begin(nth, later);
    made = ncs_patch(live, CHUNK, "\x5A", 1, &why); /* pop edx */
    *which = refusing_end();
    return outcome(made, *which, &why);
}

static void undo_patch(void) {
    CHECK(ncs_patch(live, CHUNK, code, 1, NULL));
}

static int make_deletion(unsigned nth, int later, int *which) {
    NcsRefusal why;
    int made;
    refusing_begin(nth, later);
    made = ncs_delete(live, CHUNK, &why);
    *which = refusing_end();
    return outcome(made, *which, &why);
}

static void undo_deletion(void) {
    CHECK(ncs_reclaim(live) == 1 && ncs_create(live, CHUNK, code, 32, NULL));
}

/* It wants glibc's handlers, the process's preparation and the thread's. Of the last it doesn't tell what lacks. */
static int make_promise(unsigned nth, int later, int *which) {
    stack_t none = {.ss_flags = SS_DISABLE}; /* a sanitizer has given it one */
    NcsRefusal why;
    int made;
    CHECK(sigaltstack(&none, NULL) == 0);
    refusing_begin(nth, later);
    made = ncs_signals(NCS_SIGNALS_PROMISED, &why);
    *which = refusing_end();
    return !made && *which >= 0 && why.kind == NCS_BAD_SYSTEM ? REFUSED : outcome(made, *which, &why);
}

static void undo_promise(void) {
    CHECK(ncs_signals(NCS_SIGNALS_BLOCKED, NULL));
}

static int returns(NcsBox *one) {
    NcsAt start = {CODE_AT};
    return ncs_call(one, start, NCS_NO_ARGS).how == NCS_RETURNED;
}

typedef struct ThreadsCalls {
    unsigned nth;
    int later, which, ended;
} ThreadsCalls;

static void *call_first(void *given) {
    ThreadsCalls *f = given;
    NcsAt start = {CODE_AT};
    stack_t none = {.ss_flags = SS_DISABLE}; /* a sanitizer has given it one */
    NcsEnd end;
    CHECK(sigaltstack(&none, NULL) == 0);
    refusing_begin(f->nth, f->later);
    end = ncs_call(box, start, NCS_NO_ARGS);
    f->which = refusing_end();
    f->ended = end.how == NCS_RETURNED ? GRANTED : end.how == NCS_HOST && f->which >= 0 ? REFUSED : WRONG;
    if (!returns(box)) { /* the box is as it was */
        f->ended = WRONG;
    }
    return NULL;
}

static int on_a_thread(void *(*what)(void *), unsigned nth, int later, int *which) {
    ThreadsCalls f = {nth, later, -1, WRONG};
    pthread_t thread;
    if (pthread_create(&thread, NULL, what, &f) != 0 || pthread_join(thread, NULL) != 0) {
        abort();
    }
    *which = f.which;
    return f.ended;
}

/* Each thread prepares at its first call. */
static int make_first_call(unsigned nth, int later, int *which) {
    return on_a_thread(call_first, nth, later, which);
}

/* So many that the mask may stay on between two of them. A call that is refused hasn't been made. */
static void *call_often(void *given) {
    ThreadsCalls *f = given;
    NcsAt start = {CODE_AT};
    unsigned k, refused = 0, good = 0;
    sigset_t blocked;
    CHECK(returns(box));
    refusing_begin(f->nth, f->later);
    for (k = 0; k < MANY; k++) {
        uint32_t how = ncs_call(box, start, NCS_NO_ARGS).how;
        good += how == NCS_RETURNED;
        refused += how == NCS_HOST;
    }
    f->which = refusing_end();
    CHECK(pthread_sigmask(SIG_SETMASK, NULL, &blocked) == 0 && !sigismember(&blocked, SIGUSR1));
    f->ended = good + refused != MANY || !returns(box) ? WRONG : refused == 0 ? GRANTED : f->which >= 0 ? REFUSED : WRONG;
    return NULL;
}

static int make_many_calls(unsigned nth, int later, int *which) {
    return on_a_thread(call_often, nth, later, which);
}

/* A reset that is refused leaves the box dead; one that is granted clears its memory. */
static int make_reset(unsigned nth, int later, int *which) {
    NcsAt start = {CODE_AT}, data = {DATA_AT + 100};
    uint8_t byte = 1;
    int done;
    CHECK(ncs_set(box, data, &byte, 1));
    refusing_begin(nth, later);
    done = ncs_reset(box);
    *which = refusing_end();
    if (done) {
        return returns(box) && ncs_get(box, &byte, data, 1) && byte == 0 ? GRANTED : WRONG;
    }
    return *which >= 0 && ncs_call(box, start, NCS_NO_ARGS).how == NCS_DEAD && ncs_reset(box) && returns(box) ? REFUSED : WRONG;
}

static void undo_nothing(void) {}

static int same(Holding a, Holding b) {
    return memcmp(&a, &b, sizeof a) == 0;
}

static Holding after_one(const Request *r) {
    int which;
    CHECK(r->make(0, 0, &which) == GRANTED && which < 0);
    r->undo();
    return refusing_holding();
}

/* Refuses the nth call; then all is as before, and the request is granted. Whether there was an nth one. */
static int refuse_one(const Request *r, unsigned nth, int later, Holding before, int seen[]) {
    int which, ended = r->make(nth, later, &which);
    if (ended == WRONG) {
        printf("WRONG: %s, %s refused\n", r->name, refusing_name(which));
        testing_wrong++;
    } else if (ended == GRANTED) {
        r->undo();
    }
    CHECK(same(refusing_holding(), before) && same(after_one(r), before));
    if (which >= 0) {
        seen[which]++;
    }
    return which >= 0;
}

static void show(const char *name, const int seen[]) {
    int k;
    printf("%s:", name);
    for (k = 0; k < REFUSABLES; k++) {
        if (seen[k] != 0) {
            printf(" %s", refusing_name(k));
        }
    }
    puts("");
    fflush(stdout);
}

static void refuse_each(const Request *r) {
    Holding before = after_one(r);
    int seen[REFUSABLES] = {0}, later;
    for (later = 0; later < 2; later++) {
        unsigned nth = 1;
        while (refuse_one(r, nth, later, before, seen) && testing_wrong == 0) {
            nth++;
        }
    }
    show(r->name, seen);
}

/* The process's first module takes more. What stays, such as handlers, is as in a child that was refused nothing. */
static void be_child(const Request *r, unsigned nth, int later, const Holding *wanted) {
    Told t = {{0, 0, 0, 0, 0}, 0, 0, 0};
    t.ended = r->make(nth, later, &t.which);
    if (t.ended == GRANTED) {
        r->undo();
    }
    t.holding = after_one(r);
    t.wrong = testing_wrong != 0 || t.ended == WRONG || (wanted != NULL && !same(t.holding, *wanted));
    *told = t;
    _exit(0);
}

static Told ask_child(const Request *r, unsigned nth, int later, const Holding *wanted) {
    int status = -1;
    pid_t child;
    memset(told, 0, sizeof *told);
    fflush(stdout);
    child = fork();
    if (child == 0) {
        be_child(r, nth, later, wanted);
    }
    CHECK(child > 0 && waitpid(child, &status, 0) == child && WIFEXITED(status) && WEXITSTATUS(status) == 0);
    return *told;
}

static void refuse_first(const Request *r) {
    Holding wanted = ask_child(r, 0, 0, NULL).holding;
    int seen[REFUSABLES] = {0}, later;
    for (later = 0; later < 2; later++) {
        unsigned nth = 1;
        Told t = {wanted, GRANTED, 0, 0};
        for (; t.which >= 0 && !t.wrong; nth++) {
            t = ask_child(r, nth, later, &wanted);
            if (t.wrong) {
                printf("WRONG: %s, call %u refused, %s%s\n", r->name, nth, refusing_name(t.which), later ? ", and all later ones" : "");
                testing_wrong++;
            } else if (t.which >= 0) {
                seen[t.which]++;
            }
        }
    }
    show(r->name, seen);
}

/* What can't be given back is lost, and nothing else happens. */
static void try_releases(void) {
    int which;
    CHECK(make_module(0, 0, &which) == GRANTED && make_box(0, 0, &which) == GRANTED);
    refusing_releases = 1;
    undo_box();
    undo_module();
    refusing_releases = 0;
    CHECK(make_module(0, 0, &which) == GRANTED && make_box(0, 0, &which) == GRANTED && returns(made_box));
    undo_box();
    undo_module();
    puts("what can't be given back");
}

int main(void) {
    static const uint8_t returning[] = {0x59, 0x83, 0xE1, 0xE0, 0xFF, 0xE1}; /* pop ecx; and ecx, -32; jmp ecx */
    static const Request first = {"the first module", make_module, undo_module}, promise = {"a promise", make_promise, undo_promise};
    static const Request requests[] = {{"a module", make_module, undo_module},
                                       {"a module of code alone", make_code, undo_module},
                                       {"a box", make_box, undo_box},
                                       {"the first call of a thread", make_first_call, undo_nothing},
                                       {"many calls", make_many_calls, undo_nothing},
                                       {"a reset", make_reset, undo_nothing},
                                       {"live code", make_live, undo_module},
                                       {"live code that begins as a file", make_live_file, undo_module},
                                       {"a creation where no page is", make_growth, undo_module},
                                       {"a creation", make_creation, undo_creation},
                                       {"a patch", make_patch, undo_patch},
                                       {"a deletion", make_deletion, undo_deletion}};
    NcsRefusal why;
    size_t k;
    memset(code, 0x90, sizeof code);
    memcpy(code, returning, sizeof returning);
    file_len = testing_elf(file, code, CODE_LEN);
    told = mmap(NULL, sizeof *told, PROT_READ | PROT_WRITE, MAP_SHARED | MAP_ANONYMOUS, -1, 0);
    if (told == MAP_FAILED) {
        return 2;
    }
    refuse_first(&first);
    refuse_first(&promise);
    module = testing_module(code);
    box = testing_box(module);
    live = ncs_module_live(2, 2, &why);
    if (live == NULL && why.kind == NCS_BAD_SYSTEM) {
        printf("skipped: requests that are refused: %s\n", why.sentence);
        return SKIPPED;
    }
    CHECK(live != NULL && ncs_create(live, CHUNK, code, 32, NULL));
    for (k = 0; k < sizeof requests / sizeof *requests; k++) {
        refuse_each(&requests[k]);
    }
    try_releases();
    printf("%u wrong\n", testing_wrong);
    return testing_wrong != 0;
}
