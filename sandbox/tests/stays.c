/* Live code: while a thread is inside nothing is reclaimed that was deleted since it went in, and once it is out everything is, however it
   came out. */
#define _GNU_SOURCE
#include "codes.h"

#include <pthread.h>
#include <sched.h>
#include <stdio.h>
#include <stdlib.h>
#include <string.h>
#include <sys/wait.h>
#include <unistd.h>

#define WAITS HERE            /* the chunk that waits */
#define CALLS (HERE + 0x100u) /* the one that calls back */
#define LOOPS (HERE + 0x200u)
#define GIVEN THERE /* the one that is deleted and created */
#define CROWD 4u    /* threads with nested calls */

static NcsModule *module;

/* ---- A thread that is inside, or in a call-back */

typedef struct Stay {
    pthread_t thread;
    NcsBox *box;
    uint32_t function;
    NcsEnd end;
    uint32_t *words; /* of the box: the code has come to its loop; and what it waits for */
    int called;      /* a call-back has come to its loop; and what it waits for */
    int go_on;
} Stay;

static uint32_t load(const uint32_t *word) {
    return __atomic_load_n(word, __ATOMIC_SEQ_CST);
}

static void *stay(void *one) {
    Stay *s = one;
    s->end = codes_run(s->box, s->function);
    return NULL;
}

static uint64_t wait_in_callback(NcsBox *box, void *user, const uint32_t *args) {
    Stay *s = user;
    (void)args;
    __atomic_store_n(&s->called, 1, __ATOMIC_SEQ_CST);
    while (!__atomic_load_n(&s->go_on, __ATOMIC_SEQ_CST)) {
        (void)sched_yield();
    }
    return s->go_on == 2 ? codes_run(box, WAITS).result : 6;
}

static void begin(Stay *s, uint32_t function, uint32_t milliseconds) {
    memset(s, 0, sizeof *s);
    s->function = function;
    s->box = codes_box(module, milliseconds);
    s->words = ncs_at(s->box, (NcsAt){SHARED}, 8);
    CHECK(ncs_callback(s->box, wait_in_callback, s, 0).at == NCS_CALLBACK(0));
    if (s->words == NULL || pthread_create(&s->thread, NULL, stay, s) != 0) {
        abort();
    }
}

static void until_inside(const Stay *s) {
    while (load(s->words) == 0) {
        (void)sched_yield();
    }
}

static void until_called(const Stay *s) {
    while (!__atomic_load_n(&s->called, __ATOMIC_SEQ_CST)) {
        (void)sched_yield();
    }
}

static NcsEnd end_of(Stay *s) {
    CHECK(pthread_join(s->thread, NULL) == 0 && ncs_free(s->box));
    return s->end;
}

/* A chunk is deleted while a thread is inside. */
static void delete_given(void) {
    CHECK(codes_create_number(module, GIVEN, 1) && codes_delete(module, GIVEN));
}

static void check_held(void) {
    unsigned k, freed = 0;
    for (k = 0; k < 100; k++) {
        freed += ncs_reclaim(module);
    }
    CHECK(freed == 0);
}

/* ---- Ways out */

static void try_return(void) {
    Stay s;
    begin(&s, WAITS, LONG);
    until_inside(&s);
    delete_given();
    check_held();
    __atomic_store_n(s.words + 1, 5, __ATOMIC_SEQ_CST);
    CHECK(end_of(&s).result == 5 && ncs_reclaim(module) == 1);
    puts("a return");
}

/* What was deleted before the thread went in isn't held back. */
static void try_late_arrival(void) {
    Stay s;
    delete_given();
    begin(&s, WAITS, LONG);
    until_inside(&s);
    CHECK(ncs_reclaim(module) == 1);
    __atomic_store_n(s.words + 1, 5, __ATOMIC_SEQ_CST);
    CHECK(end_of(&s).result == 5);
    puts("a thread that comes later");
}

/* While a call-back takes its time nothing is held back. It may call, and then something is. */
static void try_callback(void) {
    Stay s;
    begin(&s, CALLS, LONG);
    until_called(&s);
    delete_given();
    CHECK(ncs_reclaim(module) == 1);
    __atomic_store_n(&s.go_on, 2, __ATOMIC_SEQ_CST);
    until_inside(&s);
    delete_given();
    check_held();
    __atomic_store_n(s.words + 1, 7, __ATOMIC_SEQ_CST);
    CHECK(end_of(&s).result == 7 && ncs_reclaim(module) == 1);
    puts("a slow call-back");
}

static void try_late(void) {
    unsigned freed = 0;
    Stay s;
    begin(&s, WAITS, SHORT);
    until_inside(&s);
    delete_given();
    while (freed == 0) {
        freed = ncs_reclaim(module);
    }
    CHECK(freed == 1 && end_of(&s).how == NCS_LATE);
    puts("the end of its time");
}

static void try_kill(void) {
    Stay s;
    begin(&s, WAITS, LONG);
    until_inside(&s);
    delete_given();
    check_held();
    ncs_kill(s.box);
    CHECK(end_of(&s).how == NCS_KILLED && ncs_reclaim(module) == 1);
    puts("a kill");
}

/* The chunk in which the thread loops is deleted, and created again. */
static void try_stop(void) {
    uint8_t code[BUNDLE];
    NcsEnd end;
    Stay s;
    codes_wait(code, SHARED);
    begin(&s, WAITS, LONG);
    until_inside(&s);
    CHECK(codes_delete(module, WAITS));
    end = end_of(&s);
    CHECK(end.how == NCS_STOPPED && end.place >= WAITS && end.place < WAITS + BUNDLE);
    CHECK(ncs_reclaim(module) == 1 && codes_create(module, WAITS, code, sizeof code));
    puts("a deletion of where it is");
}

/* A loop with any stack pointer is taken out, and its span is used again. */
static void try_loops(void) {
    static const uint32_t stacks[] = {0, 2, 0x10000, 0x20000000, 0x7FFFFFFE, 0x80000002, 0xFFFFFFFF};
    NcsBox *box = codes_box(module, 1);
    uint8_t code[BUNDLE];
    size_t k;
    codes_loop(code);
    for (k = 0; k < sizeof stacks / sizeof *stacks; k++) {
        NcsEnd end;
        CHECK(codes_create(module, LOOPS, code, sizeof code));
        end = ncs_call(box, (NcsAt){LOOPS}, NCS_ARGS(stacks[k]));
        CHECK(end.how == NCS_LATE && end.place >= LOOPS && end.place < LOOPS + BUNDLE && ncs_reset(box));
        CHECK(codes_delete(module, LOOPS) && ncs_reclaim(module) == 1 && codes_create_number(module, LOOPS, 3));
        CHECK(codes_returns(box, LOOPS, 3) && codes_delete(module, LOOPS) && ncs_reclaim(module) == 1);
    }
    CHECK(ncs_free(box));
    puts("loops");
}

/* ---- Many calls: a seat is used again and again, and so many calls may be under way */

static void try_many(void) {
    NcsBox *box = codes_box(module, LONG);
    unsigned k, right = 0;
    CHECK(codes_create_number(module, GIVEN, 4));
    for (k = 0; k < 1000; k++) {
        right += codes_returns(box, GIVEN, 4);
    }
    CHECK(right == 1000 && codes_delete(module, GIVEN) && ncs_reclaim(module) == 1 && ncs_free(box));
    puts("many calls");
}

static struct {
    unsigned deep; /* call-backs under way */
    int go_on;
} crowd;

/* Each call of a box calls back, and so calls again, as long as it may. Then it waits. */
static uint64_t nest_deeper(NcsBox *box, void *user, const uint32_t *args) {
    (void)user;
    (void)args;
    (void)__atomic_add_fetch(&crowd.deep, 1, __ATOMIC_SEQ_CST);
    if (codes_run(box, CALLS).how != NCS_RETURNED) {
        while (!__atomic_load_n(&crowd.go_on, __ATOMIC_SEQ_CST)) {
            (void)sched_yield();
        }
    }
    return 1;
}

static void *nest_calls(void *none) {
    NcsBox *box = codes_box(module, LONG);
    CHECK(ncs_callback(box, nest_deeper, NULL, 0).at == NCS_CALLBACK(0) && codes_run(box, CALLS).how == NCS_RETURNED);
    CHECK(ncs_free(box));
    return none;
}

static void try_crowd(void) {
    NcsBox *box = codes_box(module, LONG);
    pthread_t threads[CROWD];
    unsigned k;
    CHECK(codes_create_number(module, GIVEN, 4));
    for (k = 0; k < CROWD; k++) {
        if (pthread_create(&threads[k], NULL, nest_calls, NULL) != 0) {
            abort();
        }
    }
    while (__atomic_load_n(&crowd.deep, __ATOMIC_SEQ_CST) < NCS_LIVE_CALLS) {
        (void)sched_yield();
    }
    CHECK(codes_run(box, GIVEN).how == NCS_BUSY && codes_delete(module, GIVEN) && ncs_reclaim(module) == 1);
    __atomic_store_n(&crowd.go_on, 1, __ATOMIC_SEQ_CST);
    for (k = 0; k < CROWD; k++) {
        CHECK(pthread_join(threads[k], NULL) == 0);
    }
    CHECK(crowd.deep == NCS_LIVE_CALLS && codes_create_number(module, GIVEN, 4) && codes_returns(box, GIVEN, 4));
    CHECK(codes_delete(module, GIVEN) && ncs_reclaim(module) == 1 && ncs_free(box));
    puts("as many calls as there may be");
}

/* ---- A forked child changes nothing of its parent's, and hasn't the text, neither to write nor to execute it. It may have live code of
   its own. */

static int is_refused(int made, const NcsRefusal *why) {
    return !made && why->kind == NCS_BAD_SYSTEM;
}

static int child(void) {
    FILE *maps = fopen("/proc/self/maps", "r");
    uint8_t code[BUNDLE];
    char line[512];
    NcsRefusal why;
    int right;
    codes_number(code, 3);
    right = is_refused(ncs_create(module, (NcsAt){GIVEN}, code, sizeof code, &why), &why);
    right &= is_refused(ncs_patch(module, (NcsAt){WAITS}, code, MOV_LEN, &why), &why);
    right &= is_refused(ncs_delete(module, (NcsAt){WAITS}, &why), &why);
    right &= ncs_reclaim(module) == 0;
    while (maps != NULL && fgets(line, sizeof line, maps) != NULL) {
        right &= strstr(line, "memfd:nc_sandbox") == NULL;
    }
    return right && maps != NULL && ncs_module_live(BUNDLES, NCS_LIVE_CALLS, &why) != NULL && why.kind == NCS_OK;
}

static void try_child(void) {
    int status = -1;
    pid_t forked = fork();
    if (forked == 0) {
        _exit(child() ? 0 : 1);
    }
    CHECK(forked > 0 && waitpid(forked, &status, 0) == forked && WIFEXITED(status) && WEXITSTATUS(status) == 0);
    puts("a forked child");
}

int main(void) {
    uint8_t code[2 * BUNDLE];
    (void)setvbuf(stdout, NULL, _IOLBF, 0);
    module = codes_module(BUNDLES);
    codes_wait(code, SHARED);
    CHECK(codes_create(module, WAITS, code, BUNDLE));
    codes_call(code, CALLS);
    CHECK(codes_create(module, CALLS, code, 2 * BUNDLE));
    try_return();
    try_late_arrival();
    try_callback();
    try_late();
    try_kill();
    try_stop();
    try_loops();
    try_many();
    try_crowd();
    try_child();
    ncs_module_free(module);
    printf("%u wrong\n", testing_wrong);
    return testing_wrong != 0;
}
