/* Boxes on the same memory: a thread compiles, two execute, one deletes; each box has a stack, limits and a kill of its own. */
#define _GNU_SOURCE
#include "codes.h"

#include <pthread.h>
#include <sched.h>
#include <stdio.h>
#include <stdlib.h>
#include <string.h>
#include <sys/mman.h>
#include <sys/syscall.h>
#include <time.h>
#include <unistd.h>

#define MEMORY_LEN 0x200000u
#define STACK_LEN 0x8000u
#define RUNNERS 2u
#define ROUNDS 500u
#define MEETS 50u
#define RESTS NCS_CALLBACK(4)

static NcsModule *module;

static NcsAt name(const char *symbol) {
    return ncs_symbol(module, symbol);
}

static NcsEnd call(NcsBox *box, const char *function, uint32_t a, uint32_t b, uint32_t c) {
    return ncs_call(box, name(function), NCS_ARGS(a, b, c));
}

static NcsBox *new_box(uint32_t milliseconds) {
    const NcsLimits limits = {.memory = MEMORY_LEN, .depth = 4, .milliseconds = milliseconds};
    NcsBox *box = ncs_box_new(module, &limits, NULL);
    CHECK(box != NULL);
    return box;
}

static NcsBox *beside(NcsBox *box, uint32_t milliseconds) {
    NcsAt stack = ncs_take(box, STACK_LEN);
    NcsBox *made = ncs_box_beside(box, (NcsAt){stack.at + STACK_LEN}, 2, milliseconds, NULL);
    CHECK(stack.at != 0 && made != NULL);
    return made;
}

static uint32_t load(NcsBox *box, unsigned k) {
    return __atomic_load_n((uint32_t *)ncs_at(box, (NcsAt){name("words").at + 4 * k}, 4), __ATOMIC_SEQ_CST);
}

static void store(NcsBox *box, unsigned k, uint32_t word) {
    __atomic_store_n((uint32_t *)ncs_at(box, (NcsAt){name("words").at + 4 * k}, 4), word, __ATOMIC_SEQ_CST);
}

/* ---- One at a time */

static uint64_t rest(NcsBox *box, void *user, const uint32_t *args) {
    (void)box;
    (void)user;
    (void)args;
    return 0;
}

static uint64_t tell(NcsBox *box, void *user, const uint32_t *args) {
    (void)args;
    return box == user ? 11 : 12;
}

static void try_memory(void) {
    unsigned maps = testing_low_maps(), segments = testing_segments();
    NcsBox *box = new_box(SHORT), *other = beside(box, SHORT), *third = beside(box, SHORT);
    CHECK(testing_segments() == segments + 1);
    store(box, 3, 5);
    CHECK(load(other, 3) == 5 && call(other, "deep", 100, 0, 0).result == 600 && call(box, "deep", 100, 0, 0).result == 600);
    CHECK(ncs_take(other, 16).at == ncs_take(box, 16).at - 16 && ncs_at(other, (NcsAt){MEMORY_LEN}, 1) == NULL);
    CHECK(ncs_callback(other, tell, other, 0).at == NCS_CALLBACK(0) && call(other, "find", 0, 0, 0).result == 11);
    CHECK(call(box, "find", 0, 0, 0).how == NCS_BAD_CALL && call(box, "seven", 0, 0, 0).how == NCS_DEAD);
    CHECK(call(other, "seven", 0, 0, 0).result == 7 && ncs_reset(other) && call(box, "seven", 0, 0, 0).result == 7 && load(box, 3) == 0);
    CHECK(ncs_free(box) && call(third, "seven", 0, 0, 0).result == 7 && ncs_free(third) && call(other, "seven", 0, 0, 0).result == 7);
    CHECK(testing_segments() == segments + 1 && ncs_free(other) && testing_segments() == segments && testing_low_maps() == maps);
    puts("memory");
}

static void try_refusals(void) {
    NcsBox *box = new_box(SHORT);
    static const struct {
        uint32_t stack, depth, milliseconds;
    } wrong[] = {{0x180008, 2, 10},        {0, 2, 10},        {0xFFF0, 2, 10},
                 {MEMORY_LEN + 16, 2, 10}, {0x180000, 0, 10}, {0x180000, NCS_DEPTH_MAX + 1, 10},
                 {0x180000, 2, 0}};
    NcsRefusal why;
    unsigned k;
    for (k = 0; k < sizeof wrong / sizeof *wrong; k++) {
        NcsBox *made = ncs_box_beside(box, (NcsAt){wrong[k].stack}, wrong[k].depth, wrong[k].milliseconds, &why);
        CHECK(made == NULL && why.kind == NCS_BAD_LIMITS && why.sentence != NULL);
    }
    CHECK(ncs_free(box));
    puts("refusals");
}

/* ---- Threads */

typedef struct Worker {
    pthread_t thread;
    NcsBox *box;
    const char *function;
    uint32_t args[3];
    NcsEnd end;
} Worker;

static void *work(void *one) {
    Worker *w = one;
    w->end = call(w->box, w->function, w->args[0], w->args[1], w->args[2]);
    return NULL;
}

static void begin(Worker *w, NcsBox *box, const char *function, uint32_t a, uint32_t b, uint32_t c) {
    *w = (Worker){.box = box, .function = function, .args = {a, b, c}};
    if (pthread_create(&w->thread, NULL, work, w) != 0) {
        abort();
    }
}

static uint32_t how_ends(Worker *w) {
    CHECK(pthread_join(w->thread, NULL) == 0);
    return w->end.how;
}

static void until_inside(NcsBox *box) {
    while (load(box, 1) == 0) {
        (void)sched_yield();
    }
}

/* One has no time any more, one is killed, one goes on. While one is inside nothing is reset. */
static void try_limits(void) {
    NcsBox *box = new_box(LONG), *late = beside(box, SHORT), *killed = beside(box, LONG);
    Worker one, other;
    begin(&one, killed, "run_often", name("seven").at, 7, 0);
    until_inside(box);
    CHECK(call(late, "run_often", name("seven").at, 7, 0).how == NCS_LATE && call(box, "seven", 0, 0, 0).result == 7);
    CHECK(!ncs_reset(box) && !ncs_reset(killed) && call(box, "seven", 0, 0, 0).result == 7 &&
          call(killed, "seven", 0, 0, 0).how == NCS_BUSY);
    begin(&other, box, "run_often", name("seven").at, 7, 0);
    ncs_kill(killed);
    CHECK(how_ends(&one) == NCS_KILLED && call(killed, "seven", 0, 0, 0).how == NCS_DEAD);
    store(box, 1, 0);
    until_inside(box);
    CHECK(!ncs_reset(late));
    store(box, 0, 1);
    CHECK(how_ends(&other) == NCS_RETURNED && other.end.result == 0 && ncs_reset(late) && call(killed, "seven", 0, 0, 0).result == 7);
    CHECK(ncs_free(killed) && ncs_free(late) && ncs_free(box));
    puts("limits and kills");
}

static int is_over;
static uint32_t resets;
static __thread int rests_in_resets;

/* The library empties memory by this call. A thread that resets rests there, so that another one meets its resets on any machine. */
int madvise(void *at, size_t len, int advice) {
    const struct timespec a_moment = {0, 20000};
    if (rests_in_resets) {
        (void)nanosleep(&a_moment, NULL);
    }
    return (int)syscall(SYS_madvise, at, len, advice);
}

static void *reset_often(void *box) {
    rests_in_resets = 1;
    while (!__atomic_load_n(&is_over, __ATOMIC_SEQ_CST)) {
        __atomic_fetch_add(&resets, (uint32_t)ncs_reset(box), __ATOMIC_SEQ_CST);
        (void)sched_yield();
    }
    return NULL;
}

/* Whether a box that was just made returns a number, or isn't entered, since its memory is being reset. */
static int has_returned(NcsBox *box) {
    NcsEnd end = call(box, "seven", 0, 0, 0);
    CHECK(end.how == NCS_BUSY || (end.how == NCS_RETURNED && end.result == 7));
    return end.how == NCS_RETURNED;
}

/* Boxes are made, called and freed beside one that another thread resets. */
static void try_resets(void) {
    NcsBox *box = new_box(LONG);
    pthread_t thread;
    uint32_t returned = 0, k;
    if (pthread_create(&thread, NULL, reset_often, box) != 0) {
        abort();
    }
    for (k = 0; returned < MEETS || k - returned < MEETS || __atomic_load_n(&resets, __ATOMIC_SEQ_CST) < MEETS; k++) {
        NcsBox *other = ncs_box_beside(box, (NcsAt){MEMORY_LEN}, 2, LONG, NULL);
        returned += (uint32_t)has_returned(other);
        CHECK(ncs_free(other));
    }
    __atomic_store_n(&is_over, 1, __ATOMIC_SEQ_CST);
    CHECK(pthread_join(thread, NULL) == 0 && ncs_reset(box) && ncs_free(box));
    puts("resets");
}

/* A memory has its area for good. */
static void try_areas(void) {
    NcsSpan room = ncs_room(module), half = {room.from, room.len / 64 * 32}, none = {{0}, 0};
    NcsBox *box = new_box(SHORT), *other = beside(box, SHORT), *poor = new_box(SHORT), *poorer = beside(poor, SHORT);
    CHECK(ncs_code_calls(box, half).at == NCS_CALLBACK(0) && ncs_code_calls(other, room).at == 0 && ncs_code_calls(other, none).at == 0);
    CHECK(ncs_code_calls(other, half).at == NCS_CALLBACK(0) && ncs_code_calls(poor, none).at == NCS_CALLBACK(0));
    CHECK(ncs_code_calls(poorer, half).at == 0 && ncs_code_calls(poorer, (NcsSpan){room.from, 0}).at == NCS_CALLBACK(0));
    CHECK(ncs_free(box) && ncs_free(other) && ncs_free(poor) && ncs_free(poorer));
    puts("areas");
}

/* The compiler makes a chunk, and publishes it; the runners execute what was published last, and count; once each has counted twice, nobody
   can be in the chunk before, which the last thread deletes. */
static void try_generators(void) {
    NcsSpan room = ncs_room(module);
    NcsBox *compiler = new_box(UINT32_MAX), *deleter = beside(compiler, UINT32_MAX), *runners[RUNNERS];
    Worker works[RUNNERS + 2];
    unsigned k;
    CHECK(ncs_code_calls(compiler, room).at == NCS_CALLBACK(0) && ncs_code_calls(deleter, room).at == NCS_CALLBACK(0));
    CHECK(ncs_callback(compiler, rest, NULL, 0).at == RESTS && ncs_callback(deleter, rest, NULL, 0).at == RESTS);
    for (k = 0; k < RUNNERS; k++) {
        runners[k] = beside(compiler, UINT32_MAX);
        CHECK(ncs_code_calls(runners[k], room).at == NCS_CALLBACK(0) && ncs_callback(runners[k], rest, NULL, 0).at == RESTS);
    }
    begin(&works[0], compiler, "compile", ROUNDS, 0, 0);
    begin(&works[1], deleter, "sweep", ROUNDS, RUNNERS, 0);
    for (k = 0; k < RUNNERS; k++) {
        begin(&works[2 + k], runners[k], "execute", k, ROUNDS, 0);
    }
    for (k = 0; k < RUNNERS + 2; k++) {
        CHECK(how_ends(&works[k]) == NCS_RETURNED && works[k].end.result == 0);
    }
    CHECK(ncs_reset(deleter) && ncs_hole(module, room.from, (NcsAt){room.from.at + room.len}).len == room.len);
    for (k = 0; k < RUNNERS; k++) {
        CHECK(ncs_free(runners[k]));
    }
    CHECK(ncs_free(deleter) && ncs_free(compiler));
    puts("a compiler, two that execute, and one that deletes");
}

static void load_module(const char *path) {
    static uint8_t file[1 << 17];
    FILE *from = fopen(path, "rb");
    size_t len = from != NULL ? fread(file, 1, sizeof file, from) : 0;
    NcsRefusal why;
    if (from == NULL || fclose(from) != 0) {
        exit(2);
    }
    module = ncs_module_live_elf(file, len, 0x1000, 8, &why);
    if (module == NULL) {
        printf("%s: live code: %s\n", why.kind == NCS_BAD_SYSTEM ? "skipped" : "refused", why.sentence);
        exit(why.kind == NCS_BAD_SYSTEM ? SKIPPED : 2);
    }
}

int main(int argc, char **argv) {
    (void)setvbuf(stdout, NULL, _IOLBF, 0);
    if (argc != 2) {
        return 2;
    }
    load_module(argv[1]);
    try_memory();
    try_refusals();
    try_limits();
    try_resets();
    try_areas();
    try_generators();
    ncs_module_free(module);
    printf("%u wrong\n", testing_wrong);
    return testing_wrong != 0;
}
