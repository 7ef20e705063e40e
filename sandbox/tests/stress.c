/* Threads, kills and resets: stress [SECONDS [SEED]], a second where no number is named. First calls are killed after each of some numbers
   of microseconds. Then threads make and free modules and boxes and call them, while one kills their boxes at any moment. In the end
   nothing is kept. */
#define _GNU_SOURCE
#include "testing.h"

#include <pthread.h>
#include <semaphore.h>
#include <stdio.h>
#include <stdlib.h>
#include <string.h>
#include <time.h>
#include <unistd.h>

#define WORKERS 4
#define ROOM 0x120000u
#define STEP 37u       /* microseconds from one kill to the next, modulo LONGEST: in time each number of them */
#define LONGEST 20011u /* two ticks */
#define LEAST 50u      /* rounds of kills, and calls of a worker, however busy the machine is */
#define AT(bundle) (CODE_AT + 32u * (bundle))

/* Functions, by their bundles. */
enum { ADD, SPIN, STOP, CALLS, CALLS_AGAIN, STORE, FILL, BUNDLES };
static const uint8_t CODE[BUNDLES][32] = {
    [ADD] = {0x8B, 0x44, 0x24, 4, 0x03, 0x44, 0x24, 8, 0x59, 0x83, 0xE1, 0xE0, 0xFF, 0xE1}, /* the sum of its arguments */
    [SPIN] = {0xEB, 0xFE},
    [STOP] = {0xF4},
    [CALLS] = {0xBE, 0x00, 0x01, 0, 0, 0xBF, 0x80, 0x00, 0x01, 0, 0x89, 0xE5}, /* esi: call-back 0; edi: the next bundle; ebp: its stack */
    [CALLS_AGAIN] = {0x89, 0xEC, 0x89, 0x3C, 0x24, 0x83, 0xE6, 0xE0, 0xFF, 0xE6},
    [STORE] = {0xA3, 0xF0, 0xFF, 0xFF, 0xFF},
    [FILL] = {0xBF, 0x00, 0x00, 0x02, 0, 0x83, 0xC9, 0xFF, 0xF3, 0xAA}, /* edi: 00020000; ecx: -1; rep stosb */
};
static const NcsLimits LIMITS = {.memory = ROOM, .depth = 8, .milliseconds = 60000};
static uint64_t seed;

static uint32_t next_random(uint64_t *state) {
    *state ^= *state << 13;
    *state ^= *state >> 7;
    *state ^= *state << 17;
    return (uint32_t)(*state >> 16);
}

static double now(void) {
    struct timespec t = {0, 0};
    CHECK(clock_gettime(CLOCK_MONOTONIC, &t) == 0);
    return (double)t.tv_sec + 1e-9 * (double)t.tv_nsec;
}

static NcsModule *make_module(void) {
    uint8_t code[sizeof CODE];
    NcsRefusal why;
    NcsModule *module;
    size_t k;
    for (k = 0; k < sizeof code; k++) {
        size_t len = sizeof CODE[0];
        while (len != 0 && CODE[k / 32][len - 1] == 0) {
            len--;
        }
        code[k] = k % 32 < len ? CODE[k / 32][k % 32] : 0x90;
    }
    module = ncs_module_code(code, sizeof code, &why);
    if (module == NULL) {
        printf("%s: boxes: %s\n", why.kind == NCS_BAD_SYSTEM ? "skipped" : "refused", why.sentence);
        exit(why.kind == NCS_BAD_SYSTEM ? SKIPPED : 2);
    }
    return module;
}

/* Now and then it calls its box. */
static uint64_t call_back(NcsBox *box, void *user, const uint32_t *args) {
    unsigned *calls = user;
    (void)args;
    if (++*calls % 16 == 0) {
        NcsAt add = {AT(ADD)};
        NcsEnd end = ncs_call(box, add, NCS_ARGS(2, 3));
        CHECK(end.how == NCS_KILLED || (end.how == NCS_RETURNED && end.result == 5));
    }
    return 0;
}

static NcsBox *make_box(NcsModule *module, unsigned *calls) {
    NcsBox *box = ncs_box_new(module, &LIMITS, NULL);
    if (box == NULL || ncs_callback(box, call_back, calls, 1).at == 0) {
        puts("no box");
        exit(2);
    }
    return box;
}

/* Calls a function with an end that is right where nobody kills; whether it was killed. */
static int call_one(NcsBox *box, unsigned function, uint32_t a) {
    static const uint32_t ends[BUNDLES] = {[ADD] = NCS_RETURNED,       [SPIN] = NCS_KILLED,   [STOP] = NCS_STOPPED, [CALLS] = NCS_KILLED,
                                           [CALLS_AGAIN] = NCS_KILLED, [STORE] = NCS_FAULTED, [FILL] = NCS_FAULTED};
    NcsAt at = {AT(function)};
    NcsEnd end = ncs_call(box, at, NCS_ARGS(a, 7));
    CHECK(end.how == NCS_KILLED || end.how == ends[function]);
    CHECK(end.how != NCS_RETURNED || end.result == a + 7);
    CHECK((end.how != NCS_STOPPED && end.how != NCS_FAULTED) || end.trap == 13);
    return end.how == NCS_KILLED;
}

/* ---- A kill after each number of microseconds */

typedef struct Victim {
    pthread_t thread;
    NcsBox *box;
    unsigned function, calls;
    int over; /* under the semaphores */
    sem_t begins, ended;
} Victim;

/* Short calls are made until one is killed. */
static void *be_victim(void *given) {
    Victim *v = given;
    uint32_t a = 0;
    for (;;) {
        CHECK(sem_wait(&v->begins) == 0);
        if (v->over) {
            return NULL;
        }
        while (!call_one(v->box, v->function, a)) {
            a++;
        }
        CHECK(sem_post(&v->ended) == 0);
    }
}

static void begin_victim(Victim *v, NcsModule *module, unsigned function) {
    v->box = make_box(module, &v->calls);
    v->function = function;
    CHECK(sem_init(&v->begins, 0, 0) == 0 && sem_init(&v->ended, 0, 0) == 0);
    CHECK(pthread_create(&v->thread, NULL, be_victim, v) == 0);
}

static void end_victim(Victim *v) {
    v->over = 1;
    CHECK(sem_post(&v->begins) == 0 && pthread_join(v->thread, NULL) == 0);
    CHECK(ncs_free(v->box));
}

/* The box is dead then, until its reset. */
static void kill_one(Victim *v) {
    NcsAt add = {AT(ADD)};
    ncs_kill(v->box);
    CHECK(sem_wait(&v->ended) == 0);
    CHECK(ncs_call(v->box, add, NCS_ARGS(1, 2)).how == NCS_DEAD && ncs_reset(v->box));
}

static unsigned try_kills(double until) {
    static const unsigned functions[] = {ADD, SPIN, CALLS};
    static Victim victims[3];
    NcsModule *module = make_module();
    unsigned rounds, k;
    for (k = 0; k < 3; k++) {
        begin_victim(&victims[k], module, functions[k]);
    }
    for (rounds = 0; now() < until || rounds < LEAST; rounds++) {
        double end = now() + 1e-6 * (rounds * STEP % LONGEST);
        for (k = 0; k < 3; k++) {
            CHECK(sem_post(&victims[k].begins) == 0);
        }
        while (now() < end) {}
        for (k = 0; k < 3; k++) {
            kill_one(&victims[k]);
        }
    }
    for (k = 0; k < 3; k++) {
        end_victim(&victims[k]);
    }
    ncs_module_free(module);
    return 3 * rounds;
}

/* ---- Threads that make and free, and one that kills */

typedef struct Worker {
    pthread_t thread;
    pthread_mutex_t lock; /* of the box's life: nobody may kill a box that is freed */
    NcsBox *box;
    uint64_t random;
    double until;
    unsigned long calls, killed, made;
    int done; /* atomic */
} Worker;

static void set_box(Worker *w, NcsBox *box) {
    CHECK(pthread_mutex_lock(&w->lock) == 0);
    w->box = box;
    CHECK(pthread_mutex_unlock(&w->lock) == 0);
}

static void replace_box(Worker *w, NcsModule **module, unsigned *calls) {
    NcsBox *old = w->box;
    set_box(w, NULL);
    CHECK(ncs_free(old));
    if (next_random(&w->random) % 4 == 0) {
        ncs_module_free(*module);
        *module = make_module();
    }
    set_box(w, make_box(*module, calls));
    w->made++;
}

static void *work(void *given) {
    static const unsigned functions[] = {ADD, ADD, ADD, ADD, ADD, ADD, STOP, STORE, FILL, SPIN, CALLS};
    Worker *w = given;
    NcsModule *module = make_module();
    NcsBox *last;
    unsigned calls = 0;
    replace_box(w, &module, &calls);
    while (now() < w->until || w->calls < LEAST) {
        uint32_t drawn = next_random(&w->random);
        unsigned function = functions[drawn % (sizeof functions / sizeof *functions)];
        int killed = call_one(w->box, function, drawn);
        w->killed += (unsigned)killed;
        w->calls++;
        if (killed || function != ADD || (drawn >> 8 & 1)) {
            CHECK(ncs_reset(w->box));
        }
        if ((drawn >> 9) % 8 == 0) {
            replace_box(w, &module, &calls);
        }
    }
    last = w->box;
    set_box(w, NULL);
    CHECK(ncs_free(last));
    ncs_module_free(module);
    __atomic_store_n(&w->done, 1, __ATOMIC_SEQ_CST);
    return NULL;
}

/* Kills until all workers have ended. */
static void kill_workers(Worker workers[WORKERS]) {
    uint64_t random = seed * 2 + 1;
    int left = WORKERS;
    while (left != 0) {
        Worker *w = &workers[next_random(&random) % WORKERS];
        int k;
        (void)usleep(next_random(&random) % 1000);
        CHECK(pthread_mutex_lock(&w->lock) == 0);
        if (w->box != NULL) {
            ncs_kill(w->box);
        }
        CHECK(pthread_mutex_unlock(&w->lock) == 0);
        for (left = 0, k = 0; k < WORKERS; k++) {
            left += !__atomic_load_n(&workers[k].done, __ATOMIC_SEQ_CST);
        }
    }
}

static void try_workers(double until) {
    static Worker workers[WORKERS];
    unsigned long calls = 0, killed = 0, made = 0;
    int k;
    for (k = 0; k < WORKERS; k++) {
        workers[k].random = (seed * WORKERS + (unsigned)k + 1) * 0x9E3779B97F4A7C15ull;
        workers[k].until = until;
        CHECK(pthread_mutex_init(&workers[k].lock, NULL) == 0);
        CHECK(pthread_create(&workers[k].thread, NULL, work, &workers[k]) == 0);
    }
    kill_workers(workers);
    for (k = 0; k < WORKERS; k++) {
        CHECK(pthread_join(workers[k].thread, NULL) == 0);
        calls += workers[k].calls;
        killed += workers[k].killed;
        made += workers[k].made;
    }
    CHECK(calls != 0 && killed != 0 && made > WORKERS);
    fprintf(stderr, "%lu calls, %lu of them killed, in %lu boxes\n", calls, killed, made);
}

int main(int argc, char **argv) {
    double seconds = argc > 1 ? strtod(argv[1], NULL) : 1;
    unsigned maps, segments, kills;
    seed = argc > 2 ? strtoull(argv[2], NULL, 0) : 1;
    ncs_module_free(make_module());
    maps = testing_low_maps();
    segments = testing_segments();
    kills = try_kills(now() + seconds / 2);
    CHECK(kills != 0);
    fprintf(stderr, "%u kills\n", kills);
    try_workers(now() + seconds / 2);
    CHECK(testing_low_maps() == maps && testing_segments() == segments);
    printf("%u wrong\n", testing_wrong);
    return testing_wrong != 0;
}
