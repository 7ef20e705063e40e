/* Live code with several threads inside: each creates, calls, patches and deletes chunks of its own, and calls those of the others. Each
   result is right, or the call stopped in code that was deleted; and no stop of a change under way ends a call. */
#define _GNU_SOURCE
#include "codes.h"

#include <pthread.h>
#include <sched.h>
#include <stdio.h>
#include <stdlib.h>
#include <string.h>
#include <time.h>

#define THREADS 4u
#define SLOTS 16u      /* places of chunks, used in turns by a thread; slot k is thread k % THREADS's */
#define MOST 16u       /* bundles of a chunk */
#define LIVES 800u     /* chunks that each thread makes */
#define LOOP_EACH 200u /* one in so many loops without end */
#define PATCHES 20000u
#define PATCHES_MOST 1000000u
#define SLOT_AT(k) (NC_START + MOST * BUNDLE * (k))

static NcsModule *module;
static NcsBox *boxes[THREADS];
static uint64_t met_stops; /* of changes under way, in the first part; atomic */
static int over;

static uint32_t next_random(uint64_t *random) {
    *random ^= *random << 13;
    *random ^= *random >> 7;
    *random ^= *random << 17;
    return (uint32_t)(*random >> 16);
}

/* ---- Numbers that tell where they are from, so that a number of two halves is seen */

static uint32_t number_of(uint32_t slot, uint32_t bundle, uint32_t serial) {
    uint32_t half = (serial & 0xFF) << 8 | slot << 4 | bundle;
    return (half ^ 0xFFFF) << 16 | half;
}

static int is_from(uint32_t number, uint32_t slot, uint32_t bundle) {
    return number == number_of(slot, bundle, number >> 8 & 0xFF);
}

/* ---- A thread */

typedef struct Owner {
    pthread_t thread;
    unsigned id;
    NcsBox *box;
    uint64_t random;
    uint32_t serial;
    unsigned stopped, killed;
} Owner;

/* A call may be killed at any time. Then it is made again. */
static NcsEnd run(Owner *o, uint32_t at) {
    NcsEnd end = codes_run(o->box, at);
    while (end.how == NCS_KILLED) {
        o->killed++;
        CHECK(ncs_reset(o->box));
        end = codes_run(o->box, at);
    }
    if (end.how != NCS_RETURNED) {
        CHECK(ncs_reset(o->box));
    }
    return end;
}

static int returns(Owner *o, uint32_t at, uint32_t number) {
    NcsEnd end = run(o, at);
    return end.how == NCS_RETURNED && end.result == number;
}

/* Its span may have been another chunk's, which is deleted, and held back as long as another thread is inside. */
static void create(uint32_t at, const uint8_t *code, size_t len) {
    NcsRefusal why;
    while (!ncs_create(module, (NcsAt){at}, code, len, &why)) {
        if (why.kind != NCS_BAD_CHANGE || why.fault != NC_OCCUPIED) {
            CHECK(why.kind == NCS_OK);
            return;
        }
        if (ncs_reclaim(module) == 0) {
            (void)sched_yield();
        }
    }
}

static void create_numbers(Owner *o, uint32_t slot, uint32_t bundles) {
    uint8_t code[MOST * BUNDLE];
    uint32_t k;
    o->serial++;
    for (k = 0; k < bundles; k++) {
        codes_number(code + BUNDLE * k, number_of(slot, k, o->serial));
    }
    create(SLOT_AT(slot), code, BUNDLE * bundles);
}

/* Another thread's chunk may be there, or have been there, or come in the midst of it. */
static void call_another(Owner *o) {
    uint32_t slot = next_random(&o->random) % SLOTS, bundle = next_random(&o->random) % MOST, at = SLOT_AT(slot) + BUNDLE * bundle;
    NcsEnd end = run(o, at);
    if (end.how == NCS_STOPPED) {
        CHECK(end.place >= at && end.place < at + BUNDLE);
        o->stopped++;
    } else {
        CHECK(end.how == NCS_RETURNED && is_from(end.result, slot, bundle));
    }
}

static void live_once(Owner *o, uint32_t slot) {
    uint32_t bundles = 1 + next_random(&o->random) % MOST, k = next_random(&o->random) % bundles, at = SLOT_AT(slot) + BUNDLE * k;
    uint8_t mov[MOV_LEN];
    create_numbers(o, slot, bundles);
    CHECK(returns(o, at, number_of(slot, k, o->serial)));
    call_another(o);
    codes_mov(mov, number_of(slot, k, o->serial + 1));
    CHECK(ncs_patch(module, (NcsAt){at}, mov, sizeof mov, NULL) && returns(o, at, number_of(slot, k, ++o->serial)));
    call_another(o);
    CHECK(codes_delete(module, SLOT_AT(slot)));
}

/* Another thread that is in the loop stops once it is deleted. */
static void loop_once(uint32_t slot) {
    NcsBox *box = codes_box(module, SHORT);
    uint8_t code[BUNDLE];
    codes_loop(code);
    create(SLOT_AT(slot), code, sizeof code);
    CHECK(codes_run(box, SLOT_AT(slot)).how == NCS_LATE && codes_delete(module, SLOT_AT(slot)) && ncs_free(box));
}

static void *live(void *one) {
    Owner *o = one;
    unsigned k;
    for (k = 1; k <= LIVES; k++) {
        uint32_t slot = THREADS * (k % (SLOTS / THREADS)) + o->id;
        if (k % LOOP_EACH == 0) {
            loop_once(slot);
        } else {
            live_once(o, slot);
        }
    }
    return NULL;
}

static void start(Owner *o, unsigned id, void *(*what)(void *)) {
    memset(o, 0, sizeof *o);
    o->id = id;
    o->random = 0x9E3779B97F4A7C15ull * (id + 1);
    o->box = boxes[id] = codes_box(module, LONG);
    if (pthread_create(&o->thread, NULL, what, o) != 0) {
        abort();
    }
}

static void *kill_now_and_then(void *none) {
    const struct timespec pause = {0, 300000};
    unsigned k;
    for (k = 0; !__atomic_load_n(&over, __ATOMIC_SEQ_CST); k++) {
        (void)nanosleep(&pause, NULL);
        ncs_kill(boxes[k % THREADS]);
    }
    return none;
}

static void join(pthread_t thread) {
    CHECK(pthread_join(thread, NULL) == 0);
}

/* Threads that do this, with kills or without. All deleted spans are free in the end. */
static void run_threads(void *(*what)(void *), int kills) {
    Owner owners[THREADS];
    pthread_t killer;
    unsigned k, stopped = 0, killed = 0;
    for (k = 0; k < THREADS; k++) {
        start(&owners[k], k, what);
    }
    over = 0;
    if (kills && pthread_create(&killer, NULL, kill_now_and_then, NULL) != 0) {
        abort();
    }
    for (k = 0; k < THREADS; k++) {
        join(owners[k].thread);
        stopped += owners[k].stopped;
        killed += owners[k].killed;
    }
    __atomic_store_n(&over, 1, __ATOMIC_SEQ_CST);
    if (kills) {
        join(killer);
    }
    for (k = 0; k < THREADS; k++) {
        CHECK(ncs_free(boxes[k]));
    }
    CHECK(stopped != 0 && (killed != 0) == kills);
    (void)ncs_reclaim(module);
    CHECK(module->live->calls == 0 && nc_region_chunk(&module->live->region, 0).fault == NC_NO_CHUNK);
}

/* ---- One chunk that is patched all the time, by a thread that calls it too */

static void *call_patched(void *one) {
    Owner *o = one;
    uint64_t calls = 0, met = 0;
    while (!__atomic_load_n(&over, __ATOMIC_SEQ_CST)) {
        NcsEnd end = run(o, SLOT_AT(0));
        CHECK(end.how == NCS_RETURNED && is_from(end.result, 0, 0));
        __atomic_add_fetch(&met_stops, ncs_thread->met_stops - met, __ATOMIC_SEQ_CST);
        met = ncs_thread->met_stops;
        calls++;
    }
    CHECK(calls != 0);
    return NULL;
}

/* On a busy machine threads meet few stops, so there are more patches until one is met. */
static int is_enough(uint32_t patches) {
    return patches == PATCHES_MOST || (patches >= PATCHES && __atomic_load_n(&met_stops, __ATOMIC_SEQ_CST) != 0);
}

static void try_patches(void) {
    Owner owners[THREADS];
    uint8_t mov[MOV_LEN];
    uint32_t k;
    over = 0;
    CHECK(codes_create_number(module, SLOT_AT(0), number_of(0, 0, 0)));
    for (k = 1; k < THREADS; k++) {
        start(&owners[k], k, call_patched);
    }
    for (k = 1; !is_enough(k); k++) {
        codes_mov(mov, number_of(0, 0, k));
        CHECK(ncs_patch(module, (NcsAt){SLOT_AT(0)}, mov, sizeof mov, NULL));
    }
    __atomic_store_n(&over, 1, __ATOMIC_SEQ_CST);
    for (k = 1; k < THREADS; k++) {
        join(owners[k].thread);
        CHECK(ncs_free(owners[k].box));
    }
    CHECK(codes_delete(module, SLOT_AT(0)) && ncs_reclaim(module) == 1);
    CHECK(met_stops != 0);
    puts("stops of changes under way");
}

int main(void) {
    (void)setvbuf(stdout, NULL, _IOLBF, 0);
    module = codes_module(SLOTS * MOST);
    try_patches();
    run_threads(live, 0);
    puts("lives");
    run_threads(live, 1);
    puts("lives with kills");
    ncs_module_free(module);
    printf("%u wrong\n", testing_wrong);
    return testing_wrong != 0;
}
