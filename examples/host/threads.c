/*
 * A host in C whose threads are inside a region, held by a handle, while it is patched and its chunks are deleted and replaced.
 *
 *     threads [--seconds N] [--control]
 *
 * It executes nothing. The threads read the host's memory byte after byte, and interpret its instructions. A chunk's instructions are loads
 * of its name, which is four equal bytes, at places that differ from chunk to chunk. A thread is astray if it finds a name of unequal bytes,
 * or a byte that begins nothing. So it is if it stands in one chunk while another one is put there, or if it reads an instruction before
 * that is whole. With --control the host draws the stamp of a deletion before its stops stand in the memory, and threads go astray.
 * tests/nc_host/host compiles it as C and as C++.
 */
#define _POSIX_C_SOURCE 199506L
#define NC_FAULT_NAMES
#include "nc_host.h"

#include <pthread.h>
#include <sched.h>
#include <stdio.h>
#include <stdlib.h>
#include <string.h>
#include <time.h>

#define BUNDLES 16u
#define THREADS 3
#define SLOTS 7u /* chunks of two bundles; the last two bundles stay unused */
#define LEN (2 * NC_BUNDLE)
#define ROOM (LEN + 2)
#define OUT (NC_START - NC_BUNDLE) /* where chunks jump to leave: the host's own code, if it had any */

enum { NOP = 0x90, LOAD = 0xB8, JUMP = 0xEB, FAR_JUMP = 0xE9 };

typedef struct Inside {
    pthread_t thread;
    NcSeat seat;
    uint32_t turns; /* odd while an instruction is read: what is read before it is even again may be old */
    unsigned random;
    unsigned long stays, stops, astray;
} Inside;

static NcRegion region;
static NcAct acts[ROOM];
static uint8_t memory[BUNDLES * NC_BUNDLE];
static Inside inside[THREADS];
static int is_over, is_control;

/* ---- A thread that is inside */

static uint8_t load(uint32_t at) {
    return __atomic_load_n(&memory[at - NC_START], __ATOMIC_SEQ_CST);
}

/* Reads the instruction at the address and goes on behind it, or where it leads; 0 where the thread can't go on. */
static uint32_t step(Inside *own, uint32_t at) {
    uint8_t first = load(at), name;
    int i;
    switch (first) {
    case NOP: return at + 1;
    case LOAD:
        name = load(at + 1);
        for (i = 2; i <= 4; i++) {
            own->astray += load(at + i) != name;
        }
        return at + 5;
    case JUMP: return at + 2 + load(at + 1);
    case FAR_JUMP: return OUT;
    default:
        own->stops += first == NC_STOP;
        own->astray += first != NC_STOP;
        return 0;
    }
}

/* Some microseconds in which others go on. */
static void be_held_up(long microseconds) {
    struct timespec some = {0, 0};
    some.tv_nsec = 1000 * microseconds;
    nanosleep(&some, NULL);
}

/* A stay: from a bundle start until it jumps out or stops. */
static void stay(Inside *own) {
    uint32_t at = NC_START + NC_BUNDLE * (rand_r(&own->random) % (SLOTS * 2));
    while (at >= NC_START && at < NC_LIMIT(BUNDLES)) {
        __atomic_add_fetch(&own->turns, 1, __ATOMIC_SEQ_CST);
        at = step(own, at);
        __atomic_add_fetch(&own->turns, 1, __ATOMIC_SEQ_CST);
        if (rand_r(&own->random) % 256 == 0) {
            be_held_up(200);
        }
    }
    own->stays++;
}

static void *run(void *given) {
    Inside *own = (Inside *)given;
    while (!__atomic_load_n(&is_over, __ATOMIC_SEQ_CST)) {
        stay(own);
        nc_seat_check_in(&own->seat);
    }
    nc_seat_leave(&own->seat);
    return NULL;
}

/* ---- The writer */

/* A host that interprets the code has serialized once each of its threads has been between two instructions. So this waits until no thread
   is still at an instruction at which it was when this was called. */
static void serialize(void) {
    int i;
    for (i = 0; i < THREADS; i++) {
        uint32_t turns = __atomic_load_n(&inside[i].turns, __ATOMIC_SEQ_CST);
        while (turns % 2 == 1 && __atomic_load_n(&inside[i].turns, __ATOMIC_SEQ_CST) == turns) {
            sched_yield();
        }
    }
}

static void make(NcChange change) {
    size_t i;
    if (change.fault != NC_OK) {
        printf("a change was refused: %s at %08x\n", nc_fault_sentence(change.fault), (unsigned)change.at);
        exit(1);
    }
    for (i = 0; i < change.count; i++) {
        if (acts[i].kind == NC_PUT) {
            __atomic_store_n(&memory[acts[i].at - NC_START], (uint8_t)acts[i].value, __ATOMIC_SEQ_CST);
        } else if (acts[i].kind == NC_SERIALIZE) {
            serialize();
        }
    }
}

static void put_load(uint8_t *to, uint8_t name) {
    to[0] = LOAD;
    memset(to + 1, name, 4);
}

/* Two bundles of loads of a name, of which the first begins after some nops, and a jump out. */
static void draw_chunk(uint8_t *code, uint8_t name, uint32_t base, unsigned nops) {
    uint32_t rel = OUT - (base + LEN);
    int i;
    memset(code, NOP, LEN);
    for (i = 0; i < 5; i++) {
        put_load(code + nops + 5 * i, name);
        put_load(code + NC_BUNDLE + 5 * i, name);
    }
    code[30] = JUMP;
    code[31] = 0;
    code[LEN - 5] = FAR_JUMP;
    for (i = 0; i < 4; i++) {
        code[LEN - 4 + i] = (uint8_t)(rel >> 8 * i);
    }
}

static void delete_chunk(uint32_t base) {
    NcChange deletion = nc_region_begin_delete(&region, base, acts, ROOM);
    if (is_control) { /* wrong: threads check in, go in again, and the span counts as left */
        nc_region_end_delete(&region);
        be_held_up(200);
        make(deletion);
    } else {
        make(deletion);
        be_held_up(200);
        nc_region_end_delete(&region);
    }
}

/* What stands in a slot of two bundles. */
typedef struct Slot {
    int is_live;
    unsigned nops; /* in front of its first load */
} Slot;

/* A change of one slot: a creation where it is free, else a patch or a deletion. How many changes there were: none where the span is still
   held back by a thread. */
static unsigned long change(unsigned *random, uint32_t at, Slot *slot) {
    uint8_t code[LEN], name = (uint8_t)rand_r(random);
    NcChange made;
    if (slot->is_live && rand_r(random) % 4 != 0) {
        put_load(code, name);
        make(nc_region_patch(&region, at + slot->nops, code, 5, acts, ROOM));
        return 1;
    }
    if (slot->is_live) {
        delete_chunk(at);
        slot->is_live = 0;
        return 1;
    }
    slot->nops = (unsigned)rand_r(random) % 6;
    draw_chunk(code, name, at, slot->nops);
    made = nc_region_create(&region, at, code, LEN, acts, ROOM);
    if (made.fault == NC_OCCUPIED) {
        nc_region_reclaim(&region);
        return 0;
    }
    make(made);
    slot->is_live = 1;
    return 1;
}

static unsigned long write_for(unsigned seconds) {
    Slot slots[SLOTS];
    unsigned random = 1;
    unsigned long changes = 0;
    time_t until = time(NULL) + (time_t)seconds;
    memset(slots, 0, sizeof slots);
    while (time(NULL) < until) {
        uint32_t k = (uint32_t)rand_r(&random) % SLOTS;
        changes += change(&random, NC_START + LEN * k, &slots[k]);
    }
    return changes;
}

static void start(void) {
    int i;
    memset(memory, NC_STOP, sizeof memory);
    if (nc_region_new(BUNDLES, THREADS, &region) != NC_OK) {
        exit(2);
    }
    for (i = 0; i < THREADS; i++) {
        inside[i].random = 2 + (unsigned)i;
        if (nc_region_seat(&region, &inside[i].seat) != NC_OK || pthread_create(&inside[i].thread, NULL, run, &inside[i]) != 0) {
            exit(2);
        }
    }
}

/* Ends the threads and frees the region; whether one went astray. */
static int end(unsigned long changes) {
    unsigned long stays = 0, stops = 0, astray = 0;
    int i;
    __atomic_store_n(&is_over, 1, __ATOMIC_SEQ_CST);
    for (i = 0; i < THREADS; i++) {
        pthread_join(inside[i].thread, NULL);
        stays += inside[i].stays;
        stops += inside[i].stops;
        astray += inside[i].astray;
    }
    nc_region_free(&region);
    printf("%d threads inside while chunks are patched, deleted and replaced: %s\n", THREADS, astray ? "ASTRAY" : "nothing astray");
    printf("counts: %lu stays, %lu stops met, %lu changes, %lu astray\n", stays, stops, changes, astray);
    return astray != 0;
}

int main(int count, char **words) {
    unsigned seconds = 1;
    int i;
    for (i = 1; i < count; i++) {
        if (strcmp(words[i], "--control") == 0) {
            is_control = 1;
        } else if (strcmp(words[i], "--seconds") == 0 && i + 1 < count) {
            seconds = (unsigned)atoi(words[++i]);
        } else {
            fprintf(stderr, "usage: threads [--seconds N] [--control]\n");
            return 2;
        }
    }
    start();
    return end(write_for(seconds));
}
