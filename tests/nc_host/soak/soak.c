/*
 * A region beside threads, for as long as is asked for: soak SECONDS.
 *
 * A writer creates, patches, deletes and reclaims chunks, and judges each answer by a plain model (writer.c). After each act that a change
 * writes, every mixture of bytes that a thread may fetch is read (memory.c). Two threads walk through the region, look for an instruction
 * at each place where they come, and check in. It ends with status 1 if anything was wrong.
 */
#define _POSIX_C_SOURCE 200809L
#include "memory.h"
#include "writer.h"

#include <sched.h>
#include <stdatomic.h>
#include <stdbool.h>
#include <stdio.h>
#include <stdlib.h>
#include <time.h>

#define WALKERS 2
#define CHOICES 40u

typedef struct Walker {
    pthread_t thread;
    NcSeat seat;
    uint64_t random;
    unsigned long walks, places, check_ins, wrong;
} Walker;

static Host host = {.lock = PTHREAD_MUTEX_INITIALIZER};
static Walker walkers[WALKERS];
static atomic_bool is_over;

static void need(bool holds) {
    if (!holds) {
        fputs("soak: it can't begin\n", stderr);
        exit(2);
    }
}

/* ---- A walker */

/* An instruction stands at an address of the region, inside its bundle; below the region there is only trusted code. */
static bool stands_well(uint32_t at) {
    uint8_t bytes[NC_BUNDLE];
    uint32_t length = NC_BUNDLE - at % NC_BUNDLE;
    if (at < NC_START) {
        return true;
    }
    for (uint32_t i = 0; i < length; i++) {
        bytes[i] = (uint8_t)nc_region_place(&host.region, at + i).byte;
    }
    return nc_host_decode(bytes, length).fault == NC_OK;
}

/* Walks from a bundle start, and again and again to one target. */
static void walk(Walker *own) {
    uint32_t start = NC_START + NC_BUNDLE * below(&own->random, BUNDLES), target = NC_START + below(&own->random, BUNDLES * NC_BUNDLE);
    uint32_t choices[CHOICES], places[CHOICES + 1];
    for (size_t i = 0; i < CHOICES; i++) {
        choices[i] = below(&own->random, 2) ? target : 0;
    }
    pthread_mutex_lock(&host.lock);
    NcWalk walk = nc_region_walk(&host.region, start, choices, CHOICES, places, CHOICES + 1);
    for (size_t i = 0; i < walk.count; i++) {
        own->wrong += !stands_well(places[i]);
    }
    pthread_mutex_unlock(&host.lock);
    own->wrong += walk.fault != NC_OK;
    own->walks++;
    own->places += walk.count;
}

static void *walk_on(void *given) {
    Walker *own = given;
    while (!atomic_load(&is_over)) {
        walk(own);
        own->wrong += nc_seat_check_in(&own->seat) != NC_OK;
        own->check_ins++;
        sched_yield(); /* otherwise the lock is mostly taken again before another thread comes to it */
    }
    nc_seat_leave(&own->seat);
    return NULL;
}

/* ---- All of it */

static void begin(void) {
    writer_begin();
    need(nc_region_new(BUNDLES, WALKERS, &host.region) == NC_OK);
    for (int i = 0; i < WALKERS; i++) {
        walkers[i].random = 2 + (uint64_t)i;
        need(nc_region_seat(&host.region, &walkers[i].seat) == NC_OK);
        need(pthread_create(&walkers[i].thread, NULL, walk_on, &walkers[i]) == 0);
    }
}

static void write_for(long seconds) {
    time_t until = time(NULL) + (time_t)seconds;
    while (time(NULL) < until) {
        for (int i = 0; i < 256; i++) {
            writer_step(&host);
            sched_yield();
        }
        writer_compare(&host);
    }
}

static void end(void) {
    atomic_store(&is_over, true);
    for (int i = 0; i < WALKERS; i++) {
        pthread_join(walkers[i].thread, NULL);
    }
    writer_end(&host);
    nc_region_free(&host.region);
}

/* Prints what was done. How much of it was wrong. */
static unsigned long report(void) {
    unsigned long wrong = done.wrong + readings.wrong;
    printf("writer: %lu created, %lu patched, %lu deleted, %lu freed by %lu reclaims, %lu rightly refused; %lu comparisons; %lu wrong\n",
           done.created, done.patched, done.deleted, done.freed, done.reclaimed, done.refused, done.compared, done.wrong);
    printf("memory: %lu acts, %lu serializations, %lu readings; %lu wrong\n", readings.acts, readings.serializations, readings.readings,
           readings.wrong);
    for (int i = 0; i < WALKERS; i++) {
        const Walker *walker = &walkers[i];
        printf("walker: %lu walks over %lu places, %lu check-ins; %lu wrong\n", walker->walks, walker->places, walker->check_ins,
               walker->wrong);
        wrong += walker->wrong;
    }
    return wrong;
}

int main(int argc, char **argv) {
    need(argc == 2);
    begin();
    write_for(atol(argv[1]));
    end();
    return report() != 0;
}
