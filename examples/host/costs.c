/*
 * Measures the calls on a region by its handle, in nanoseconds a call. Each number is that of the best of ROUNDS rounds.
 *
 *     costs COUNT BUNDLES ROUNDS [SEATS]
 *
 * A round makes a region with SEATS seats (default 1), creates COUNT chunks of BUNDLES bundles of ordinary code in it, patches and deletes
 * each of them, and reclaims all once each seat has checked in. Creations and deletions are made with a buffer for their acts, without one,
 * and without one but with their acts as runs afterwards. A patch always has a buffer. Other rows are a call that only vets, the loading of
 * vetted chunks, a check-in, and the making of a largest region. docs/PERFORMANCE.md has numbers.
 */
#define _POSIX_C_SOURCE 199506L
#include "nc_host.h"

#include <stdio.h>
#include <stdlib.h>
#include <string.h>
#include <time.h>

/* How a creation or a deletion tells its acts. */
enum { SILENT, ACTS, RUNS };

/* What is timed; creations and deletions in the order of the ways above. */
enum { VET, CREATE, LOAD = CREATE + 3, PATCH, DELETE, RECLAIM = DELETE + 3, CHECK_IN, NEW, KINDS };

/* clang-format off */
static const char *const names[KINDS] = {
    "vet", "create", "create, with acts", "create, with runs", "load a vetted chunk", "patch, with acts", "delete", "delete, with acts",
    "delete, with runs", "reclaim a chunk", "check in", "make a region of 64 MiB",
};
/* clang-format on */

/* Ordinary code with a branch and a masked jump in it, and the same with another number. */
static const uint8_t bundle[NC_BUNDLE] = {
    0x8B, 0x45, 0x08, 0x89, 0x44, 0x24, 0x04, 0x83, 0xC0, 0x01, 0x85, 0xC0, 0x74, 0x05, 0xB8, 0x01,
    0x00, 0x00, 0x00, 0x0F, 0xB6, 0xC0, 0x8D, 0x04, 0x80, 0x55, 0x5D, 0x83, 0xE1, 0xE0, 0xFF, 0xE1,
};
#define NUMBER_AT 14u /* mov eax, 1 */

static double best[KINDS];
static uint32_t count, len;
static uint8_t *code;
static NcAct *acts;
static size_t room;
static NcRegion region;
static NcSeat seats[256];
static uint32_t seat_count;
static NcVetted *vetted;

static double now(void) {
    struct timespec t;
    clock_gettime(CLOCK_MONOTONIC, &t);
    return 1e9 * (double)t.tv_sec + (double)t.tv_nsec;
}

static void keep(int kind, double start, double calls) {
    double each = (now() - start) / calls;
    if (best[kind] == 0 || each < best[kind]) {
        best[kind] = each;
    }
}

static void need(int holds) {
    if (!holds) {
        fprintf(stderr, "costs: a call was refused\n");
        exit(1);
    }
}

static uint32_t base(uint32_t k) {
    return NC_START + k * len;
}

/* All chunks are patched, to another number each time, deleted and reclaimed. */
static void patch_and_delete(int way) {
    static uint8_t patch[5] = {0xB8, 0, 0, 0, 0};
    NcAct *buffer = way == ACTS ? acts : NULL;
    size_t places = way == ACTS ? room : 0;
    double start;
    uint32_t k;
    patch[1]++;
    start = now();
    for (k = 0; k < count; k++) {
        need(nc_region_patch(&region, base(k) + NUMBER_AT, patch, 5, acts, room).fault == NC_OK);
    }
    keep(PATCH, start, count);
    start = now();
    for (k = 0; k < count; k++) {
        need(nc_region_begin_delete(&region, base(k), buffer, places).fault == NC_OK);
        need(way != RUNS || nc_region_deletion_runs(&region, acts, room).fault == NC_OK);
        need(nc_region_end_delete(&region).fault == NC_OK);
    }
    keep(DELETE + way, start, count);
    for (k = 0; k < seat_count; k++) {
        need(nc_seat_check_in(&seats[k]) == NC_OK);
    }
    start = now();
    need(nc_region_reclaim(&region).count == count);
    keep(RECLAIM, start, count);
}

static void create_all(int way) {
    NcAct *buffer = way == ACTS ? acts : NULL;
    size_t places = way == ACTS ? room : 0;
    double start = now();
    uint32_t k;
    for (k = 0; k < count; k++) {
        need(nc_region_create(&region, base(k), code, len, buffer, places).fault == NC_OK);
        need(way != RUNS || nc_region_creation_runs(&region, base(k), acts, room).fault == NC_OK);
    }
    keep(CREATE + way, start, count);
}

static void load_all(uint32_t limit) {
    double start;
    uint32_t k;
    for (k = 0; k < count; k++) {
        need(nc_vetted_new(base(k), limit, code, len, &vetted[k]).fault == NC_OK);
    }
    start = now();
    for (k = 0; k < count; k++) {
        need(nc_region_load(&region, &vetted[k], NULL, 0).fault == NC_OK);
    }
    keep(LOAD, start, count);
}

static void vet_all(uint32_t limit) {
    double start = now();
    uint32_t k;
    for (k = 0; k < count; k++) {
        need(nc_host_vet(base(k), limit, code, len).fault == NC_OK);
    }
    keep(VET, start, count);
}

static void make_regions(uint32_t bundles) {
    double start = now();
    uint32_t k;
    need(nc_region_new(NC_MAX_BUNDLES, 1, &region) == NC_OK);
    keep(NEW, start, 1);
    nc_region_free(&region);
    need(nc_region_new(bundles, seat_count, &region) == NC_OK);
    for (k = 0; k < seat_count; k++) {
        need(nc_region_seat(&region, &seats[k]) == NC_OK);
    }
}

static void do_round(uint32_t bundles) {
    double start;
    uint32_t k;
    int way;
    vet_all(NC_LIMIT(bundles));
    make_regions(bundles);
    for (way = SILENT; way <= RUNS; way++) {
        create_all(way);
        patch_and_delete(way);
    }
    load_all(NC_LIMIT(bundles));
    start = now();
    for (k = 0; k < 100000; k++) {
        nc_seat_check_in(&seats[0]);
    }
    keep(CHECK_IN, start, 100000);
    for (k = 0; k < seat_count; k++) {
        nc_seat_leave(&seats[k]);
    }
    nc_region_free(&region);
}

int main(int argc, char **argv) {
    uint32_t rounds, k;
    if (argc != 4 && argc != 5) {
        fprintf(stderr, "usage: costs COUNT BUNDLES ROUNDS [SEATS]\n");
        return 2;
    }
    count = (uint32_t)atoi(argv[1]);
    len = NC_BUNDLE * (uint32_t)atoi(argv[2]);
    rounds = (uint32_t)atoi(argv[3]);
    seat_count = argc == 5 ? (uint32_t)atoi(argv[4]) : 1;
    room = len + 2;
    code = (uint8_t *)malloc(len);
    acts = (NcAct *)malloc(room * sizeof *acts);
    vetted = (NcVetted *)calloc(count, sizeof *vetted);
    need(code && acts && vetted);
    for (k = 0; k < len; k += NC_BUNDLE) {
        memcpy(code + k, bundle, NC_BUNDLE);
    }
    for (k = 0; k < rounds; k++) {
        do_round(count * (len / NC_BUNDLE) + 1);
    }
    printf("%u chunks of %u bundles, nanoseconds a call\n", (unsigned)count, (unsigned)(len / NC_BUNDLE));
    for (k = 0; k < KINDS; k++) {
        printf("%-23s %10.0f\n", names[k], best[k]);
    }
    return 0;
}
