/*
 * Measures how long it takes to vet, create, walk and delete chunks of real code, by a region's handle.
 *
 *     image FILE LENGTH COUNT STEPS
 *
 * A chunk has LENGTH bytes. They are the code of FILE, which is whole bundles of raw code, as often as it fits, and then nops. COUNT chunks
 * are vetted, and created in a region of the largest size. Walks go over STEPS places, from bundle starts and by choices that are drawn. Then
 * the chunks are deleted. There is one round, since new chunks come into new memory. docs/PERFORMANCE.md has numbers.
 */
#define _POSIX_C_SOURCE 199506L
#include "nc_host.h"

#include <stdio.h>
#include <stdlib.h>
#include <string.h>
#include <time.h>

#define CHOICES 4096u
#define NOP 0x90

static uint8_t *code;
static uint32_t length, count;
static NcVetted *vetted;
static NcRegion region;

static double now(void) {
    struct timespec t;
    clock_gettime(CLOCK_MONOTONIC, &t);
    return 1e9 * (double)t.tv_sec + (double)t.tv_nsec;
}

static void need(int holds, const char *what) {
    if (!holds) {
        fprintf(stderr, "image: %s\n", what);
        exit(1);
    }
}

static uint32_t base(uint32_t k) {
    return NC_START + k * length;
}

static uint32_t bundles(void) {
    return count * (length / NC_BUNDLE);
}

/* Gigabytes a second, for all chunks together. */
static double speed(double start) {
    return (double)length * count / (now() - start);
}

/* The file's code again and again: its transfers stay within each copy. */
static void lay_code(const char *path) {
    FILE *file = fopen(path, "rb");
    size_t size, at;
    need(file != NULL, "the file can't be opened");
    size = fread(code, 1, length, file);
    fclose(file);
    need(size > 0 && size % NC_BUNDLE == 0, "the file isn't whole bundles");
    for (at = size; at + size <= length; at += size) {
        memcpy(code + at, code, size);
    }
    memset(code + at, NOP, length - at);
}

static double vet_all(void) {
    double start = now();
    uint32_t k;
    for (k = 0; k < count; k++) {
        need(nc_vetted_new(base(k), NC_LIMIT(NC_MAX_BUNDLES), code, length, &vetted[k]).fault == NC_OK, "a chunk isn't valid");
    }
    return speed(start);
}

static double create_all(void) {
    double start = now();
    uint32_t k;
    for (k = 0; k < count; k++) {
        need(nc_region_load(&region, &vetted[k], NULL, 0).fault == NC_OK, "a creation was refused");
    }
    return speed(start);
}

static double delete_all(void) {
    double start = now();
    uint32_t k;
    for (k = 0; k < count; k++) {
        need(nc_region_begin_delete(&region, base(k), NULL, 0).fault == NC_OK, "a deletion was refused");
        nc_region_end_delete(&region);
    }
    return speed(start);
}

static uint32_t draw_start(void) {
    static uint64_t random = 1;
    random = random * 6364136223846793005u + 1442695040888963407u;
    return NC_START + NC_BUNDLE * (uint32_t)((random >> 33) % bundles());
}

/* Millions of places a second. */
static double walk(size_t steps) {
    static uint32_t choices[CHOICES], places[CHOICES + 1];
    size_t done = 0;
    double start;
    uint32_t k;
    for (k = 0; k < CHOICES; k++) {
        choices[k] = draw_start();
    }
    start = now();
    while (done < steps) {
        NcWalk walked = nc_region_walk(&region, draw_start(), choices, CHOICES, places, CHOICES + 1);
        need(walked.fault == NC_OK, "a walk was refused");
        done += walked.count;
    }
    return 1e3 * (double)done / (now() - start);
}

int main(int argc, char **argv) {
    double vets, creations, steps;
    if (argc != 5) {
        fprintf(stderr, "usage: image FILE LENGTH COUNT STEPS\n");
        return 2;
    }
    length = (uint32_t)atol(argv[2]);
    count = (uint32_t)atol(argv[3]);
    code = (uint8_t *)malloc(length);
    vetted = (NcVetted *)calloc(count, sizeof *vetted);
    need(code && vetted, "out of memory");
    lay_code(argv[1]);
    need(nc_region_new(NC_MAX_BUNDLES, 1, &region) == NC_OK, "there is no region");
    vets = vet_all();
    creations = create_all();
    steps = walk((size_t)atol(argv[4]));
    printf("%u chunks of %u bytes: vet %.2f GB/s, create %.2f GB/s, delete %.2f GB/s; walk %.0f million steps a second\n", (unsigned)count,
           (unsigned)length, vets, creations, delete_all(), steps);
    nc_region_free(&region);
    return 0;
}
