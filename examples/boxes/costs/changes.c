/* What changes of live code cost, by the host and by code in a box, and what two other threads keep of their speed beside a box that changes
   its code without pause. It needs no library but nc_host. From the top of the repository:

       make -C sandbox && kit=$(dirname "$(rt doc)")
       compiler/nc-cc -O2 --data 00110000 examples/boxes/costs/changing.c -o out/changing.elf
       gcc -std=gnu11 -O2 -pthread -Iinclude -Isandbox examples/boxes/costs/changes.c out/sandbox/libnc_sandbox.a \
           crates/nc_host/out/libnc_host.a "$kit/c/liblibc_c.a" -o out/changes && out/changes out/changing.elf

   It prints the least processor time of 15 turns, in nanoseconds each. The speed of other threads is per second of their own processor
   time, in proportion to that beside a box which only calls the host. */
#define _GNU_SOURCE
#include "nc_sandbox.h"

#include "guest/nc_run.h"

#include <pthread.h>
#include <stdio.h>
#include <stdlib.h>
#include <string.h>
#include <time.h>

enum { COUNT = 2000, TURNS = 15, OTHERS = 2, FILE_MOST = 1 << 20 };

static NcsModule *module;
static NcsBox *box;
static NcsAt first;
static uint8_t code[1024];
static uint32_t len;
static int over;

static void need(int holds, const char *what) {
    if (!holds) {
        fprintf(stderr, "changes: %s\n", what);
        exit(2);
    }
}

static double now(void) {
    struct timespec t;
    need(clock_gettime(CLOCK_THREAD_CPUTIME_ID, &t) == 0, "no clock");
    return (double)t.tv_sec * 1e9 + (double)t.tv_nsec;
}

/* ---- By the host: each does its own part COUNT times, and the rest aside */

static double creations(void) {
    double took = 0, begun;
    unsigned k;
    for (k = 0; k < COUNT; k++) {
        begun = now();
        need(ncs_create(module, first, code, len, NULL), "a creation was refused");
        took += now() - begun;
        need(ncs_delete(module, first, NULL) && ncs_reclaim(module) == 1, "a deletion was refused");
    }
    return took;
}

static double deletions(void) {
    double took = 0, begun;
    unsigned k;
    for (k = 0; k < COUNT; k++) {
        need(ncs_create(module, first, code, len, NULL), "a creation was refused");
        begun = now();
        need(ncs_delete(module, first, NULL), "a deletion was refused");
        took += now() - begun;
        need(ncs_reclaim(module) == 1, "a chunk is held");
    }
    return took;
}

static double patches(void) {
    double begun;
    unsigned k;
    need(ncs_create(module, first, code, len, NULL), "a creation was refused");
    begun = now();
    for (k = 0; k < COUNT; k++) {
        code[1] = (uint8_t)k; /* of mov eax, .. */
        need(ncs_patch(module, first, code, 5, NULL), "a patch was refused");
    }
    begun = now() - begun;
    need(ncs_delete(module, first, NULL) && ncs_reclaim(module) == 1, "a deletion was refused");
    return begun;
}

static double reclaims(void) {
    double begun = now();
    unsigned k;
    for (k = 0; k < COUNT; k++) {
        need(ncs_reclaim(module) == 0, "a chunk was retired");
    }
    return now() - begun;
}

static double clocks(void) {
    double begun = now();
    unsigned k;
    for (k = 0; k < COUNT; k++) {
        (void)now();
    }
    return now() - begun;
}

static double least(double (*part)(void), uint32_t bytes) {
    double best = 1e18, took;
    unsigned k;
    len = bytes;
    for (k = 0; k < TURNS; k++) {
        took = part() / COUNT;
        best = took < best ? took : best;
    }
    return best;
}

/* ---- By code in the box */

static double changing(uint32_t kind, uint32_t rounds) {
    double begun = now();
    NcsEnd end = ncs_call(box, ncs_symbol(module, "change"), NCS_ARGS(kind, rounds));
    need(end.how == NCS_RETURNED && end.result == 0, "a change of the box was refused");
    return (now() - begun) / rounds;
}

static double least_changing(uint32_t kind) {
    double best = 1e18, took;
    unsigned k;
    for (k = 0; k < TURNS; k++) {
        took = changing(kind, COUNT);
        best = took < best ? took : best;
    }
    return best;
}

static void *count_on(void *rate) {
    double begun = now();
    volatile uint64_t steps = 0;
    while (!__atomic_load_n(&over, __ATOMIC_RELAXED)) {
        unsigned k;
        for (k = 0; k < 1000; k++) {
            steps++;
        }
    }
    *(double *)rate = (double)steps / (now() - begun);
    return NULL;
}

/* The steps of other threads in a nanosecond of their own time, beside a second or so of changes. */
static double speed_beside(uint32_t kind) {
    pthread_t threads[OTHERS];
    double rates[OTHERS], sum = 0;
    unsigned k;
    __atomic_store_n(&over, 0, __ATOMIC_RELAXED);
    for (k = 0; k < OTHERS; k++) {
        need(pthread_create(&threads[k], NULL, count_on, &rates[k]) == 0, "no thread");
    }
    (void)changing(kind, 500000);
    __atomic_store_n(&over, 1, __ATOMIC_RELAXED);
    for (k = 0; k < OTHERS; k++) {
        need(pthread_join(threads[k], NULL) == 0, "no end of a thread");
        sum += rates[k];
    }
    return sum / OTHERS;
}

/* ---- Both */

static uint64_t none(NcsBox *of, void *user, const uint32_t *args) {
    (void)of, (void)user, (void)args;
    return 0;
}

static void make_box(const char *path) {
    static uint8_t file[FILE_MOST];
    static const NcsLimits limits = {.memory = 64u << 20, .depth = 1, .milliseconds = UINT32_MAX};
    FILE *from = fopen(path, "rb");
    NcsRefusal why;
    unsigned calls = 0;
    size_t size;
    need(from != NULL, path);
    size = fread(file, 1, sizeof file, from);
    fclose(from);
    module = ncs_module_live_elf(file, size, 1 << 15, 1, &why);
    need(module != NULL, why.sentence);
    box = ncs_box_new(module, &limits, &why);
    need(box != NULL, why.sentence);
    while (calls < NC_RUN_CODE && ncs_callback(box, none, NULL, 0).at != 0) { /* so that the next ones are where nc-run has them */
        calls++;
    }
    need(ncs_code_calls(box, ncs_room(module)).at == NCS_CALLBACK(NC_RUN_CODE), "no calls for code");
    first = ncs_room(module).from;
}

int main(int argc, char **argv) {
    static const char *const kinds[] = {"a call of the host", "a patch", "32 bytes created and deleted", "1024 bytes created and deleted"};
    uint32_t kind;
    double alone;
    need(argc == 2, "one argument, the file of changing.c");
    make_box(argv[1]);
    memset(code, 0x90, sizeof code);
    code[0] = 0xB8;
    printf("by the host: the clock itself %.0f; reclaim, nothing due %.0f; patch %.0f\n", least(clocks, 0), least(reclaims, 0),
           least(patches, 32));
    printf("by the host: create 32 bytes %.0f, 1024 %.0f; delete 32 %.0f, 1024 %.0f\n", least(creations, 32), least(creations, 1024),
           least(deletions, 32), least(deletions, 1024));
    alone = speed_beside(0);
    for (kind = 0; kind < sizeof kinds / sizeof *kinds; kind++) {
        printf("by a box: %s %.0f; others keep %.3f\n", kinds[kind], least_changing(kind), speed_beside(kind) / alone);
    }
    return 0;
}
