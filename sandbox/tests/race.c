/*
 * Threads inside while code is patched, deleted and replaced: race [--control] [--seconds N] [--threads N]. Each judges what comes out.
 * These numbers count it:
 *
 *   stays                          times inside, each from its entry to its end
 *   waits                          times that the writer wanted a deleted span and some thread could still be in it; nothing blocks
 *   stops of changes met           traps at a stop of a change under way, after which the thread went back to the same instruction
 *   stays ended in deleted code    these are right: three of four ways in lead to the chunk that is deleted and created
 *   astray                         stays with a result that no version of the code can give
 *
 * With --control patches are written byte by byte, with neither stops nor serializations (creations and deletions keep theirs). Threads
 * then execute halves of instructions; the first five such stays of each thread are shown on standard error.
 *
 * Status 0: nothing is astray. 1: a line says ASTRAY. 2: the command line is wrong, or a change was refused. 77: the system refuses what
 * live code needs.
 */
#define _GNU_SOURCE
#include "chunks.h"
#include "codes.h"

#include <pthread.h>
#include <stdio.h>
#include <stdlib.h>
#include <string.h>
#include <time.h>

#define THREADS 16u
#define SECONDS 86400u
#define SHOWN 5u
#define VERSIONS 65536u /* of the changing chunk that are remembered */

typedef struct Tally {
    uint64_t stays, patches, deletions, creations, waits, went_back, stopped, astray;
} Tally;

typedef struct Guest {
    pthread_t thread;
    NcsBox *box;
    uint32_t *result; /* three words of its memory */
    uint32_t number;
    Tally tally;
} Guest;

static NcsModule *module;
static int over;
static uint32_t latest; /* the version that stands, stood last or will stand; atomic */
static struct { uint32_t eax, edx; } versions[VERSIONS];

/* How a thread goes in: through the loop and out; through it to a bundle of the changing chunk, or its start; or straight to that. */
enum { LOOP_AND_OUT, TO_A_BUNDLE, TO_THE_START, STRAIGHT, WAYS };

static NcsEnd go(Guest *g, uint32_t way, uint64_t *random) {
    uint32_t noise = chunks_random(random) % NC_BUNDLE, bundle = chunks_random(random) % 16 * NC_BUNDLE;
    uint32_t ecx = 1 + chunks_random(random) % 40000, ebp = 1 + chunks_random(random) % 300; /* if it is entered behind `mov ebp` */
    uint32_t esi = (way == LOOP_AND_OUT ? DONE_AT : CHANGING_AT + (way == TO_A_BUNDLE ? bundle : 0)) | noise, edi = OTHER_AT | noise;
    memset(g->result, 0, 3 * sizeof *g->result);
    return ncs_call(g->box, (NcsAt){ENTRY_AT}, NCS_ARGS(ecx, ebp, esi, edi, way == STRAIGHT ? CHANGING_AT : PATCHED_AT));
}

/* A version that stood at some time during the stay. Of one that is forgotten, after a long time without a processor, nothing is known. */
static int is_version(const Guest *g, const NcsEnd *end, uint32_t first, uint32_t last) {
    uint32_t id = g->result[1];
    return id - first <= last - first &&
           (last - id >= VERSIONS / 2 || (versions[id % VERSIONS].eax == end->result && versions[id % VERSIONS].edx == end->high));
}

static int is_right(const Guest *g, uint32_t way, const NcsEnd *end, uint32_t first, uint32_t last) {
    int number = end->result == FIRST_NUMBER || end->result == SECOND_NUMBER;
    if (end->how == NCS_STOPPED) {
        return way != LOOP_AND_OUT && end->place >= CHANGING_AT && end->place < CHANGING_AT + CHANGING_MAX;
    }
    if (end->how != NCS_RETURNED) {
        return 0;
    }
    if (g->result[2] == DONE) {
        return way == LOOP_AND_OUT && number && g->result[0] == 0;
    }
    return g->result[2] == OTHER && (way == TO_A_BUNDLE || (way != LOOP_AND_OUT && is_version(g, end, first, last)));
}

static uint32_t latest_version(void) {
    return __atomic_load_n(&latest, __ATOMIC_SEQ_CST);
}

static void *guest(void *argument) {
    Guest *g = argument;
    uint64_t random = 0x9E3779B97F4A7C15ull * (g->number + 1);
    while (!__atomic_load_n(&over, __ATOMIC_SEQ_CST)) {
        uint32_t way = chunks_random(&random) % WAYS, first = latest_version();
        NcsEnd end = go(g, way, &random);
        g->tally.stays++;
        g->tally.stopped += end.how == NCS_STOPPED;
        if (!is_right(g, way, &end, first, latest_version()) && ++g->tally.astray <= SHOWN) {
            fprintf(stderr, "astray: thread %u, way %u, %s at %08x, eax %08x\n", (unsigned)g->number, (unsigned)way, ncs_how(end.how),
                    (unsigned)end.place, (unsigned)end.result);
        }
        if (end.how != NCS_RETURNED && !ncs_reset(g->box)) {
            abort();
        }
    }
    g->tally.went_back = ncs_thread->met_stops;
    return NULL;
}

static void must(int made) {
    if (!made) {
        fputs("the writer was refused\n", stderr);
        exit(2);
    }
}

static void tear(const Change *c) {
    uint32_t i;
    for (i = 0; i < c->len; i++) {
        __atomic_store_n(module->live->writable + c->at + i, c->bytes[i], __ATOMIC_SEQ_CST);
    }
}

static void create_version(uint64_t *random) {
    static Version version;
    chunks_lay_version(&version, random);
    versions[version.id % VERSIONS].eax = version.eax;
    versions[version.id % VERSIONS].edx = version.edx;
    __atomic_store_n(&latest, version.id, __ATOMIC_SEQ_CST);
    must(codes_create(module, CHANGING_AT, version.code, version.len));
}

/* One change: a patch of the loop, or the next step of the changing chunk's life. */
static void change(Tally *t, uint64_t *random, int torn, int *live) {
    Change c = chunks_change(random);
    if (chunks_random(random) % 7 != 0) {
        t->patches++;
        if (torn) {
            tear(&c);
        } else {
            must(ncs_patch(module, (NcsAt){c.at}, c.bytes, c.len, NULL));
        }
    } else if (*live) {
        must(codes_delete(module, CHANGING_AT));
        t->deletions++;
        *live = 0;
    } else if (ncs_reclaim(module) == 0) {
        t->waits++;
    } else {
        create_version(random);
        t->creations++;
        *live = 1;
    }
}

static void load_chunks(uint64_t *random) {
    uint8_t code[PATCHED_LEN];
    module = codes_module(REGION);
    chunks_lay_entry(code);
    must(codes_create(module, ENTRY_AT, code, NC_BUNDLE));
    chunks_lay_end(code, DONE_AT, DONE);
    must(codes_create(module, DONE_AT, code, NC_BUNDLE));
    chunks_lay_end(code, OTHER_AT, OTHER);
    must(codes_create(module, OTHER_AT, code, NC_BUNDLE));
    chunks_lay_aside(code);
    must(codes_create(module, ASIDE_AT, code, ASIDE_LEN));
    chunks_lay_patched(code);
    must(codes_create(module, PATCHED_AT, code, PATCHED_LEN));
    create_version(random);
}

static void start(Guest *g, uint32_t number) {
    g->number = number;
    g->box = codes_box(module, 1000);
    g->result = ncs_at(g->box, (NcsAt){RESULT_AT}, 3 * sizeof *g->result);
    must(g->result != NULL && pthread_create(&g->thread, NULL, guest, g) == 0);
}

static double now(void) {
    struct timespec t;
    must(clock_gettime(CLOCK_MONOTONIC, &t) == 0);
    return (double)t.tv_sec + 1e-9 * (double)t.tv_nsec;
}

static Tally race(unsigned threads, unsigned seconds, int torn) {
    static Guest guests[THREADS];
    Tally all = {0};
    uint64_t random = 88172645463325252ull;
    double until;
    int live = 1;
    unsigned i;
    load_chunks(&random);
    for (i = 0; i < threads; i++) {
        start(&guests[i], i);
    }
    for (until = now() + seconds; now() < until;) {
        change(&all, &random, torn, &live);
    }
    __atomic_store_n(&over, 1, __ATOMIC_SEQ_CST);
    for (i = 0; i < threads; i++) {
        const Tally *one = &guests[i].tally;
        must(pthread_join(guests[i].thread, NULL) == 0 && ncs_free(guests[i].box));
        all.stays += one->stays;
        all.stopped += one->stopped;
        all.went_back += one->went_back;
        all.astray += one->astray;
    }
    ncs_module_free(module);
    return all;
}

/* Whether it is a number within these bounds. */
static int read_number(const char *text, unsigned most, unsigned *number) {
    char *end;
    unsigned long value = text != NULL ? strtoul(text, &end, 10) : 0;
    *number = (unsigned)value;
    return text != NULL && text[0] >= '0' && text[0] <= '9' && *end == 0 && value >= 1 && value <= most;
}

int main(int argc, char **argv) {
    unsigned threads = 2, seconds = 2;
    int torn = 0, right = 1, i;
    Tally t;
    for (i = 1; i < argc && right; i++) {
        if (strcmp(argv[i], "--control") == 0) {
            torn = 1;
        } else if (strcmp(argv[i], "--seconds") == 0) {
            right = read_number(argv[++i], SECONDS, &seconds);
        } else {
            right = strcmp(argv[i], "--threads") == 0 && read_number(argv[++i], THREADS, &threads);
        }
    }
    if (!right) {
        fputs("usage: race [--control] [--seconds N] [--threads N], of 1 to 16 threads\n", stderr);
        return 2;
    }
    t = race(threads, seconds, torn);
    printf("threads inside while code is patched%s, deleted and replaced: %s\n", torn ? " byte by byte" : "",
           t.astray ? "ASTRAY" : "nothing astray");
    printf("counts: %u threads, %llu stays, %llu patches, %llu deletions, %llu creations, %llu waits\n", threads,
           (unsigned long long)t.stays, (unsigned long long)t.patches, (unsigned long long)t.deletions, (unsigned long long)t.creations,
           (unsigned long long)t.waits);
    printf("counts: %llu stops of changes met, %llu stays ended in deleted code, %llu astray\n", (unsigned long long)t.went_back,
           (unsigned long long)t.stopped, (unsigned long long)t.astray);
    return t.astray != 0;
}
