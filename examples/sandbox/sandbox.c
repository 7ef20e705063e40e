/*
 * Untrusted code in boxes, and code that changes while threads run it: sandbox PROGRAM [SECONDS]. `build` compiles it, and PROGRAM.
 *
 * Status 0: all is as it has to be. 1: a line says ASTRAY. 2: the command line is wrong, a file can't be read, a change is refused, or
 * standard output can't be written. 3: PROGRAM was refused. 77: the system refuses the calls that boxes need.
 */
#include "nc_sandbox.h"

#include <pthread.h>
#include <stdio.h>
#include <stdlib.h>
#include <string.h>
#include <time.h>

#define BUNDLE 32u
#define MOV_LEN 5u
#define THREADS 2u
#define PATCHED 0x10000u  /* a chunk that is patched, */
#define REPLACED 0x10400u /* and one that is deleted and replaced */
#define MOST 16u          /* bundles of a chunk */

static const NcsLimits limits = {.memory = 4 << 20, .depth = 1, .milliseconds = 1000};
static NcsModule *live;
static int over;

static void must(int good, const char *what) {
    if (!good) {
        fprintf(stderr, "sandbox: %s\n", what);
        exit(2);
    }
}

/* print(text, len): at most a line of it, copied once. */
static uint64_t print(NcsBox *box, void *user, const uint32_t *args) {
    char line[100];
    (void)user;
    if (args[1] > sizeof line || !ncs_get(box, line, (NcsAt){args[0]}, args[1])) {
        ncs_deny(box);
        return 0;
    }
    printf("  inside: %.*s\n", (int)args[1], line);
    return args[1];
}

/* 0, or the status of the process where the file is refused. */
static int run_program(const char *name) {
    static unsigned char file[1 << 16];
    FILE *in = fopen(name, "rb");
    NcsRefusal why;
    NcsModule *module;
    NcsBox *box;
    NcsEnd end;
    size_t len;
    must(in != NULL, "the program can't be read");
    len = fread(file, 1, sizeof file, in);
    must(fgetc(in) == EOF && !ferror(in) && fclose(in) == 0, "the program can't be read, or has more than 65536 bytes");
    module = ncs_module_elf(file, len, &why);
    box = module != NULL ? ncs_box_new(module, &limits, &why) : NULL;
    if (box == NULL) {
        printf("%s: boxes: %s\n", why.kind == NCS_BAD_SYSTEM ? "skipped" : "refused", why.sentence);
        return why.kind == NCS_BAD_SYSTEM ? 77 : 3;
    }
    must(ncs_callback(box, print, NULL, 2).at != 0, "no call-back");
    end = ncs_call(box, ncs_symbol(module, "start"), NCS_NO_ARGS);
    printf("%s with status %u\n", ncs_how(end.how), (unsigned)end.status);
    must(ncs_free(box), "a box in use");
    ncs_module_free(module);
    return 0;
}

static void lay_mov(uint8_t *to, uint32_t number) {
    to[0] = 0xB8; /* mov eax, number */
    memcpy(to + 1, &number, sizeof number);
}

/* A chunk of bundles, each of which returns the number. */
static void create(uint32_t at, uint32_t bundles, uint32_t number) {
    static const uint8_t back[] = {0x59, 0x83, 0xE1, 0xE0, 0xFF, 0xE1}; /* pop ecx; and ecx, -32; jmp ecx */
    uint8_t code[MOST * BUNDLE];
    uint32_t k;
    memset(code, 0x90, sizeof code);
    for (k = 0; k < bundles; k++) {
        lay_mov(code + BUNDLE * k, number);
        memcpy(code + BUNDLE * k + MOV_LEN, back, sizeof back);
    }
    must(ncs_create(live, (NcsAt){at}, code, BUNDLE * bundles, NULL), "a creation was refused");
}

static void patch(uint32_t at, uint32_t number) {
    uint8_t mov[MOV_LEN];
    lay_mov(mov, number);
    must(ncs_patch(live, (NcsAt){at}, mov, sizeof mov, NULL), "a patch was refused");
}

typedef struct Guest {
    pthread_t thread;
    unsigned long calls, stopped, astray;
} Guest;

/* All bytes of a number are equal, so a mixture of two numbers is seen. A call may stop in the chunk that is deleted, and only there. */
static void *guest(void *one) {
    Guest *g = one;
    NcsBox *box = ncs_box_new(live, &limits, NULL);
    must(box != NULL, "no box");
    while (!__atomic_load_n(&over, __ATOMIC_SEQ_CST)) {
        uint32_t at = g->calls % 2 ? PATCHED : REPLACED + BUNDLE * (g->calls / 2 % MOST);
        NcsEnd end = ncs_call(box, (NcsAt){at}, NCS_NO_ARGS);
        int stopped = end.how == NCS_STOPPED && at != PATCHED && end.place >= at && end.place < at + BUNDLE;
        g->calls++;
        g->stopped += stopped;
        g->astray += !stopped && (end.how != NCS_RETURNED || end.result != (end.result & 0xFF) * 0x01010101u);
        must(end.how == NCS_RETURNED || ncs_reset(box), "a box wasn't reset");
    }
    must(ncs_free(box), "a box in use");
    return NULL;
}

/* Changes until the time is over; how many patches. A deleted chunk's span can be used once no thread can be in it. */
static unsigned long change(unsigned seconds) {
    time_t end = time(NULL) + (time_t)seconds;
    unsigned long n;
    int stands = 1;
    for (n = 1; time(NULL) < end; n++) {
        uint32_t number = (uint32_t)(n & 0xFF) * 0x01010101u;
        patch(PATCHED, number);
        if (n % 16 == 0 && stands) {
            must(ncs_delete(live, (NcsAt){REPLACED}, NULL), "a deletion was refused");
            stands = 0;
        } else if (n % 16 == 0 && ncs_reclaim(live) != 0) {
            create(REPLACED, 1 + (uint32_t)(n / 16 % MOST), number);
            stands = 1;
        }
    }
    return n;
}

/* Whether a thread went astray. */
static int run_threads(unsigned seconds) {
    Guest guests[THREADS] = {{0}}, all = {0};
    unsigned long patches;
    unsigned k;
    create(PATCHED, 1, 0);
    create(REPLACED, MOST, 0);
    for (k = 0; k < THREADS; k++) {
        must(pthread_create(&guests[k].thread, NULL, guest, &guests[k]) == 0, "no thread");
    }
    patches = change(seconds);
    __atomic_store_n(&over, 1, __ATOMIC_SEQ_CST);
    for (k = 0; k < THREADS; k++) {
        must(pthread_join(guests[k].thread, NULL) == 0, "a thread doesn't end");
        all.calls += guests[k].calls;
        all.stopped += guests[k].stopped;
        all.astray += guests[k].astray;
    }
    printf("threads inside while code is patched, deleted and replaced: %s\n", all.astray != 0 ? "ASTRAY" : "nothing astray");
    printf("counts: %lu calls, %lu patches, %lu ended in deleted code\n", all.calls, patches, all.stopped);
    return all.astray != 0;
}

int main(int argc, char **argv) {
    int refused;
    must(argc == 2 || argc == 3, "usage: sandbox PROGRAM [SECONDS]");
    refused = run_program(argv[1]);
    if (refused == 0) {
        live = ncs_module_live(MOST * 3, THREADS, NULL);
        must(live != NULL, "no live code");
        refused = run_threads(argc == 3 ? (unsigned)atoi(argv[2]) : 2);
        ncs_module_free(live);
    }
    must(fflush(stdout) == 0 && !ferror(stdout), "standard output can't be written");
    return refused;
}
