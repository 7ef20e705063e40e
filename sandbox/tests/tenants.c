/* Boxes of one module that make code, beside hostile ones: tenants FILE [SECONDS]. Calls end by their time, kills, resets and frees in the
   midst of changes. At the end the text is what the region has, and each live chunk is accepted once more. */
#include "codes.h"

#include <pthread.h>
#include <stdio.h>
#include <stdlib.h>
#include <string.h>
#include <time.h>

#define GOOD 2u
#define ALL 4u
#define AREA_LEN 0x4000u
#define MEMORY_LEN 0x200000u
#define ROUNDS 200u

static NcsModule *module;
static NcsSpan room;
static int over;

typedef struct Tenant {
    pthread_t thread;
    unsigned id, calls, ends[NCS_HOST + 1];
    NcsBox *box; /* atomic: another thread kills it */
} Tenant;

static NcsBox *new_box(unsigned id, uint32_t milliseconds) {
    const NcsLimits limits = {.memory = MEMORY_LEN, .depth = 2, .milliseconds = milliseconds};
    NcsBox *box = ncs_box_new(module, &limits, NULL);
    CHECK(box != NULL && ncs_code_calls(box, (NcsSpan){{room.from.at + id * AREA_LEN}, AREA_LEN}).at == NCS_CALLBACK(0));
    return box;
}

static int is_over(void) {
    return __atomic_load_n(&over, __ATOMIC_SEQ_CST);
}

/* A good one's calls return, or are ended by what is done to it; of a hostile one none returns. Each end is followed by a reset, and now and
   then by another box in its place. */
static void *live(void *one) {
    Tenant *t = one;
    const char *function = t->id < GOOD ? "work" : "rage";
    while (!is_over()) {
        uint32_t argument = t->id >= GOOD ? 7 * t->calls + t->id : t->calls % 4 != 3 ? ROUNDS : UINT32_MAX;
        NcsEnd end = ncs_call(t->box, ncs_symbol(module, function), NCS_ARGS(argument));
        t->calls++;
        t->ends[end.how]++;
        CHECK(end.how == NCS_RETURNED ? t->id < GOOD && end.result == 0 : end.how == NCS_LATE || end.how == NCS_KILLED || t->id >= GOOD);
        if (end.how != NCS_RETURNED) {
            CHECK(ncs_reset(t->box));
        }
    }
    return NULL;
}

static double seconds(void) {
    struct timespec now;
    return clock_gettime(CLOCK_MONOTONIC, &now) == 0 ? (double)now.tv_sec + 1e-9 * (double)now.tv_nsec : 0;
}

/* Kills them at any moment, and makes and frees boxes meanwhile. */
static void disturb(Tenant *tenants, double until) {
    static const struct timespec pause = {0, 3000000};
    unsigned k;
    for (k = 0; seconds() < until; k++) {
        NcsBox *box = new_box(ALL, SHORT);
        ncs_kill(tenants[k % ALL].box);
        CHECK(ncs_call(box, ncs_symbol(module, "work"), NCS_ARGS(3)).how != NCS_STOPPED);
        CHECK(ncs_free(box));
        (void)nanosleep(&pause, NULL);
    }
}

static int load_module(const char *path) {
    static uint8_t file[1 << 17];
    FILE *from = fopen(path, "rb");
    size_t len = from != NULL ? fread(file, 1, sizeof file, from) : 0;
    NcsRefusal why;
    if (from == NULL || fclose(from) != 0) {
        return 2;
    }
    module = ncs_module_live_elf(file, len, (ALL + 1) * AREA_LEN / BUNDLE, ALL + 1, &why);
    if (module == NULL) {
        printf("%s: live code: %s\n", why.kind == NCS_BAD_SYSTEM ? "skipped" : "refused", why.sentence);
        return why.kind == NCS_BAD_SYSTEM ? SKIPPED : 2;
    }
    room = ncs_room(module);
    return 0;
}

int main(int argc, char **argv) {
    static Tenant tenants[ALL];
    int lacks = argc >= 2 ? load_module(argv[1]) : 2;
    unsigned k;
    (void)setvbuf(stdout, NULL, _IOLBF, 0);
    if (lacks) {
        return lacks;
    }
    for (k = 0; k < ALL; k++) {
        tenants[k].id = k;
        tenants[k].box = new_box(k, SHORT);
    }
    for (k = 0; k < ALL; k++) {
        CHECK(pthread_create(&tenants[k].thread, NULL, live, &tenants[k]) == 0);
    }
    disturb(tenants, seconds() + (argc > 2 ? atof(argv[2]) : 0.3));
    __atomic_store_n(&over, 1, __ATOMIC_SEQ_CST);
    for (k = 0; k < ALL; k++) {
        CHECK(pthread_join(tenants[k].thread, NULL) == 0 && tenants[k].calls > 0);
    }
    codes_check(module);
    puts("the text");
    for (k = 0; k < ALL; k++) {
        CHECK(ncs_free(tenants[k].box));
    }
    CHECK(ncs_hole(module, room.from, (NcsAt){room.from.at + room.len}).len == room.len);
    puts("what they leave");
    for (k = 0; k < ALL && argc > 2; k++) {
        printf("%s: %u calls; returned %u, late %u, killed %u, stopped %u, faulted %u\n", k < GOOD ? "good" : "hostile", tenants[k].calls,
               tenants[k].ends[NCS_RETURNED], tenants[k].ends[NCS_LATE], tenants[k].ends[NCS_KILLED], tenants[k].ends[NCS_STOPPED],
               tenants[k].ends[NCS_FAULTED]);
    }
    ncs_module_free(module);
    printf("%u wrong\n", testing_wrong);
    return testing_wrong != 0;
}
