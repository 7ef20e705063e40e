/* Live code in one thread: the order of stores and serializations, the text in memory, what changes do, refusals, and want of memory. */
#define _GNU_SOURCE
#include "watching.h"

#include <errno.h>
#include <stdio.h>
#include <stdlib.h>
#include <string.h>
#include <sys/mman.h>
#include <sys/syscall.h>

#ifndef MADV_POPULATE_WRITE
#define MADV_POPULATE_WRITE 23
#endif

/* ---- Order. What each change does stands in docs/THEOREM.md; docs/EMBEDDING.md says when the count of changes is odd. */

static int is_step(unsigned k, int stamp, const uint8_t bytes[SEEN]) {
    const Step *step = &watching_steps[k];
    return k < watching_count && step->stamp == stamp && step->locked && step->changes % 2 == (stamp ? 0 : 1) &&
           memcmp(step->bytes, bytes, SEEN) == 0;
}

/* Puts away from bundle starts, a serialization, puts at bundle starts. */
static void order_of_create(NcsModule *m, const uint8_t code[SEEN]) {
    uint8_t bytes[SEEN];
    memcpy(bytes, code, sizeof bytes);
    bytes[0] = bytes[BUNDLE] = NC_STOP;
    watching_count = 0;
    CHECK(codes_create(m, HERE, code, sizeof bytes) && watching_count == 1 && is_step(0, 0, bytes));
    CHECK(memcmp(codes_text(m, HERE), code, sizeof bytes) == 0 && m->live->changes == 2);
}

/* A stop at its first byte, a serialization, its other bytes, a serialization, its first byte. */
static void order_of_patch(NcsModule *m, uint8_t code[SEEN]) {
    uint8_t bytes[SEEN], mov[MOV_LEN];
    codes_mov(mov, 0x55667788);
    mov[0] = 0xBA; /* mov edx, .. */
    memcpy(bytes, code, sizeof bytes);
    bytes[0] = NC_STOP;
    watching_count = 0;
    CHECK(ncs_patch(m, (NcsAt){HERE}, mov, sizeof mov, NULL) && watching_count == 2 && is_step(0, 0, bytes));
    memcpy(bytes + 1, mov + 1, MOV_LEN - 1);
    CHECK(is_step(1, 0, bytes));
    memcpy(code, mov, MOV_LEN);
    CHECK(memcmp(codes_text(m, HERE), code, sizeof bytes) == 0 && m->live->changes == 4);
}

/* The one byte of an instruction is put at once. */
static void order_of_byte(NcsModule *m, uint8_t code[SEEN]) {
    watching_count = 0;
    code[BUNDLE - 1] = 0x40; /* inc eax */
    CHECK(ncs_patch(m, (NcsAt){HERE + BUNDLE - 1}, code + BUNDLE - 1, 1, NULL) && watching_count == 0);
    CHECK(memcmp(codes_text(m, HERE), code, SEEN) == 0 && m->live->changes == 6);
}

/* Stops where instructions begin, a serialization, stops everywhere, the stamp. */
static void order_of_delete(NcsModule *m, const uint8_t code[SEEN]) {
    static const uint8_t inner[] = {1, 2, 3, 4, 7, 8, 10}; /* within `mov`, and within the two of the pair */
    uint8_t bytes[SEEN];
    size_t k;
    memset(bytes, NC_STOP, sizeof bytes);
    for (k = 0; k < sizeof inner; k++) {
        bytes[inner[k]] = code[inner[k]];
        bytes[BUNDLE + inner[k]] = code[BUNDLE + inner[k]];
    }
    watching_count = 0;
    CHECK(codes_delete(m, HERE) && watching_count == 2 && is_step(0, 0, bytes));
    memset(bytes, NC_STOP, sizeof bytes);
    CHECK(is_step(1, 1, bytes) && m->live->changes == 8);
}

static void try_order(void) {
    NcsModule *m = codes_module(BUNDLES);
    uint8_t code[SEEN];
    codes_number(code, 0x11223344);
    codes_number(code + BUNDLE, 0x99AABBCC);
    watching_module = m;
    order_of_create(m, code);
    order_of_patch(m, code);
    order_of_byte(m, code);
    order_of_delete(m, code);
    watching_fail_serializations = 2;
    watching_count = 0;
    CHECK(ncs_reclaim(m) == 1 && codes_create_number(m, HERE, 5) && watching_fail_serializations == 0 && watching_count == 1);
    watching_module = NULL;
    ncs_module_free(m);
    puts("order");
}

/* ---- The text in memory */

typedef struct Maps {
    unsigned both, within_reach, all; /* can be written and executed; of the text, below 4 GiB and can be written; of the text */
} Maps;

static Maps read_maps(void) {
    FILE *file = fopen("/proc/self/maps", "r");
    char line[512], can[5];
    Maps maps = {0, 0, 0};
    while (file != NULL && fgets(line, sizeof line, file) != NULL) {
        unsigned long from;
        int has = sscanf(line, "%lx-%*x %4s", &from, can) == 2, of_text = strstr(line, "memfd:nc_sandbox") != NULL;
        maps.both += has && can[1] == 'w' && can[2] == 'x';
        maps.within_reach += has && of_text && can[1] == 'w' && from >> 32 == 0;
        maps.all += of_text;
    }
    if (file != NULL) {
        fclose(file);
    }
    return maps;
}

static void try_text(void) {
    NcsModule *m = codes_module(BUNDLES);
    NcsBox *box = codes_box(m, SHORT);
    Maps maps = read_maps();
    uint32_t at, others = 0;
    NcsEnd end;
    CHECK(maps.both == 0 && maps.within_reach == 0 && maps.all == 2);
    CHECK(m->limit == LIMIT && ncs_take(box, 1).at == 0x110000);
    for (at = NC_START; at < LIMIT; at++) {
        others += *codes_text(m, at) != NC_STOP;
    }
    CHECK(others == 0);
    end = codes_run(box, HERE);
    CHECK(end.how == NCS_STOPPED && end.place == HERE && ncs_reset(box));
    end = codes_run(box, LIMIT - BUNDLE);
    CHECK(end.how == NCS_STOPPED && end.place == LIMIT - BUNDLE && ncs_reset(box));
    CHECK(codes_run(box, LIMIT).how == NCS_BAD_ENTRY);
    codes_end(m, box);
    maps = read_maps();
    CHECK(maps.all == 0);
    puts("the text");
}

/* ---- Changes */

static void fault_in(NcsModule *m, NcsBox *box, const uint8_t code[BUNDLE], uint32_t place, uint32_t trap) {
    uint64_t met;
    NcsEnd end;
    CHECK(codes_create(m, THERE, code, BUNDLE));
    met = ncs_thread->met_stops;
    ncs_thread->met_at = place; /* as if another module's code had met a stop there, at the same count */
    ncs_thread->met_changes = m->live->changes;
    end = codes_run(box, THERE);
    CHECK(end.how == NCS_FAULTED && end.trap == trap && end.place == place && end.data == 0 && ncs_reset(box));
    CHECK(ncs_thread->met_stops == met + (trap == GENERAL_PROTECTION)); /* it went back once */
    CHECK(codes_delete(m, THERE) && ncs_reclaim(m) == 1);
}

static void try_faults(NcsModule *m, NcsBox *box) {
    uint8_t code[BUNDLE];
    codes_load(code, 0);
    fault_in(m, box, code, THERE, PAGE_FAULT);
    codes_load(code, ROOM);
    fault_in(m, box, code, THERE, GENERAL_PROTECTION);
    codes_store(code, m->text_at + THERE - box->data_at);
    fault_in(m, box, code, THERE, GENERAL_PROTECTION);
    codes_jump(code, LIMIT);
    fault_in(m, box, code, THERE + JUMP, GENERAL_PROTECTION);
}

/* What is put was judged, even if another thread changes the lent code meanwhile. */
static void create_lent(NcsModule *m) {
    uint8_t code[BUNDLE], judged[BUNDLE];
    codes_number(code, 6);
    memcpy(judged, code, sizeof judged);
    watching_lent = code + BUNDLE - 1;
    CHECK(codes_create(m, THERE, code, sizeof code) && memcmp(code, judged, sizeof code) != 0);
    watching_lent = NULL;
    CHECK(memcmp(codes_text(m, THERE), judged, sizeof judged) == 0 && codes_delete(m, THERE) && ncs_reclaim(m) == 1);
}

static void try_changes(void) {
    NcsModule *m = codes_module(BUNDLES);
    NcsBox *box = codes_box(m, SHORT);
    uint8_t mov[MOV_LEN];
    NcsEnd end;
    codes_mov(mov, 7);
    CHECK(codes_create_number(m, HERE, 5) && codes_returns(box, HERE, 5));
    CHECK(ncs_patch(m, (NcsAt){HERE}, mov, MOV_LEN, NULL) && codes_returns(box, HERE, 7));
    CHECK(codes_delete(m, HERE));
    end = codes_run(box, HERE);
    CHECK(end.how == NCS_STOPPED && end.place == HERE && end.trap == 13 && ncs_reset(box));
    CHECK(ncs_reclaim(m) == 1 && ncs_reclaim(m) == 0 && codes_create_number(m, HERE, 9) && codes_returns(box, HERE, 9));
    CHECK(codes_create_number(m, THERE, 3) && codes_create_number(m, THERE + BUNDLE, 4));
    CHECK(codes_delete(m, THERE) && codes_delete(m, THERE + BUNDLE) && ncs_reclaim(m) == 2 && codes_returns(box, HERE, 9));
    create_lent(m);
    try_faults(m, box);
    CHECK(codes_returns(box, HERE, 9));
    codes_end(m, box);
    puts("changes");
}

/* ---- Refusals, each with nothing changed */

static uint8_t before[LIMIT];

static int is_refused(const NcsModule *m, int made, const NcsRefusal *why, uint32_t kind, uint32_t fault) {
    return !made && why->kind == kind && why->fault == fault && why->sentence != NULL && memcmp(before, codes_text(m, 0), LIMIT) == 0;
}

typedef struct Change {
    const char *name;
    uint32_t at, kind, fault, fault_at, len;
    uint8_t used, code[5]; /* the first bytes; nops are behind */
} Change;

typedef int Call(NcsModule *m, NcsAt at, const void *code, size_t len, NcsRefusal *why);

static void refused_each(NcsModule *m, Call *call, const Change *changes, size_t count) {
    NcsRefusal why;
    size_t k;
    for (k = 0; k < count; k++) {
        const Change *c = &changes[k];
        uint8_t code[BUNDLE + 1];
        int made;
        memset(code, 0x90, sizeof code);
        memcpy(code, c->code, c->used);
        made = call(m, (NcsAt){c->at}, code, c->len, &why);
        testing_check(is_refused(m, made, &why, c->kind, c->fault) && why.at == c->fault_at, c->name, __FILE__, __LINE__);
    }
}

static void refused_creations(NcsModule *m) {
    static const Change changes[] = {
        {"a base within a bundle", HERE + 1, NCS_BAD_CODE, NC_BAD_BASE, 0, 32, 0, {0}},
        {"a base in the zone", HERE - 32, NCS_BAD_CODE, NC_BAD_BASE, 0, 32, 0, {0}},
        {"no code", HERE, NCS_BAD_CODE, NC_BAD_LENGTH, 0, 0, 0, {0}},
        {"no whole bundles", HERE, NCS_BAD_CODE, NC_BAD_LENGTH, 0, 33, 0, {0}},
        {"the guard", LIMIT - 32, NCS_BAD_CODE, NC_OUT_OF_RANGE, 0, 32, 0, {0}},
        {"the end of all addresses", 0xFFFFFFE0, NCS_BAD_CODE, NC_OUT_OF_RANGE, 0, 32, 0, {0}},
        {"a return", THERE, NCS_BAD_CODE, NC_NOT_PERMITTED, THERE + 1, 32, 2, {0x90, 0xC3}},
        {"a bare jump", THERE, NCS_BAD_CODE, NC_BARE, THERE, 32, 2, {0xFF, 0xE0}},
        {"a jump into an instruction", THERE, NCS_BAD_CODE, NC_BAD_TARGET, THERE, 32, 2, {0xEB, 0xFF}},
        {"over a chunk", HERE, NCS_BAD_CHANGE, NC_OCCUPIED, 0, 32, 1, {0x40}},
        {"over a deleted chunk", THERE + 64, NCS_BAD_CHANGE, NC_OCCUPIED, 0, 32, 1, {0x40}},
    };
    NcsRefusal why;
    refused_each(m, ncs_create, changes, sizeof changes / sizeof *changes);
    CHECK(is_refused(m, ncs_create(m, (NcsAt){HERE}, "", SIZE_MAX / 4, &why), &why, NCS_BAD_CODE, NC_OUT_OF_RANGE));
}

static void refused_patches(NcsModule *m) {
    static const Change changes[] = {
        {"no bytes", HERE, NCS_BAD_CHANGE, NC_PATCH_BAD_SPAN, 0, 0, 0, {0}},
        {"more than a bundle", HERE, NCS_BAD_CHANGE, NC_PATCH_BAD_SPAN, 0, 33, 0, {0}},
        {"across bundles", HERE + 31, NCS_BAD_CHANGE, NC_PATCH_BAD_SPAN, 0, 2, 0, {0}},
        {"free text", THERE, NCS_BAD_CHANGE, NC_PATCH_NOT_LIVE, 0, 1, 0, {0}},
        {"a deleted chunk", THERE + 64, NCS_BAD_CHANGE, NC_PATCH_NOT_LIVE, 0, 1, 1, {NC_STOP}},
        {"a return", HERE + 11, NCS_BAD_CHANGE, NC_PATCH_NOT_PERMITTED, 0, 1, 1, {0xC3}},
        {"part of an instruction", HERE, NCS_BAD_CHANGE, NC_PATCH_BOUNDARIES, 0, 2, 0, {0}},
        {"within an instruction", HERE + 1, NCS_BAD_CHANGE, NC_PATCH_BOUNDARIES, 0, 1, 0, {0}},
        {"a mask", HERE + 6, NCS_BAD_CHANGE, NC_PATCH_PAIR_TOUCHED, 0, 3, 3, {0x83, 0xE0, 0xE0}},
        {"a jump into an instruction", HERE, NCS_BAD_CHANGE, NC_PATCH_BAD_TARGET, 0, 5, 5, {0xE9, 0xFC, 0xFF, 0xFF, 0xFF}},
    };
    refused_each(m, ncs_patch, changes, sizeof changes / sizeof *changes);
}

static void refused_deletions(NcsModule *m) {
    static const uint32_t places[] = {0, HERE + 1, HERE + BUNDLE, THERE, THERE + 64, LIMIT, 0xFFFFFFFF};
    NcsRefusal why;
    size_t k;
    for (k = 0; k < sizeof places / sizeof *places; k++) {
        int made = ncs_delete(m, (NcsAt){places[k]}, &why);
        CHECK(is_refused(m, made, &why, NCS_BAD_CHANGE, NC_NO_CHUNK));
    }
}

static void refused_modules(void) {
    uint8_t code[BUNDLE];
    NcsRefusal why;
    NcsModule *m;
    codes_number(code, 1);
    m = ncs_module_code(code, sizeof code, NULL);
    CHECK(m != NULL && m->limit == LIMIT);
    memcpy(before, codes_text(m, 0), LIMIT);
    CHECK(is_refused(m, ncs_create(m, (NcsAt){THERE}, code, BUNDLE, &why), &why, NCS_NOT_LIVE, 0));
    CHECK(is_refused(m, ncs_patch(m, (NcsAt){HERE + BUNDLE - 1}, "\x40", 1, &why), &why, NCS_NOT_LIVE, 0));
    CHECK(is_refused(m, ncs_delete(m, (NcsAt){HERE}, &why), &why, NCS_NOT_LIVE, 0));
    CHECK(ncs_reclaim(m) == 0);
    ncs_module_free(m);
    CHECK(ncs_module_live(0, 1, &why) == NULL && why.kind == NCS_BAD_LIMITS && why.sentence != NULL);
    CHECK(ncs_module_live(NC_MAX_BUNDLES, 1, &why) == NULL && why.kind == NCS_BAD_LIMITS && ncs_module_live(0xFFFFFFFF, 1, NULL) == NULL);
}

static void try_refusals(void) {
    NcsModule *m = codes_module(BUNDLES);
    NcsBox *box = codes_box(m, SHORT);
    CHECK(codes_create_number(m, HERE, 5) && codes_create_number(m, THERE + 64, 6) && codes_delete(m, THERE + 64));
    memcpy(before, codes_text(m, 0), LIMIT);
    refused_creations(m);
    refused_patches(m);
    refused_deletions(m);
    CHECK(!ncs_delete(m, (NcsAt){0}, NULL) && !ncs_patch(m, (NcsAt){0}, "", 1, NULL) && !ncs_create(m, (NcsAt){0}, "", 1, NULL));
    CHECK(codes_returns(box, HERE, 5) && m->live->changes == 6 && ncs_reclaim(m) == 1);
    codes_end(m, box);
    refused_modules();
    m = codes_module(NC_MAX_BUNDLES - 1);
    CHECK(m->limit == NC_LIMIT(NC_MAX_BUNDLES) && codes_create_number(m, m->limit - 2 * BUNDLE, 5));
    ncs_module_free(m);
    puts("refusals");
}

/* ---- What the system refuses, with nothing left behind */

static void refuse_module(int number, int error, uint32_t kind) {
    Maps before_it = read_maps(), maps;
    NcsRefusal why;
    watching_refuse = number;
    watching_times = 100;
    watching_errno = error;
    CHECK(ncs_module_live(BUNDLES, 4, &why) == NULL && why.kind == kind && why.fault == 0 && why.sentence != NULL);
    watching_refuse = 0;
    maps = read_maps();
    CHECK(maps.all == before_it.all);
}

static void try_system(void) {
    NcsModule *m;
    refuse_module(SYS_membarrier, EINVAL, NCS_BAD_SYSTEM);
    refuse_module(SYS_memfd_create, ENOSYS, NCS_BAD_SYSTEM);
    refuse_module(SYS_memfd_create, EMFILE, NCS_NO_MEMORY);
    refuse_module(SYS_ftruncate, ENOSPC, NCS_NO_MEMORY);
    refuse_module(SYS_madvise, EINVAL, NCS_NO_MEMORY);
    watching_advice = MADV_POPULATE_WRITE; /* as before Linux 5.14: all pages are taken at once */
    watching_refuse = SYS_madvise;
    watching_times = 1;
    m = ncs_module_live(BUNDLES, 4, NULL);
    CHECK(m != NULL && watching_times == 0 && m->live->filled == m->limit && codes_create_number(m, HERE, 5));
    ncs_module_free(m);
    watching_no_room = 1;
    refuse_module(SYS_madvise, EINVAL, NCS_NO_MEMORY);
    watching_no_room = 0;
    refuse_module(SYS_madvise, ENOMEM, NCS_NO_MEMORY);
    watching_advice = 0;
    refuse_module(SYS_modify_ldt, ENOMEM, NCS_NO_MEMORY);
    watching_refuse = SYS_memfd_create; /* as an older kernel does, which doesn't know all flags */
    watching_times = 1;
    watching_errno = EINVAL;
    ncs_module_free(codes_module(BUNDLES));
    CHECK(watching_times == 0);
    watching_refuse = 0;
    puts("refusals of the system");
}

/* ---- Want of memory: each allocation of a call fails in turn. Then the call is refused, and nothing is changed; or it is made all the
   same, where nc_host can do without. What was made is undone. */

static NcsModule *scarce;

static int scarce_module(NcsRefusal *why) {
    NcsModule *m = ncs_module_live(BUNDLES, 4, why);
    ncs_module_free(m);
    return m != NULL;
}

static int scarce_creation(NcsRefusal *why) {
    uint8_t code[BUNDLE];
    codes_number(code, 8);
    return ncs_create(scarce, (NcsAt){THERE}, code, sizeof code, why);
}

static int scarce_deletion(NcsRefusal *why) {
    return ncs_delete(scarce, (NcsAt){THERE}, why);
}

/* Runs it with each allocation failing, in turn, and `undo` where it was made. How often it was refused. */
static unsigned run_short(int (*call)(NcsRefusal *why), int (*undo)(void)) {
    unsigned k, times = 0;
    NcsRefusal why;
    int failed = 1;
    for (k = 0; failed; k++) {
        int made;
        memcpy(before, codes_text(scarce, 0), LIMIT);
        watching_fail_after = k;
        made = call(&why);
        failed = watching_fail_after < 0;
        watching_fail_after = -1;
        CHECK(made ? why.kind == NCS_OK && undo() : is_refused(scarce, 0, &why, NCS_NO_MEMORY, 0));
        CHECK(made || failed);
        times += !made;
    }
    return times;
}

static int undo_nothing(void) {
    return 1;
}

static int undo_creation(void) {
    return codes_delete(scarce, THERE) && ncs_reclaim(scarce) == 1;
}

static int undo_deletion(void) {
    return ncs_reclaim(scarce) == 1 && codes_create_number(scarce, THERE, 8);
}

static void try_memory(void) {
    NcsBox *box;
    scarce = codes_module(BUNDLES);
    box = codes_box(scarce, SHORT);
    CHECK(codes_create_number(scarce, HERE, 5));
    watching_fail_after = 0; /* the first call needs seats */
    CHECK(codes_run(box, HERE).how == NCS_HOST && scarce->live->calls == 0);
    CHECK(run_short(scarce_module, undo_nothing) > 2 && run_short(scarce_creation, undo_creation) > 2);
    CHECK(codes_create_number(scarce, THERE, 8) && run_short(scarce_deletion, undo_deletion) > 0);
    CHECK(codes_returns(box, THERE, 8) && codes_returns(box, HERE, 5));
    codes_end(scarce, box);
    puts("want of memory");
}

int main(void) {
    (void)setvbuf(stdout, NULL, _IOLBF, 0);
    try_order();
    try_text();
    try_changes();
    try_refusals();
    try_system();
    try_memory();
    printf("%u wrong\n", testing_wrong);
    return testing_wrong != 0;
}
