/* Boxes at base 0 and elsewhere: which box gets base 0, what its code reaches, and what the process keeps. */
#define _GNU_SOURCE
#include "testing.h"

#include "../inner.h"

#include <asm/ldt.h>
#include <stdio.h>
#include <stdlib.h>
#include <string.h>
#include <sys/mman.h>
#include <sys/syscall.h>
#include <sys/wait.h>
#include <unistd.h>

#define ABOVE_ALL 0x20000000u /* the most memory at base 0 */

/* The word at the address that it is called with. */
static const uint8_t LOADS[CODE_LEN] = {[0] = 0x59, 0x83, 0xE1, 0xE0, 0xFF, 0xE1, [32] = 0x8B, 0x44, 0x24,
                                        4,          0x8B, 0x00, 0x59, 0x83, 0xE1, 0xE0,        0xFF, 0xE1};
static NcsModule *module;

static NcsBox *box_of(uint32_t memory) {
    const NcsLimits limits = {.memory = memory, .depth = 2, .milliseconds = 100};
    return ncs_box_new(module, &limits, NULL);
}

static NcsEnd load(NcsBox *box, uint32_t at) {
    NcsAt function = {CASE_AT};
    return ncs_call(box, function, NCS_ARGS(at));
}

static int is_first(const NcsBox *box) {
    return box->memory->is_base_zero && box->data_at == 0;
}

/* ---- What code reaches */

static const struct {
    uint32_t at, trap;
} ACCESSES[] = {{0, 14},         {4, 14},          {0xFFC, 14},  {0x1000, 14},   {0xFFFC, 14},     {0x10000, 0},     {DATA_AT + 16, 0},
                {MEMORY - 4, 0}, {MEMORY - 3, 13}, {MEMORY, 13}, {0x400000, 13}, {0x20000000, 13}, {0x7FFFFFFC, 13}, {0xFFFFFFFC, 13}};

static void try_accesses(NcsBox *box, const char *name) {
    unsigned k;
    for (k = 0; k < sizeof ACCESSES / sizeof *ACCESSES; k++) {
        NcsEnd end = load(box, ACCESSES[k].at);
        if (ACCESSES[k].trap == 0) {
            CHECK(end.how == NCS_RETURNED && end.result == 0);
        } else {
            CHECK(end.how == NCS_FAULTED && end.trap == ACCESSES[k].trap && end.data == (end.trap == 14 ? ACCESSES[k].at : 0));
        }
        CHECK(ncs_reset(box));
    }
    puts(name);
}

static int faults_at(NcsBox *box, uint32_t at) {
    return load(box, at).how == NCS_FAULTED && ncs_reset(box);
}

/* The host's pointer to the memory of another box is an address of this one's own memory, or of nothing. */
static void try_addresses(NcsBox *box, NcsBox *other) {
    uint32_t word = 0x12345678, at = DATA_AT + 16, own = (uint32_t)(uintptr_t)ncs_at(other, (NcsAt){at}, 4);
    CHECK(ncs_set(other, (NcsAt){at}, &word, 4) && load(other, at).result == word && load(box, at).result == 0);
    CHECK(own == at ? is_first(other) && load(box, own).result == 0 : faults_at(box, own));
    CHECK(faults_at(box, module->text_at + CODE_AT) && faults_at(box, ncs_landing_at) && ncs_reset(other));
    CHECK(ncs_at(box, (NcsAt){0}, 1) == NULL && ncs_at(box, (NcsAt){0xFFFF}, 1) == NULL && ncs_at(box, (NcsAt){MEMORY}, 1) == NULL);
    CHECK(ncs_at(box, (NcsAt){0x10000}, MEMORY - 0x10000) != NULL && ncs_at(box, (NcsAt){0x10000}, MEMORY - 0xFFFF) == NULL);
    puts("addresses");
}

/* ---- Which box it is */

/* Whether the host gets this page. */
static int take(uint32_t at) {
    void *place = (void *)(uintptr_t)at;
    return mmap(place, PAGE, PROT_READ, MAP_PRIVATE | MAP_ANONYMOUS | MAP_FIXED_NOREPLACE, -1, 0) == place;
}

static int give_back(uint32_t at) {
    return munmap((void *)(uintptr_t)at, PAGE) == 0;
}

static void try_turns(void) {
    unsigned maps = testing_low_maps(), segments = testing_segments();
    NcsBox *box = box_of(MEMORY), *other = box_of(MEMORY), *third;
    CHECK(is_first(box) && !is_first(other));
    CHECK(!take(0) && !take(0xF000) && !take(0x10000) && !take(MEMORY - PAGE));
    CHECK(ncs_free(other) && ncs_free(box));
    third = box_of(MEMORY);
    CHECK(is_first(third) && ncs_free(third) && testing_low_maps() == maps && testing_segments() == segments);
    CHECK(!take(0) && !take(0xF000));
    puts("turns");
}

/* The most memory, more than that, and memory in which the host has a page. */
static void try_room(void) {
    static const uint32_t pages[] = {0x10000, 0x80000, MEMORY - PAGE};
    NcsBox *box = box_of(ABOVE_ALL);
    unsigned k;
    CHECK(box != NULL && is_first(box) && ncs_free(box));
    box = box_of(ABOVE_ALL + PAGE);
    CHECK(box != NULL && !is_first(box) && ncs_free(box));
    for (k = 0; k < sizeof pages / sizeof *pages; k++) {
        CHECK(take(pages[k]) && (box = box_of(MEMORY)) != NULL && !is_first(box));
        CHECK(load(box, pages[k]).how == NCS_RETURNED && ncs_free(box) && give_back(pages[k]));
    }
    CHECK((box = box_of(MEMORY)) != NULL && is_first(box) && ncs_free(box));
    puts("room");
}

static void try_reset(void) {
    NcsBox *box = box_of(MEMORY);
    uint32_t word = 7;
    CHECK(is_first(box) && ncs_set(box, (NcsAt){0x10000}, &word, 4) && ncs_set(box, (NcsAt){MEMORY - 4}, &word, 4));
    CHECK(load(box, 0x10000).result == 7 && load(box, MEMORY - 4).result == 7 && ncs_reset(box));
    CHECK(load(box, 0x10000).result == 0 && load(box, MEMORY - 4).result == 0 && load(box, MEMORY).how == NCS_FAULTED && ncs_free(box));
    puts("a reset");
}

/* ---- Other processes, which have a page of their own before their first box */

enum { IS_FIRST = 1, HAS_NO_PAGE = 2, IS_WRONG = 4 };

static int has_base_zero_beside(uint32_t at) {
    NcsBox *box;
    int told = take(at) ? 0 : HAS_NO_PAGE;
    module = testing_module(LOADS);
    box = testing_box(module);
    CHECK(load(box, 0x10000).how == NCS_RETURNED && load(box, 0xF000).trap == PAGE_FAULT);
    return told | (is_first(box) ? IS_FIRST : 0) | (testing_wrong != 0 ? IS_WRONG : 0);
}

/* A box that gets no segment leaves everything below 4 GiB as it was. */
static int is_refused_without_segments(uint32_t at) {
    const NcsLimits limits = {.memory = MEMORY, .depth = 2, .milliseconds = 100};
    struct user_desc d = {.limit = 1, .seg_32bit = 1, .useable = 1};
    NcsRefusal why;
    unsigned maps;
    module = testing_module(LOADS);
    for (d.entry_number = 0; d.entry_number < LDT_ENTRIES; d.entry_number++) {
        (void)syscall(SYS_modify_ldt, 0x11, &d, sizeof d);
    }
    maps = testing_low_maps();
    CHECK(ncs_box_new(module, &limits, &why) == NULL && why.kind == NCS_NO_MEMORY && testing_low_maps() == maps);
    return (take(at) ? 0 : HAS_NO_PAGE) | (take(0x10000) ? 0 : IS_WRONG) | (testing_wrong != 0 ? IS_WRONG : 0);
}

static int told_by_child(int (*what)(uint32_t), uint32_t at) {
    int status = -1;
    pid_t child = fork();
    if (child == 0) {
        _exit(what(at));
    }
    CHECK(child > 0 && waitpid(child, &status, 0) == child && WIFEXITED(status));
    return WEXITSTATUS(status);
}

/* Where the system gives the page, no box is at base 0. */
static void try_pages_below(void) {
    static const uint32_t pages[] = {0, 0x1000, 0xF000};
    unsigned k;
    for (k = 0; k < sizeof pages / sizeof *pages; k++) {
        int told = told_by_child(has_base_zero_beside, pages[k]);
        CHECK(told == 0 || told == (IS_FIRST | HAS_NO_PAGE));
        CHECK(told_by_child(is_refused_without_segments, pages[k]) == (told & HAS_NO_PAGE));
    }
    puts("pages below");
}

/* A child gets base 0 only where the parent's memory isn't there. */
static void try_child(void) {
    NcsBox *box = box_of(MEMORY);
    CHECK(is_first(box) && told_by_child(has_base_zero_beside, ABOVE_ALL) == 0 && ncs_free(box));
    CHECK(told_by_child(has_base_zero_beside, ABOVE_ALL) == IS_FIRST);
    puts("children");
}

int main(void) {
    NcsBox *box, *other;
    try_pages_below();
    module = testing_module(LOADS);
    box = testing_box(module);
    other = testing_box(module);
    CHECK(is_first(box) && !is_first(other));
    try_accesses(box, "accesses at base 0");
    try_accesses(other, "accesses elsewhere");
    try_addresses(box, other);
    try_addresses(other, box);
    CHECK(ncs_free(box) && ncs_free(other));
    try_turns();
    try_room();
    try_reset();
    try_child();
    ncs_module_free(module);
    printf("%u wrong\n", testing_wrong);
    return testing_wrong != 0;
}
