/* What a run may not change: memory of the host's where code would reach without its limits, a second box, and what C expects. */
#define _GNU_SOURCE
#include "kit.h"

#include <stdlib.h>
#include <string.h>
#include <sys/mman.h>

#define PATTERN 0x5A
#define OTHER_LEN 0x10000u /* of the other box's data, at most */
#define STACK_CANARY_LEN 0x4000u

enum { LOW, ON_STACK, BEHIND_DATA, BEHIND_TEXT, AREAS };

typedef struct Run {
    KitBox *box;
    uint32_t place, eax, edx;
    KitEnd end;
} Run;

const char *kit_harm;
unsigned long kit_calls;
KitBox kit_other;
static struct {
    uint8_t *at; /* NULL: it isn't looked at */
    size_t len;
    const char *harm;
} areas[AREAS] = {
    {NULL, KIT_LOW_LEN, "MEMORY OF THE HOST'S HAS CHANGED"},
    {NULL, STACK_CANARY_LEN, "THE HOST'S STACK HAS CHANGED"},
    {NULL, KIT_PAGE, "MEMORY BEHIND THE DATA HAS CHANGED"},
    {NULL, KIT_PAGE, "MEMORY BEHIND THE TEXT HAS CHANGED"},
};
static uint8_t *mapped[AREAS], other_was[OTHER_LEN];
static int called_backwards;
unsigned kit_guarded(void (*function)(void *), void *argument); /* guard.S */

/* Memory at a linear address, or NULL if something is there already. */
static uint8_t *map_low(uint32_t at, uint32_t len) {
    int flags = MAP_PRIVATE | MAP_ANONYMOUS | MAP_FIXED_NOREPLACE;
    uint8_t *got = mmap((void *)(uintptr_t)at, len, PROT_READ | PROT_WRITE, flags, -1, 0);
    if (got != (uint8_t *)(uintptr_t)at) {
        return NULL;
    }
    memset(got, PATTERN, len);
    return got;
}

int kit_canaries_begin(void) {
    areas[LOW].at = map_low(KIT_LOW_AT, KIT_LOW_LEN);
    areas[ON_STACK].at = (uint8_t *)(uintptr_t)(KIT_STACK_CANARY - STACK_CANARY_LEN / 2);
    memset(areas[ON_STACK].at, PATTERN, STACK_CANARY_LEN);
    return areas[LOW].at != NULL;
}

void kit_canaries_behind(const KitBox *box, int protection) {
    uint32_t ends[2] = {box->data_base + box->data_limit, box->code_base + box->code_limit};
    int k;
    for (k = BEHIND_DATA; k < AREAS; k++) {
        mapped[k] = map_low(ends[k - BEHIND_DATA], KIT_PAGE);
        areas[k].at = (protection & PROT_READ) != 0 ? mapped[k] : NULL;
        if (mapped[k] != NULL && mprotect(mapped[k], KIT_PAGE, protection) != 0) {
            abort();
        }
    }
}

void kit_canaries_leave(void) {
    int k;
    for (k = BEHIND_DATA; k < AREAS; k++) {
        if (mapped[k] != NULL && munmap(mapped[k], KIT_PAGE) != 0) {
            abort();
        }
        mapped[k] = areas[k].at = NULL;
    }
}

static uint32_t other_len(void) {
    uint32_t len = kit_other.data_limit - kit_other.data_at;
    return len < OTHER_LEN ? len : OTHER_LEN;
}

static uint8_t *other_data(void) {
    return (uint8_t *)(uintptr_t)(kit_other.data_base + kit_other.data_at);
}

int kit_other_begin(void) {
    uint32_t k;
    if (kit_host.has_one_box) {
        return 1;
    }
    if (!kit_load_stop(&kit_other)) {
        return 0;
    }
    kit_canaries_leave();
    for (k = 0; k < other_len(); k++) {
        other_data()[k] = (uint8_t)(k * 7 + 3);
    }
    memcpy(other_was, other_data(), other_len());
    return 1;
}

/* Compiled code relies on the direction flag from its first instruction on. */
uint32_t kit_called(uint32_t argument) {
    uint64_t flags;
    __asm__ volatile("pushfq; popq %0; cld" : "=r"(flags));
    kit_calls++;
    called_backwards |= flags >> 10 & 1;
    return argument + 1;
}

static void run(void *one) {
    Run *r = one;
    r->end = kit_host.run(r->box, r->place, r->eax, r->edx);
}

static const char *look(unsigned guarded) {
    int k;
    if (called_backwards || guarded >= 16) {
        return "THE DIRECTION FLAG IS SET";
    }
    if (guarded != 0) {
        return "A REGISTER OF THE HOST'S HAS CHANGED";
    }
    for (k = 0; k < AREAS; k++) {
        const uint8_t *at = areas[k].at;
        if (at != NULL && (at[0] != PATTERN || memcmp(at, at + 1, areas[k].len - 1) != 0)) {
            return areas[k].harm;
        }
    }
    return !kit_host.has_one_box && memcmp(other_was, other_data(), other_len()) != 0 ? "ANOTHER BOX HAS CHANGED" : NULL;
}

KitEnd kit_run(KitBox *box, uint32_t place, uint32_t eax, uint32_t edx) {
    Run r = {box, place, eax, edx, {KIT_OTHERWISE, 0, 0, 0}};
    const char *harm;
    called_backwards = 0;
    harm = look(kit_guarded(run, &r));
    kit_harm = kit_harm == NULL ? harm : kit_harm;
    return r.end;
}
