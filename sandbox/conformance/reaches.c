/* Each way to access data, at each kind of memory that isn't the box's; any stack pointer at a signal; and jumps to every bundle start. */
#define _GNU_SOURCE
#include "kit.h"

#include <signal.h>
#include <stdio.h>
#include <string.h>
#include <sys/mman.h>

#define JUMP_AT 5u /* of the jump in code that jumps anywhere */

/* An access at the address in EAX, with EDX the address of data of its own, and a stop behind it. */
typedef struct Way {
    const char *name;
    size_t len;
    uint8_t code[NC_BUNDLE];
    uint32_t at;   /* where the access is */
    uint32_t size; /* of the access in bytes */
    uint32_t trap; /* of the segment that stops it */
    uint32_t stop; /* where the stop is */
} Way;

#define CODE(...) .len = sizeof((uint8_t[]){__VA_ARGS__}), .code = {__VA_ARGS__}
#define BY_DATA(where, bytes, behind) .at = where, .size = bytes, .trap = KIT_GENERAL_PROTECTION, .stop = behind
#define BY_STACK(where, bytes, behind) .at = where, .size = bytes, .trap = KIT_STACK_FAULT, .stop = behind

static const Way WAYS[] = {
    {"a load", CODE(0x8B, 0x00, NC_STOP), BY_DATA(0, 4, 2)},
    {"a load of a byte", CODE(0x0F, 0xB6, 0x00, NC_STOP), BY_DATA(0, 1, 3)},
    {"a store", CODE(0x89, 0x00, NC_STOP), BY_DATA(0, 4, 2)},
    {"a store of a byte", CODE(0x88, 0x00, NC_STOP), BY_DATA(0, 1, 2)},
    {"an addition", CODE(0x01, 0x00, NC_STOP), BY_DATA(0, 4, 2)},
    {"a locked exchange", CODE(0xF0, 0x0F, 0xC1, 0x00, NC_STOP), BY_DATA(0, 4, 4)},
    {"a compare and exchange of 8 bytes", CODE(0x0F, 0xC7, 0x08, NC_STOP), BY_DATA(0, 8, 3)},
    {"a bit", CODE(0x31, 0xC9, 0x0F, 0xAB, 0x08, NC_STOP), BY_DATA(2, 4, 5)},
    {"a string store", CODE(0x89, 0xC7, 0xAB, NC_STOP), BY_DATA(2, 4, 3)},
    {"a string load", CODE(0x89, 0xC6, 0xAD, NC_STOP), BY_DATA(2, 4, 3)},
    {"a string copy to it", CODE(0x89, 0xC7, 0x89, 0xD6, 0xA5, NC_STOP), BY_DATA(4, 4, 5)},
    {"a string copy from it", CODE(0x89, 0xC6, 0x89, 0xD7, 0xA5, NC_STOP), BY_DATA(4, 4, 5)},
    {"a store by EBP", CODE(0x89, 0xC5, 0x89, 0x45, 0, NC_STOP), BY_STACK(2, 4, 5)},
    {"a store by ESP", CODE(0x89, 0xC4, 0x89, 0x04, 0x24, NC_STOP), BY_STACK(2, 4, 5)},
    {"a push", CODE(0x8D, 0x60, 4, 0x50, NC_STOP), BY_STACK(3, 4, 4)},
    {"a pop", CODE(0x89, 0xC4, 0x58, NC_STOP), BY_STACK(2, 4, 3)},
    {"a leave", CODE(0x89, 0xC5, 0xC9, NC_STOP), BY_STACK(2, 4, 3)},
    {"a call", CODE(0x8D, 0x60, 4, 0xE8, 0, 0, 0, 0, NC_STOP), BY_STACK(3, 4, 8)},
};

typedef struct Place {
    const char *name;
    uint64_t at; /* as the box's data segment counts, modulo 2^32 */
    int is_within;
} Place;

/* Memory of the host's that is mapped, so that nothing but a segment stops the access. */
static size_t list_places(const KitBox *box, uint32_t size, Place places[]) {
    uint32_t base = box->data_base, end = box->data_limit, other = kit_other.data_base + kit_other.data_at;
    const Place all[] = {
        {"the end of its data", end - size, 1},
        {"its limit", end, 0},
        {"across its limit", end - size + 1, 0},
        {"a page behind it", end + KIT_PAGE, 0},
        {"its text", box->code_base + box->code_at - base, 0},
        {"the host's memory", KIT_LOW_AT + KIT_LOW_LEN / 2 - base, 0},
        {"the host's stack", KIT_STACK_CANARY - base, 0},
        {"the end of all addresses", 0u - size, 0},
        {"another box", other - base, 0},
    };
    memcpy(places, all, sizeof all);
    return sizeof all / sizeof *all - (kit_host.has_one_box ? 1 : 0);
}

static const char *judge(const Way *way, const KitBox *box, const Place *place, KitEnd end) {
    uint32_t at = box->code_at + (place->is_within ? way->stop : way->at);
    return end.how != (place->is_within ? KIT_STOPPED : KIT_FAULTED)           ? "ANOTHER END"
         : end.trap != (place->is_within ? KIT_GENERAL_PROTECTION : way->trap) ? "ANOTHER INTERRUPT"
         : end.place != at                                                     ? "ANOTHER PLACE"
                                                                               : kit_harm;
}

static void try_way(const Way *way) {
    uint8_t code[NC_BUNDLE];
    Place places[16];
    const char *wrong = NULL;
    size_t k, count;
    KitBox box;
    kit_lay(code, sizeof code, way->code, way->len);
    if (!kit_load(&box, code, sizeof code, PROT_READ | PROT_WRITE)) {
        return;
    }
    count = list_places(&box, way->size, places);
    for (k = 0; k < count && wrong == NULL; k++) {
        KitEnd end = kit_run(&box, box.code_at, (uint32_t)places[k].at, box.data_at);
        wrong = judge(way, &box, &places[k], end);
        wrong = wrong == NULL && !kit_host.renew(&box) ? "IT ISN'T RENEWED" : wrong;
    }
    printf("%s at %u places: %s", way->name, (unsigned)count, wrong == NULL ? "as it has to be" : places[k - 1].name);
    kit_end_line(wrong);
    kit_drop(&box);
}

void kit_try_reaches(void) {
    size_t k;
    for (k = 0; k < sizeof WAYS / sizeof *WAYS; k++) {
        try_way(&WAYS[k]);
    }
}

/* A run that stops or is late with this stack pointer. Linux takes it for a linear address. */
static const char *try_stack(KitBox *box, uint32_t place, uint32_t esp, uint32_t how) {
    KitEnd end = kit_run(box, place, 0, esp);
    return end.how != how                               ? "ANOTHER END"
         : how == KIT_STOPPED && end.place != place + 2 ? "ANOTHER PLACE"
         : !kit_host.renew(box)                         ? "IT ISN'T RENEWED"
                                                        : kit_harm;
}

/* [21, 22]: stack pointers at each MiB, in the host's memory, on its stack, and at the low half of an address of the handlers' stack. */
void kit_try_stacks(void) {
    static const uint8_t stop[] = {0x89, 0xD4, NC_STOP}, loop[] = {0x89, 0xD4, 0xEB, 0xFE}; /* mov esp, edx */
    uint32_t own[] = {KIT_LOW_AT + KIT_LOW_LEN / 2, KIT_STACK_CANARY, 0};
    const char *wrong = NULL;
    unsigned k, stops;
    uint8_t code[2 * NC_BUNDLE];
    stack_t stack;
    KitBox box;
    kit_lay(code, NC_BUNDLE, stop, sizeof stop);
    kit_lay(code + NC_BUNDLE, NC_BUNDLE, loop, sizeof loop);
    if (!kit_load(&box, code, sizeof code, PROT_READ | PROT_WRITE)) {
        return;
    }
    own[2] = sigaltstack(NULL, &stack) == 0 ? (uint32_t)(uintptr_t)stack.ss_sp + (uint32_t)stack.ss_size / 2 : 0;
    for (k = 0; k < 6 && wrong == NULL; k++) {
        wrong = try_stack(&box, box.code_at + k % 2 * NC_BUNDLE, own[k / 2], k % 2 == 0 ? KIT_STOPPED : KIT_LATE);
    }
    for (stops = 0; stops < 4096 && wrong == NULL; stops++) {
        wrong = try_stack(&box, box.code_at, (stops << 20) + 8, KIT_STOPPED);
    }
    printf("stops and loops with any stack pointer: %u", k + stops);
    kit_end_line(wrong);
    kit_drop(&box);
}

static int is_call(uint32_t place) {
    unsigned k = 0;
    while (k < kit_host.call_count && kit_host.calls[k] != place) {
        k++;
    }
    return k < kit_host.call_count;
}

/* A call of the host may go back to some place, and stop there. */
static const char *judge_jump(const KitBox *box, uint32_t place, uint32_t how, KitEnd end) {
    if (kit_host.is_trampoline(place)) {
        int comes_back = end.how == KIT_STOPPED && is_call(place), goes_out = end.how == KIT_CAME_OUT || place != kit_host.way_out;
        return comes_back || (goes_out && (end.how == KIT_CAME_OUT || end.how == KIT_REFUSED)) ? kit_harm : "ANOTHER END";
    }
    return end.how != how || end.trap != KIT_GENERAL_PROTECTION               ? "ANOTHER END"
         : end.place != (how == KIT_STOPPED ? place : box->code_at + JUMP_AT) ? "ANOTHER PLACE"
                                                                              : kit_harm;
}

/* Jumps by code that sets ESP to EDX, to bundle starts from one place to another. */
static void try_jumps(KitBox *box, const char *name, uint64_t from, uint64_t to, uint32_t step, uint32_t how) {
    const uint32_t stacks[] = {box->data_at + 64, KIT_LOW_AT + 64, 0xFFFFFFFC};
    const char *wrong = NULL;
    unsigned tried = 0;
    uint64_t place;
    for (place = from; place < to && wrong == NULL; place += step) {
        size_t k;
        for (k = 0; k < 3 && wrong == NULL; k++, tried++) {
            wrong = judge_jump(box, (uint32_t)place, how, kit_run(box, box->code_at, (uint32_t)place, stacks[k]));
            wrong = wrong == NULL && !kit_host.renew(box) ? "IT ISN'T RENEWED" : wrong;
        }
    }
    printf("%s: %u", name, tried);
    kit_end_line(wrong);
}

/* [4, 7, 11] */
void kit_try_jumps(void) {
    static const uint8_t jump[] = {0x89, 0xD4, 0x83, 0xE0, 0xE0, 0xFF, 0xE0}; /* mov esp, edx; and eax, -32; jmp eax */
    uint8_t code[NC_BUNDLE];
    uint32_t behind, step;
    KitBox box;
    kit_lay(code, sizeof code, jump, sizeof jump);
    if (!kit_load(&box, code, sizeof code, PROT_READ | PROT_WRITE)) {
        return;
    }
    behind = box.code_at + box.code_len;
    step = ((box.code_limit - behind) / 1000 + NC_BUNDLE) & ~(NC_BUNDLE - 1);
    try_jumps(&box, "jumps to the zone", 0, NC_START, NC_BUNDLE, KIT_STOPPED);
    try_jumps(&box, "jumps to text without code", behind, box.code_limit, step, KIT_STOPPED);
    try_jumps(&box, "jumps beyond the limit of the code", box.code_limit, 1ull << 32, 0xFFFFE0, KIT_FAULTED);
    kit_drop(&box);
}
