/*
 * How much stack the library's calls take: each is made by a thread on a stack of its own, which is filled with one byte before. The lowest
 * place that has another one afterwards is as deep as the calls went.
 */
#include "nc_host.h"

#include <pthread.h>
#include <stdbool.h>
#include <stdlib.h>
#include <string.h>
#include <sys/mman.h>

#define STACK_SIZE (1u << 20)
#define GUARD 4096u /* bytes below the stack that can't be touched */
#define UNTOUCHED 0xA5
#define SEATS 2

/* A jump to the next bundle, a number that is put into EAX, a masked jump, and nops. */
#define NUMBER 2u
#define NEXT 0x1E
static const uint8_t bundle[NC_BUNDLE] = {
    0xEB, NEXT, 0xB8, 1,    0,    0,    0,    0x83, 0xE0, 0xE0, 0xFF, 0xE0, 0x90, 0x90, 0x90, 0x90,
    0x90, 0x90, 0x90, 0x90, 0x90, 0x90, 0x90, 0x90, 0x90, 0x90, 0x90, 0x90, 0x90, 0x90, 0x90, 0x90,
};
static const uint8_t number[5] = {0xB8, 2, 0, 0, 0};

typedef struct Trial {
    uint32_t bundles; /* of the chunk; the region has place for two of it */
    uint32_t limit;
    size_t len, room; /* of the code; of the acts */
    uint8_t *code, *marks, *text;
    NcAct *acts;
    uint32_t *choices, *places; /* one for each bundle, and one place more */
    const uint8_t *top;
    bool is_wrong;
} Trial;

static void expect(Trial *own, bool holds) {
    own->is_wrong |= !holds;
}

/* ---- The calls */

/* The calls on code alone, for code that gets this verdict. */
static void judge(Trial *own, uint32_t fault) {
    expect(own, nc_host_vet(NC_START, own->limit, own->code, own->len).fault == fault);
    expect(own, nc_host_marks(NC_START, own->limit, own->code, own->len, own->marks, own->len).fault == fault);
    expect(own, nc_host_image(NC_START, own->code, own->len, own->text, own->limit - NC_START).fault == fault);
}

/* Code that gets this fault is refused by each call that vets. */
static void refuse(Trial *own, NcRegion *region, uint32_t fault) {
    NcVetted vetted = {NULL};
    judge(own, fault);
    expect(own, nc_vetted_new(NC_START, own->limit, own->code, own->len, &vetted).fault == fault);
    expect(own, nc_region_create(region, NC_START, own->code, own->len, own->acts, own->room).fault == fault);
}

/* Valid code, and code with each kind of fault at its end. */
static void judge_each(Trial *own, NcRegion *region) {
    uint8_t *last = own->code + own->len - NC_BUNDLE;
    expect(own, nc_host_decode(own->code, own->len).fault == NC_OK && nc_host_version() == NC_VERSION);
    expect(own, nc_host_elf(own->code, own->len, NULL, 0).fault == NC_ELF_NOT_ELF);
    judge(own, NC_OK);
    last[NC_BUNDLE - 1] = 0xC3;
    refuse(own, region, NC_NOT_PERMITTED);
    last[NC_BUNDLE - 1] = bundle[NC_BUNDLE - 1];
    last[1] = NUMBER - 1; /* into the next instruction */
    refuse(own, region, NC_BAD_TARGET);
    last[1] = NEXT;
}

static void delete (Trial *own, NcRegion *region, uint32_t base) {
    expect(own, nc_region_begin_delete(region, base, NULL, 0).fault == NC_OK);
    expect(own, nc_region_deletion_runs(region, own->acts, own->room).fault == NC_OK);
    expect(own, nc_region_end_delete(region).fault == NC_OK);
}

/* One large chunk, which is patched, walked through and deleted. */
static void hold_large(Trial *own, NcRegion *region) {
    NcVetted vetted = {NULL};
    uint32_t above = NC_START + (uint32_t)own->len;
    expect(own, nc_region_create(region, NC_START, own->code, own->len, own->acts, own->room).fault == NC_OK);
    expect(own, nc_region_creation_runs(region, NC_START, own->acts, own->room).fault == NC_OK);
    expect(own, nc_region_patch(region, NC_START + NUMBER, number, sizeof number, own->acts, own->room).fault == NC_OK);
    expect(own, nc_region_walk(region, NC_START, own->choices, own->bundles, own->places, own->bundles + 1).fault == NC_OK);
    expect(own, nc_region_chunk(region, 0).fault == NC_OK && nc_region_place(region, NC_START).fault == NC_OK);
    expect(own, nc_region_chunk_at(region, above - 1).base == NC_START && nc_region_chunk_at(region, above).fault == NC_NO_CHUNK);
    delete (own, region, NC_START);
    expect(own, nc_vetted_new(above, own->limit, own->code, own->len, &vetted).fault == NC_OK);
    expect(own, nc_region_load(region, &vetted, own->acts, own->room).fault == NC_OK);
    expect(own, nc_region_begin_delete(region, above, own->acts, own->room).fault == NC_OK);
    expect(own, nc_region_end_delete(region).fault == NC_OK && nc_region_generation(region).stamp == 2);
    nc_vetted_free(&vetted);
}

/* As many small chunks, between which bundles are free, and half of which go before the others. */
static void hold_many(Trial *own, NcRegion *region, NcSeat *seat) {
    for (uint32_t i = 0; i < own->bundles; i++) {
        expect(own, nc_region_create(region, NC_START + 2 * i * NC_BUNDLE, own->code, NC_BUNDLE, NULL, 0).fault == NC_OK);
    }
    for (uint32_t odd = 0; odd < 2; odd++) {
        for (uint32_t i = odd; i < own->bundles; i += 2) {
            delete (own, region, NC_START + 2 * i * NC_BUNDLE);
        }
        expect(own, nc_seat_check_in(seat) == NC_OK);
        expect(own, nc_region_reclaim(region).count == (own->bundles + 1 - odd) / 2);
    }
}

static void *make_calls(void *given) {
    Trial *own = given;
    NcRegion region = {NULL};
    NcSeat seats[SEATS] = {{NULL}, {NULL}};
    own->top = __builtin_frame_address(0);
    expect(own, nc_region_new(2 * own->bundles + 1, SEATS, &region) == NC_OK);
    judge_each(own, &region);
    expect(own, nc_region_seat(&region, &seats[0]) == NC_OK && nc_region_seat(&region, &seats[1]) == NC_OK);
    nc_seat_leave(&seats[1]);
    hold_large(own, &region);
    expect(own, nc_seat_check_in(&seats[0]) == NC_OK && nc_region_reclaim(&region).count == 2);
    hold_many(own, &region, &seats[0]);
    nc_region_free(&region);
    nc_seat_leave(&seats[0]);
    return NULL;
}

/* ---- The stack */

/* Makes the calls on this stack. Whether all of them answered as they should. */
static bool is_right(Trial *own, uint8_t *stack) {
    pthread_t thread;
    pthread_attr_t attributes;
    if (pthread_attr_init(&attributes) != 0) {
        return false;
    }
    bool is_made = pthread_attr_setstack(&attributes, stack, STACK_SIZE) == 0 && pthread_create(&thread, &attributes, make_calls, own) == 0;
    is_made = is_made && pthread_join(thread, NULL) == 0;
    return pthread_attr_destroy(&attributes) == 0 && is_made && !own->is_wrong;
}

static size_t depth(Trial *own) {
    size_t lowest = 0;
    uint8_t *mapped = mmap(NULL, GUARD + STACK_SIZE, PROT_READ | PROT_WRITE, MAP_PRIVATE | MAP_ANONYMOUS, -1, 0);
    if (mapped == MAP_FAILED || mprotect(mapped, GUARD, PROT_NONE) != 0) {
        return SIZE_MAX;
    }
    uint8_t *stack = mapped + GUARD;
    memset(stack, UNTOUCHED, STACK_SIZE);
    bool right = is_right(own, stack);
    while (right && stack[lowest] == UNTOUCHED) {
        lowest++;
    }
    size_t found = right ? (size_t)(own->top - (stack + lowest)) : SIZE_MAX;
    return munmap(mapped, GUARD + STACK_SIZE) == 0 ? found : SIZE_MAX;
}

/* How many bytes of stack the calls take for a chunk of this many bundles, and for as many chunks. SIZE_MAX if one of them answers
   wrongly. */
size_t most_stack(uint32_t bundles) {
    size_t len = (size_t)bundles * NC_BUNDLE, room = len + sizeof number * 3;
    /* clang-format off */
    Trial own = {
        .bundles = bundles, .limit = NC_LIMIT(2 * bundles + 1), .len = len, .room = room, .code = malloc(len), .marks = malloc(len),
        .text = malloc((2 * bundles + 1) * NC_BUNDLE), .acts = malloc(room * sizeof(NcAct)), .choices = malloc(bundles * sizeof(uint32_t)),
        .places = malloc((bundles + 1) * sizeof(uint32_t)),
    };
    /* clang-format on */
    size_t found = SIZE_MAX;
    if (own.code && own.marks && own.text && own.acts && own.choices && own.places) {
        for (size_t i = 0; i < len; i += NC_BUNDLE) {
            memcpy(own.code + i, bundle, NC_BUNDLE);
        }
        memset(own.choices, 0xFF, bundles * sizeof(uint32_t));
        found = depth(&own);
    }
    free(own.code);
    free(own.marks);
    free(own.text);
    free(own.acts);
    free(own.choices);
    free(own.places);
    return found;
}
