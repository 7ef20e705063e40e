/*
 * A host in C with a region by a handle. Memory of its own follows the region by the acts that each call writes. Before that it decodes
 * instructions, and has code judged without a region.
 *
 * It executes nothing. After each call it compares its memory with the region's bytes. tests/nc_host/host compiles it as C and as C++ and
 * compares its output with region.txt.
 */
#define NC_FAULT_NAMES
#include "nc_host.h"

#include <stdio.h>
#include <string.h>

#define BUNDLES 8
#define LEN 64
#define ROOM (LEN + 2)

/* The memory that would be executed, and the buffer that is lent for acts. */
static uint8_t memory[BUNDLES * NC_BUNDLE];
static NcAct acts[ROOM];

static NcRegion region;
static NcSeat seat, other;
static NcVetted vetted;

/* Makes the acts of a call, up to the one that is no act on memory. */
static void make(size_t count) {
    size_t i;
    for (i = 0; i < count; i++) {
        if (acts[i].kind == NC_PUT) {
            memory[acts[i].at - NC_START] = (uint8_t)acts[i].value;
        }
    }
}

/* Whether the memory has the region's bytes, at each of its addresses. */
static const char *follows(void) {
    uint32_t at;
    for (at = NC_START; at < NC_LIMIT(BUNDLES); at++) {
        NcPlace place = nc_region_place(&region, at);
        if (place.fault != NC_OK || place.byte != memory[at - NC_START]) {
            return "astray";
        }
    }
    return "the same";
}

static void show(const char *name, NcChange change) {
    make(change.fault == NC_OK ? change.count : 0);
    printf("%s: fault %u at %08x count %u, memory %s\n", name, (unsigned)change.fault, (unsigned)change.at, (unsigned)change.count,
           follows());
}

static void show_chunks(void) {
    size_t i;
    for (i = 0;; i++) {
        NcChunk chunk = nc_region_chunk(&region, i);
        if (chunk.fault != NC_OK) {
            printf("chunks: %u, then fault %u\n", (unsigned)i, (unsigned)chunk.fault);
            return;
        }
        printf("chunk %08x length %u %s %u\n", (unsigned)chunk.base, (unsigned)chunk.length, chunk.retired ? "retired" : "live",
               (unsigned)chunk.stamp);
    }
}

/* The first span of this many bytes that has no place of a chunk, and ends at or below the guard; or 0. */
static uint32_t free_span(uint32_t len) {
    uint32_t at = NC_START;
    NcChunk next;
    while ((next = nc_region_chunk_at(&region, at)).fault == NC_OK) {
        if (next.base - at >= len) {
            return at;
        }
        at = next.base + next.length;
    }
    return NC_LIMIT(BUNDLES) - NC_BUNDLE - at >= len ? at : 0;
}

static void show_place(uint32_t at) {
    NcPlace place = nc_region_place(&region, at);
    printf("place %08x: fault %u byte %02x mark %u\n", (unsigned)at, (unsigned)place.fault, (unsigned)place.byte, (unsigned)place.mark);
}

static void show_fault(uint32_t fault) {
    printf("fault %u: %s, %s\n", (unsigned)fault, nc_fault_name(fault), nc_fault_sentence(fault));
}

/* A walk by some choices, into a buffer of `room` places. */
static void show_walk(uint32_t start, size_t room) {
    static const uint32_t choices[] = {0, 0, 0, NC_START + 64 + 5, 0};
    uint32_t places[6];
    NcWalk walk = nc_region_walk(&region, start, choices, 5, places, room);
    size_t i;
    printf("walk: %u count %u end %u", (unsigned)walk.fault, (unsigned)walk.count, (unsigned)walk.end);
    for (i = 0; walk.fault == NC_OK && i < walk.count; i++) {
        printf(" %08x", (unsigned)places[i]);
    }
    printf("\n");
}

static void reclaim(void) {
    NcCount freed = nc_region_reclaim(&region);
    printf("reclaim: fault %u count %u, memory %s\n", (unsigned)freed.fault, (unsigned)freed.count, follows());
}

static void end_delete(void) {
    NcStamp stamp = nc_region_end_delete(&region);
    printf("end: fault %u stamp %u, memory %s\n", (unsigned)stamp.fault, (unsigned)stamp.stamp, follows());
}

/* A chunk that is vetted first, without the region, and created there afterwards. */
static void load(uint32_t base, const uint8_t *code) {
    NcVerdict verdict = nc_vetted_new(base, NC_LIMIT(BUNDLES), code, LEN, &vetted);
    printf("vetted: fault %u at %08x\n", (unsigned)verdict.fault, (unsigned)verdict.at);
    show("load", nc_region_load(&region, &vetted, acts, ROOM));
}

/* Each call on handles that have nothing, and on ones that have something already. */
static void refuse(void) {
    uint8_t byte = NC_STOP;
    printf("nothing: %u %u %u %u %u %u %u %u %u\n", (unsigned)nc_region_seat(&region, &seat),
           (unsigned)nc_region_create(&region, NC_START, &byte, 1, acts, ROOM).fault,
           (unsigned)nc_region_patch(&region, NC_START, &byte, 1, acts, ROOM).fault,
           (unsigned)nc_region_begin_delete(&region, NC_START, acts, ROOM).fault, (unsigned)nc_region_end_delete(&region).fault,
           (unsigned)nc_region_reclaim(&region).fault, (unsigned)nc_region_chunk(&region, 0).fault,
           (unsigned)nc_region_place(&region, NC_START).fault, (unsigned)nc_seat_check_in(&seat));
    printf("nothing: %u %u\n", (unsigned)nc_region_load(&region, &vetted, acts, ROOM).fault, (unsigned)nc_region_generation(&region).fault);
    nc_region_free(&region);
    nc_seat_leave(&seat);
    nc_vetted_free(&vetted);
}

static void begin(void) {
    printf("new: %u", (unsigned)nc_region_new(BUNDLES, 0, &region));
    printf(" %u", (unsigned)nc_region_new(1, 2, &region));
    printf(" %u", (unsigned)nc_region_new(BUNDLES, 2, &region));
    printf(" %u\n", (unsigned)nc_region_new(BUNDLES, 2, &region));
    memset(memory, NC_STOP, sizeof memory);
    printf("seat: %u", (unsigned)nc_region_seat(&region, &seat));
    printf(" %u\n", (unsigned)nc_region_seat(&region, &seat));
}

/* A deletion in two steps: the host's memory has its stops before the stamp is drawn. */
static void delete_chunk(void) {
    NcChange change;
    show("begin by a short buffer", nc_region_begin_delete(&region, NC_START, acts, ROOM - 1));
    change = nc_region_begin_delete(&region, NC_START, acts, ROOM);
    printf("begin: fault %u count %u, memory %s\n", (unsigned)change.fault, (unsigned)change.count, follows());
    printf("under way: %u %u\n", (unsigned)nc_region_patch(&region, NC_START, memory, 1, acts, 0).fault,
           (unsigned)nc_region_reclaim(&region).fault);
    make(change.count);
    end_delete();
    end_delete();
}

static void show_instruction(const char *name, const uint8_t *code, size_t len) {
    NcInstruction i = nc_host_decode(code, len);
    printf("%s: fault %u length %u flow %u rel %d reg %u masks %u\n", name, (unsigned)i.fault, (unsigned)i.length, (unsigned)i.flow,
           (int)i.rel, (unsigned)i.reg, (unsigned)i.masks);
}

static void show_instructions(const uint8_t *chunk) {
    static const uint8_t ret[] = {0xC3};
    show_instruction("mov eax, 5", chunk, LEN);
    show_instruction("jmp 00010020", chunk + 5, LEN - 5);
    show_instruction("and ebx, -32", chunk + 32, LEN - 32);
    show_instruction("jmp ebx", chunk + 35, LEN - 35);
    show_instruction("mov, cut short", chunk, 4);
    show_instruction("ret", ret, sizeof ret);
}

/* The verdict on a chunk at this base and with this length, some bytes of which are others. */
static void show_verdict(const uint8_t *chunk, const char *name, uint32_t base, size_t len, size_t at, const char *bytes) {
    uint8_t changed[LEN];
    NcVerdict v;
    memcpy(changed, chunk, LEN);
    memcpy(changed + at, bytes, strlen(bytes));
    v = nc_host_vet(base, NC_LIMIT(BUNDLES), changed, len);
    printf("%s: fault %u at %08x\n", name, (unsigned)v.fault, (unsigned)v.at);
}

static void show_verdicts(const uint8_t *chunk) {
    show_verdict(chunk, "the chunk", NC_START, LEN, 0, "");
    show_verdict(chunk, "no bundle start", NC_START + 16, LEN, 0, "");
    show_verdict(chunk, "31 bytes", NC_START, 31, 0, "");
    show_verdict(chunk, "into the guard", NC_LIMIT(BUNDLES) - LEN, LEN, 0, "");
    show_verdict(chunk, "a return", NC_START, LEN, 10, "\xC3");
    show_verdict(chunk, "across a bundle's end", NC_START, LEN, 30, "\xB8");
    show_verdict(chunk, "a bare jump", NC_START, LEN, 40, "\xFF\xE3");
    show_verdict(chunk, "a jump into an instruction", NC_START, LEN, 5, "\xEB\x1A");
}

/* A bundle a line: i where an instruction starts, a digit where an indirect transfer on that register does. */
static void show_marks(const uint8_t *chunk) {
    uint8_t marks[LEN];
    size_t i;
    uint32_t fault = nc_host_marks(NC_START, NC_LIMIT(BUNDLES), chunk, LEN, marks, LEN).fault;
    printf("marks: fault %u\n", (unsigned)fault);
    for (i = 0; fault == NC_OK && i < LEN; i++) {
        putchar(marks[i] == NC_UNMARKED ? '.' : marks[i] == NC_PLAIN ? 'i' : (char)('0' + (marks[i] - NC_MASKED(0))));
        if (i % NC_BUNDLE == NC_BUNDLE - 1) {
            putchar('\n');
        }
    }
    printf("marks by a short buffer: fault %u\n", (unsigned)nc_host_marks(NC_START, NC_LIMIT(BUNDLES), chunk, LEN, marks, LEN - 1).fault);
}

/* Where a length is 0 the pointer may be null: no code, no bytes, and no buffer. */
static void lend_nothing(const uint8_t *chunk, const uint8_t *mov) {
    static NcRegion own;
    uint32_t limit = NC_LIMIT(BUNDLES);
    printf("null: %u", (unsigned)nc_host_decode(NULL, 0).fault);
    printf(" %u", (unsigned)nc_host_vet(NC_START, limit, NULL, 0).fault);
    printf(" %u\n", (unsigned)nc_host_marks(NC_START, limit, chunk, LEN, NULL, 0).fault);
    printf("null: %u", (unsigned)nc_region_new(BUNDLES, 1, &own));
    printf(" %u", (unsigned)nc_region_create(&own, NC_START, NULL, 0, NULL, 0).fault);
    printf(" %u", (unsigned)nc_region_create(&own, NC_START, chunk, LEN, NULL, 0).fault);
    printf(" %u", (unsigned)nc_region_patch(&own, NC_START, mov, 5, NULL, 0).fault);
    printf(" %u", (unsigned)nc_region_patch(&own, NC_START, NULL, 0, NULL, 0).fault);
    printf(" %u", (unsigned)nc_region_begin_delete(&own, NC_START, NULL, 0).fault);
    printf(" %u", (unsigned)nc_region_end_delete(&own).fault);
    nc_region_free(&own);
    printf(" %u", (unsigned)nc_vetted_new(NC_START, limit, NULL, 0, &vetted).fault);
    printf(" %u", (unsigned)nc_vetted_new(NC_START, limit, chunk, LEN, &vetted).fault);
    printf(" %u\n", (unsigned)nc_region_load(&region, &vetted, NULL, 0).fault);
    nc_vetted_free(&vetted);
}

/* Which sizes a region may have, and how many seats. */
static void try_sizes(void) {
    static const uint32_t sizes[][2] = {{2, 1}, {2, 256}, {2, 0}, {2, 257}, {1, 0}, {1, 1}, {2097153, 256}, {0xFFFFFFFF, 1}};
    static NcRegion own;
    size_t i;
    printf("sizes:");
    for (i = 0; i < sizeof sizes / sizeof sizes[0]; i++) {
        printf(" %u", (unsigned)nc_region_new(sizes[i][0], sizes[i][1], &own));
        nc_region_free(&own);
    }
    printf("\n");
}

/* What a call returns, and the acts that it wrote. */
static void show_acts(const char *name, NcChange told) {
    size_t i;
    printf("%s: fault %u count %u\n", name, (unsigned)told.fault, (unsigned)told.count);
    for (i = 0; told.fault == NC_OK && i < told.count; i++) {
        printf("  %u %08x %08x\n", (unsigned)acts[i].kind, (unsigned)acts[i].at, (unsigned)acts[i].value);
    }
}

/* Patches of a chunk with their acts, and one for each reason why a patch of a live chunk isn't made. */
static void try_patches(const uint8_t *chunk) {
    static const uint8_t seven[] = {0xB8, 0x07, 0x00, 0x00, 0x00, 0xEB, 0x19}, back[] = {0xEB, 0xF9}, nop[] = {0x90}, ret[] = {0xC3};
    static const uint8_t other_mask[] = {0x83, 0xE0, 0xE0}, middle[] = {0xEB, 0xFA}, two[] = {0x90, 0x90}, inc[] = {0x40};
    static NcRegion own;
    printf("own region: %u\n", (unsigned)nc_region_new(BUNDLES, 1, &own));
    show_acts("create without a buffer", nc_region_create(&own, NC_START, chunk, LEN, NULL, 0));
    show_acts("mov eax, 7", nc_region_patch(&own, NC_START, seven, sizeof seven, acts, ROOM));
    show_acts("jmp 00010000", nc_region_patch(&own, NC_START + 5, back, sizeof back, acts, ROOM));
    show_acts("inc eax", nc_region_patch(&own, NC_START + 7, inc, sizeof inc, acts, ROOM));
    show_acts("across a bundle's end", nc_region_patch(&own, NC_START + 31, two, sizeof two, acts, ROOM));
    show_acts("outside", nc_region_patch(&own, NC_START + 64, nop, sizeof nop, acts, ROOM));
    show_acts("a return", nc_region_patch(&own, NC_START + 7, ret, sizeof ret, acts, ROOM));
    show_acts("a shorter one", nc_region_patch(&own, NC_START, nop, sizeof nop, acts, ROOM));
    show_acts("another mask", nc_region_patch(&own, NC_START + 32, other_mask, sizeof other_mask, acts, ROOM));
    show_acts("a jump into an instruction", nc_region_patch(&own, NC_START + 5, middle, sizeof middle, acts, ROOM));
    nc_region_free(&own);
}

/* A chunk that is created and deleted without a buffer, and the runs of both. */
static void try_runs(const uint8_t *chunk) {
    static NcRegion own;
    uint32_t base = NC_START + NC_BUNDLE;
    printf("own region: %u\n", (unsigned)nc_region_new(BUNDLES, 1, &own));
    show_acts("runs of no chunk", nc_region_creation_runs(&own, base, acts, ROOM));
    show_acts("create without a buffer", nc_region_create(&own, base, chunk, LEN, NULL, 0));
    show_acts("runs by a short buffer", nc_region_creation_runs(&own, base, acts, 5));
    show_acts("runs", nc_region_creation_runs(&own, base, acts, 6));
    show_acts("runs of no deletion", nc_region_deletion_runs(&own, acts, ROOM));
    show_acts("begin without a buffer", nc_region_begin_delete(&own, base, NULL, 0));
    show_acts("runs by a short buffer", nc_region_deletion_runs(&own, acts, 5));
    show_acts("runs", nc_region_deletion_runs(&own, acts, 6));
    nc_region_free(&own);
}

/* A region with a chunk that was deleted: the fault of each call. */
static void begin_deleted(NcRegion *own, const uint8_t *chunk) {
    printf(" %u", (unsigned)nc_region_new(BUNDLES, 2, own));
    printf(" %u", (unsigned)nc_region_create(own, NC_START, chunk, LEN, NULL, 0).fault);
    printf(" %u", (unsigned)nc_region_begin_delete(own, NC_START, NULL, 0).fault);
    printf(" %u", (unsigned)nc_region_end_delete(own).fault);
}

/* Seats that nobody was given hold nothing back. One that was given does, until its thread checks in or leaves. */
static void try_seats(const uint8_t *chunk) {
    static NcRegion own;
    static NcSeat one, two, three;
    printf("nobody inside:");
    begin_deleted(&own, chunk);
    printf(", freed %u\n", (unsigned)nc_region_reclaim(&own).count);
    nc_region_free(&own);
    printf("two inside:");
    begin_deleted(&own, chunk);
    printf(" %u", (unsigned)nc_region_seat(&own, &one));
    printf(" %u", (unsigned)nc_region_seat(&own, &two));
    printf(" %u", (unsigned)nc_region_seat(&own, &three));
    printf(", freed %u", (unsigned)nc_region_reclaim(&own).count);
    printf(", %u", (unsigned)nc_seat_check_in(&one));
    printf(", freed %u", (unsigned)nc_region_reclaim(&own).count);
    nc_seat_leave(&two);
    printf(", freed %u\n", (unsigned)nc_region_reclaim(&own).count);
    nc_seat_leave(&one);
    nc_seat_leave(&three);
    nc_region_free(&own);
}

int main(void) {
    static const uint8_t mov[] = {0xB8, 0x07, 0x00, 0x00, 0x00}, ret[] = {0xC3};
    uint8_t chunk[LEN];
    memset(chunk, 0x90, LEN);
    memcpy(chunk, "\xB8\x05\x00\x00\x00\xEB\x19", 7);
    memcpy(chunk + NC_BUNDLE, "\x83\xE3\xE0\xFF\xE3", 5);
    printf("version: %s\n", nc_host_version() == NC_VERSION ? "the header's" : "another");
    show_fault(NC_OK);
    show_fault(NC_OCCUPIED);
    show_fault(11);
    show_instructions(chunk);
    show_verdicts(chunk);
    show_marks(chunk);
    refuse();
    show_walk(NC_START, 6);
    begin();
    show("create", nc_region_create(&region, NC_START, chunk, LEN, acts, ROOM));
    show("create there again", nc_region_create(&region, NC_START + 32, chunk, LEN, acts, ROOM));
    show("create by a short buffer", nc_region_create(&region, NC_START + 64, chunk, LEN, acts, ROOM - 1));
    show("create a return", nc_region_create(&region, NC_START + 64, ret, 1, acts, ROOM));
    show("patch", nc_region_patch(&region, NC_START, mov, sizeof mov, acts, ROOM));
    show("patch by a short buffer", nc_region_patch(&region, NC_START, mov, sizeof mov, acts, 3 * sizeof mov - 1));
    show("patch by a return", nc_region_patch(&region, NC_START + 8, ret, sizeof ret, acts, ROOM));
    show("patch elsewhere", nc_region_patch(&region, NC_START + 96, mov, sizeof mov, acts, ROOM));
    show_place(NC_START + 1);
    show_place(NC_START + 35);
    show_place(NC_START - 1);
    show_walk(NC_START, 6);
    show_walk(NC_START, 4);
    show_walk(NC_START + 1, 6);
    show_walk(NC_LIMIT(BUNDLES), 6);
    show_chunks();
    delete_chunk();
    show_chunks();
    show("create in a retired span", nc_region_create(&region, NC_START, chunk, LEN, acts, ROOM));
    reclaim();
    printf("check-in: %u\n", (unsigned)nc_seat_check_in(&seat));
    reclaim();
    show("create again", nc_region_create(&region, NC_START, chunk, LEN, acts, ROOM));
    show_chunks();
    load(NC_START + 96, chunk);
    load(NC_START + 128, chunk);
    load(NC_START + 128, chunk);
    nc_vetted_free(&vetted);
    printf("free: %08x %08x %08x\n", (unsigned)free_span(32), (unsigned)free_span(64), (unsigned)free_span(96));
    lend_nothing(chunk, mov);
    try_sizes();
    try_seats(chunk);
    try_patches(chunk);
    memset(chunk + 5, 0x90, LEN - 5);
    try_runs(chunk);
    printf("generation: %u\n", (unsigned)nc_region_generation(&region).stamp);
    printf("last seats: %u", (unsigned)nc_region_seat(&region, &other));
    nc_seat_leave(&other);
    printf(" %u\n", (unsigned)nc_region_seat(&region, &other));
    nc_region_free(&region);
    nc_region_free(&region);
    printf("after the region: %u\n", (unsigned)nc_seat_check_in(&seat));
    nc_seat_leave(&seat);
    nc_seat_leave(&seat);
    nc_seat_leave(&other);
    return 0;
}
