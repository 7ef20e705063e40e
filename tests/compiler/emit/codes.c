/* The calls of the host for code, as a model of an area, and what nc_code makes of them. */
#include "judge.h"
#include "nc_code.h"

#include <nc_run.h>
#include <stdlib.h>
#include <string.h>

enum { BEGIN = 0x20000, BUNDLES = 256, CHUNKS = 64, REFUSED_AT = 0x20004, FAULT = 7, OCCUPIED = 40, INVALID = 22 };
enum { FREE, LIVE, HELD };

static uint8_t area[BUNDLES], begins[BUNDLES];
static uint32_t bundles, asked, refusing, stolen;

static long long refused(int fault, uint32_t at) {
    return (long long)((uint64_t)at << 32 | -(uint32_t)(256 + fault));
}

int nc_hole(unsigned from, struct nc_hole *to) {
    uint32_t k = from <= BEGIN ? 0 : (from - BEGIN + 31) / 32, looks, len = 0;
    *to = (struct nc_hole){0, 0, 0};
    asked++;
    k = k < bundles ? k : bundles;
    for (looks = 0; k < bundles && area[k] != FREE && looks < 16; looks++, k++) to->held += area[k] == HELD ? 32 : 0;
    while (k + len < bundles && area[k + len] == FREE) len++;
    *to = (struct nc_hole){bundles == 0 ? 0 : BEGIN + 32 * k, 32 * len, to->held};
    return 0;
}

long long nc_create(unsigned at, const void *from, unsigned len) {
    uint32_t k = (at - BEGIN) / 32, n;
    (void)from;
    if (at < BEGIN || at % 32 != 0 || len % 32 != 0 || len == 0 || k + len / 32 > bundles) return -INVALID & 0xFFFFFFFFll;
    if (refusing) return refused(FAULT, REFUSED_AT);
    if (stolen != 0) {
        stolen--;
        area[k] = LIVE;
        begins[k] = 1;
    }
    for (n = 0; n < len / 32; n++) {
        if (area[k + n] != FREE) return refused(OCCUPIED, 0);
    }
    memset(area + k, LIVE, len / 32);
    begins[k] = 1;
    return 0;
}

long long nc_patch(unsigned at, const void *from, unsigned len) {
    (void)from;
    (void)len;
    return at < BEGIN ? refused(17, 0) : 0;
}

long long nc_delete(unsigned at) {
    uint32_t k = (at - BEGIN) / 32;
    if (at < BEGIN || k >= bundles || !begins[k]) return refused(41, 0);
    begins[k] = 0;
    do area[k++] = HELD;
    while (k < bundles && area[k] == LIVE && !begins[k]);
    return 0;
}

static void empty(uint32_t count) {
    memset(area, FREE, sizeof area);
    memset(begins, 0, sizeof begins);
    bundles = count;
    (void)nc_code_span(BUNDLES * 64); /* nothing is kept of the last hole */
    asked = 0;
}

static void release(void) {
    uint32_t k;
    for (k = 0; k < bundles; k++) area[k] = area[k] == HELD ? FREE : area[k];
}

static void *put(uint32_t len) {
    static const uint8_t bytes[BUNDLES * 32];
    uint32_t span = nc_code_span(len);
    return span == 0 ? NULL : nc_code_put(span, bytes, len);
}

/* The longest hole. */
static uint32_t longest(void) {
    uint32_t k, len = 0, most = 0;
    for (k = 0; k < bundles; k++) {
        len = area[k] == FREE ? len + 32 : 0;
        most = len > most ? len : most;
    }
    return most;
}

static void try_order(void) {
    void *first, *second;
    uint32_t k;
    empty(0);
    check(put(32) == NULL && nc_code_why.kind == NC_CODE_FULL, "no live code");
    empty(128);
    first = put(64);
    second = put(32);
    for (k = 0; k < 60; k++) check(put(64) != NULL, "room for chunks");
    check(asked == 1, "a hole is asked for once");
    nc_code_free(first);
    check(nc_code_why.kind == NC_CODE_MADE, "a chunk is deleted at once");
    check(put(5 * 32) != NULL, "the rest of the area");
    check(put(32) == NULL && nc_code_why.kind == NC_CODE_HELD && nc_code_why.held == 64, "room that is held");
    release();
    check(put(64) == first, "it begins anew where it is free");
    check(put(32) == NULL && nc_code_why.kind == NC_CODE_FULL, "a full area");
    nc_code_free(second);
    nc_code_free(second);
    check(nc_code_why.kind == NC_CODE_REFUSED && nc_code_why.fault == 41, "a chunk that isn't there");
    nc_code_free(NULL);
}

static void try_refusals(void) {
    NceCode code;
    uint8_t copy[4] = {0};
    void *made;
    empty(16);
    nce_begin(&code);
    check(nc_code_new(&code, NULL) == NULL && nc_code_why.kind == NC_CODE_NO_LAYOUT, "code without a layout");
    nce_raw(&code, "\x40\x41", 2);
    refusing = 1;
    check(nc_code_new(&code, NULL) == NULL && nc_code_why.kind == NC_CODE_REFUSED, "code that is refused");
    check(nc_code_why.fault == FAULT && nc_code_why.at == REFUSED_AT && nc_code_why.error == 0, "its fault and where it is");
    refusing = 0;
    made = nc_code_new(&code, NULL);
    check(made == (void *)(uintptr_t)BEGIN, "its room is there for the next one");
    stolen = 2;
    check(nc_code_new(&code, NULL) != NULL && stolen == 0, "room that somebody else has taken meanwhile");
    refuse_growth(1);
    check(nc_code_new(&code, NULL) == NULL && nc_code_why.kind == NC_CODE_NO_MEMORY, "no memory for the bytes");
    refuse_growth(0);
    check(nc_code_put(8, copy, 32) == NULL && nc_code_why.error == INVALID && nc_code_why.fault == 0, "an address outside the area");
    check(nc_code_patch(BEGIN, "\x42", 1, copy) && copy[0] == 0x42, "a patch, and its copy");
    check(!nc_code_patch(0, "\x43", 1, copy) && copy[0] == 0x42 && nc_code_why.fault == 17, "a patch that is refused");
    nce_end(&code);
}

/* Whatever is created and deleted, there is no room only if no hole is long enough. */
static void try_at_random(void) {
    void *chunks[CHUNKS] = {NULL};
    uint32_t k, round, len;
    empty(BUNDLES);
    for (round = 0; round < 200000; round++) {
        k = (uint32_t)rand() % CHUNKS;
        len = 32 * (1 + (uint32_t)rand() % (rand() % 8 == 0 ? 64 : 8));
        if (chunks[k] != NULL) {
            nc_code_free(chunks[k]);
            check(nc_code_why.kind == NC_CODE_MADE, "a deletion");
            chunks[k] = NULL;
        } else {
            chunks[k] = put(len);
            check(chunks[k] != NULL || longest() < len, "room in a hole");
            check(chunks[k] != NULL || nc_code_why.kind == NC_CODE_HELD || nc_code_why.kind == NC_CODE_FULL, "why there is none");
        }
        if (rand() % 4 == 0) release();
    }
}

void try_codes(void) {
    try_order();
    try_refusals();
    try_at_random();
}
