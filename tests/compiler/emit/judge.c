/* Tests of the library for generators, as code for this system: nc_host judges what it makes. judge FIRST COUNT STEPS */
#include "judge.h"
#include "nc_flat.h"
#include "nc_host.h"
#include "programs.h"

#include <stdio.h>
#include <stdlib.h>
#include <string.h>

#define STATE 0x05000000u
static const uint32_t bases[CHUNKS] = {0x00020000, 0x00120000};
static Program program;
static Made made[CHUNKS];
static State state;

void check(int is_so, const char *what) {
    if (!is_so) {
        printf("WRONG: %s\n", what);
        exit(1);
    }
}

int vetted(uint32_t base, const uint8_t *code, uint32_t len) {
    return nc_host_vet(base, 0x04010000, code, len).fault == NC_OK;
}

/* ---- Memory */

static uint32_t refused, grown;
void *__real_malloc(size_t size);
void *__real_calloc(size_t count, size_t size);
void *__real_realloc(void *old, size_t size);
void *__wrap_malloc(size_t size);
void *__wrap_calloc(size_t count, size_t size);
void *__wrap_realloc(void *old, size_t size);

void refuse_growth(uint32_t which) {
    refused = which;
    grown = 0;
}

int was_refused(void) {
    return refused != 0 && grown >= refused;
}

static int is_refused(void) {
    return ++grown == refused;
}

void *__wrap_malloc(size_t size) {
    return is_refused() ? NULL : __real_malloc(size);
}
void *__wrap_calloc(size_t count, size_t size) {
    return is_refused() ? NULL : __real_calloc(count, size);
}
void *__wrap_realloc(void *old, size_t size) {
    return is_refused() ? NULL : __real_realloc(old, size);
}

/* ---- Programs */

/* What isn't for nc_host to say: entries, the places of patched jumps, and that a layout is the same again. */
static void check_places(uint32_t chunk, const uint8_t *bytes) {
    const Made *m = made + chunk;
    uint32_t k, at;
    program_tables(&program, chunk, m, &state, bases[chunk]);
    for (k = program.labels[chunk]; k < program.labels[chunk + 1]; k++) {
        at = nce_label_place(&m->code, m->labels[k]);
        check(at < m->code.size, "a label's place");
        check(state.table[k] == 0 || (at % NCE_BUNDLE == 0 && state.table[k] == bases[chunk] + at), "an entry is a bundle start");
        check(bytes[at] == 0xFF && bytes[at + 1] == 0x0D, "what a label is before");
    }
    for (k = 0; chunk == 0 && k < program.patches; k++) check(bytes[nce_place(&m->code, m->patched[k])] == 0xE9, "a patched jump's place");
}

/* Whether the chunk is made; each chunk that is made has to be accepted. */
static int is_made(uint32_t chunk) {
    NceCode *c = &made[chunk].code;
    uint8_t *bytes;
    uint32_t size;
    nce_begin(c);
    made[chunk].state = STATE;
    program_give(&program, chunk, made + chunk, bases);
    size = nce_layout(c);
    if (size != 0) {
        bytes = __real_malloc(size);
        check(bytes != NULL && nce_write(c, bases[chunk], bytes), "what is laid out is written");
        check(vetted(bases[chunk], bytes, size), "a chunk is accepted");
        check(nce_layout(c) == size, "a layout again");
        check_places(chunk, bytes);
        free(bytes);
    }
    check(size != 0 || (c->fault == NCE_NO_MEMORY && was_refused()), "a program is given without a fault");
    nce_end(c);
    return size != 0;
}

/* Refuses each allocation in turn. */
static void try_without_memory(uint32_t seed) {
    uint32_t which;
    for (which = 1; which < 100; which++) {
        int is_there;
        draw_from(seed);
        program_draw(&program, MOST_STEPS);
        refuse_growth(which);
        is_there = is_made(0);
        check(is_there || was_refused(), "no fault without a reason");
        if (!was_refused()) break;
    }
    check(which > 10 && which < 100, "growths are refused");
    refuse_growth(0);
}

/* ---- Lengths */

static uint64_t try_lengths(void) {
    static const uint8_t prefixes[] = {0, 0x66, 0xF0, 0xF2, 0xF3}, sibs[] = {0x00, 0x05, 0x24, 0x25, 0x65, 0x8D, 0xE4, 0xFF};
    uint64_t tried = 0;
    uint32_t prefix, op, modrm, sib, len;
    for (prefix = 0; prefix < 5; prefix++) {
        for (op = 0; op < 512; op++) {
            for (modrm = 0; modrm < 256; modrm++) {
                for (sib = 0; sib < sizeof sibs; sib++, tried++) {
                    uint8_t bytes[16] = {0};
                    NcInstruction one;
                    uint32_t at = 0, is_raw;
                    if (prefix != 0) bytes[at++] = prefixes[prefix];
                    if (op >= 256) bytes[at++] = 0x0F;
                    bytes[at++] = (uint8_t)op;
                    bytes[at++] = (uint8_t)modrm;
                    bytes[at] = sibs[sib];
                    one = nc_host_decode(bytes, sizeof bytes);
                    if (one.fault != NC_OK) continue;
                    is_raw = one.flow == NC_FLOW_NEXT || one.flow == NC_FLOW_STOP;
                    check(nce_length(bytes, 16) == (is_raw ? (int)one.length : -1), "the length of a permitted instruction");
                    for (len = 0; len < one.length; len++) check(!is_raw || nce_length(bytes, len) == 0, "the length of a part of it");
                }
            }
        }
    }
    return tried;
}

/* Random bytes as flat code: whatever is read of them and laid out is accepted, or is of instructions that nc_host doesn't permit. */
static void try_flat_bytes(uint32_t seed) {
    uint8_t bytes[64];
    NcFlat f;
    uint32_t k, len = seed % 64;
    draw_from(seed);
    for (k = 0; k < len; k++) bytes[k] = (uint8_t)draw(256);
    check(nc_flat_begin(&f, len), "memory for flat code");
    for (k = 0; k < 3; k++) nc_flat_foreign(&f, draw(80));
    nc_flat_entry(&f, draw(80));
    if (nc_flat_read(&f, bytes)) (void)nce_layout(&f.code);
    for (k = 0; k < 80; k++) (void)nc_flat_place(&f, k);
    nc_flat_end(&f);
}

int main(int argc, char **argv) {
    uint32_t first = argc > 1 ? (uint32_t)atoi(argv[1]) : 1, count = argc > 2 ? (uint32_t)atoi(argv[2]) : 100, k, chunk;
    uint32_t steps = argc > 3 ? (uint32_t)atoi(argv[3]) : 100;
    uint64_t tried;
    try_edges();
    try_codes();
    for (k = first; k < first + count; k++) {
        draw_from(k);
        program_draw(&program, steps);
        for (chunk = 0; chunk < CHUNKS; chunk++) check(is_made(chunk), "a program is made");
        try_flat_bytes(k);
    }
    try_without_memory(first);
    tried = try_lengths();
    printf("%llu forms, %u programs: all as they should be\n", (unsigned long long)tried, count);
    return 0;
}
