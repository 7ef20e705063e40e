/* Programs that are created by the library and run: in a box, or with NATIVE as 32-bit code of Linux. boxed FIRST COUNT STEPS */
#include "alone.h"
#include "flats.h"
#include "nc_code.h"
#include "programs.h"

#include <nc_run.h>
#include <stdlib.h>
#include <string.h>

#define AREA (512u << 10)

static Program program;
static Made made[CHUNKS];
static State state, wanted;
static uint32_t chunks, patches;

#ifdef NATIVE
/* The four calls: code is memory here. */
static uint32_t area, used;

int nc_hole(unsigned from, struct nc_hole *to) {
    uint32_t at = from > area + used ? from : area + used;
    *to = (struct nc_hole){at, from < area + AREA ? area + AREA - at : 0, 0};
    return 0;
}

long long nc_create(unsigned at, const void *from, unsigned len) {
    memcpy((void *)at, from, len);
    return 0;
}

long long nc_patch(unsigned at, const void *from, unsigned len) {
    return nc_create(at, from, len);
}

long long nc_delete(unsigned at) {
    (void)at;
    return 0;
}
#endif

/* Prints what went wrong, with nc_code's reason. */
static int wrong(const char *what, uint32_t seed) {
    say("WRONG: ");
    say(what);
    say(", program %: kind %, fault %, error %, at %\n", seed, (uint32_t)nc_code_why.kind, (uint32_t)nc_code_why.fault,
        (uint32_t)nc_code_why.error, nc_code_why.at);
    return 0;
}

/* Creates both chunks where there is room. */
static int create(uint32_t *bases) {
    static uint8_t bytes[AREA];
    uint32_t k, len[CHUNKS] = {0}, span;
    for (k = 0; k < CHUNKS; k++) {
        nce_begin(&made[k].code);
        made[k].state = (uint32_t)(uintptr_t)&state;
        program_give(&program, k, made + k, bases);
        len[k] = nce_layout(&made[k].code);
        nce_end(&made[k].code);
        if (len[k] == 0) return 0;
    }
    span = nc_code_span(len[0] + len[1]);
    if (span == 0) return 0;
    bases[0] = span;
    bases[1] = span + len[0];
    for (k = 0; k < CHUNKS; k++) {
        nce_begin(&made[k].code);
        program_give(&program, k, made + k, bases);
        if (nce_layout(&made[k].code) > AREA || !nce_write(&made[k].code, bases[k], bytes)) return 0;
        if (made[k].code.size != len[k] || nc_code_put(bases[k], bytes, made[k].code.size) == NULL) return 0;
        program_tables(&program, k, made + k, &state, bases[k]);
        chunks++;
    }
    return 1;
}

/* Runs the program, and compares. */
static int agrees(uint32_t base) {
    void (*function)(void) = (void (*)(void))(uintptr_t)nce_label_address(&made[0].code, made[0].begin, base);
    State begun = state;
    state_draw(&state);
    memcpy(state.table, begun.table, sizeof state.table);
    wanted = state;
    program_interpret(&program, &wanted);
    enter(function);
    wanted.stack = state.stack;
    return memcmp(&state, &wanted, sizeof state) == 0;
}

/* Has the patched jumps lead to other labels. */
static int patch(uint32_t base) {
    uint32_t k;
    for (k = 0; k < program.patches; k++) {
        uint32_t label = program.labels[0] + draw(program.labels[1] - program.labels[0]), len;
        uint32_t at = base + nce_place(&made[0].code, made[0].patched[k]);
        uint8_t bytes[6];
        program.to[k] = label;
        len = nce_transfer(bytes, NCE_ALWAYS, at, base + nce_label_place(&made[0].code, made[0].labels[label]));
        if (!nc_code_patch(at, bytes, len, NULL)) return 0;
        patches++;
    }
    return 1;
}

static int try_program(uint32_t seed, uint32_t steps) {
    uint32_t bases[CHUNKS] = {0}, k;
    forget();
    draw_from(seed);
    program_draw(&program, steps);
    if (!create(bases)) return wrong("a chunk isn't made", seed);
    for (k = 0; k < 6; k++) {
        if (!agrees(bases[0])) return wrong("another result", seed);
        if (!patch(bases[0])) return wrong("a patch isn't made", seed);
    }
    for (k = 0; k < CHUNKS; k++) {
        nc_code_free((void *)(uintptr_t)bases[k]);
        if (nc_code_why.kind != NC_CODE_MADE) return wrong("a chunk isn't deleted", seed);
    }
    return 1;
}

int run(int count, const uint32_t *words) {
    uint32_t seed;
#ifdef NATIVE
    area = (uint32_t)executable(AREA);
#endif
    if (count != 3) return 2;
    if (flat_trial() != NULL) return !wrong(flat_trial(), 0);
    for (seed = words[0]; seed < words[0] + words[1]; seed++) {
        if (!try_program(seed, words[2])) return 1;
    }
    say("% programs, % chunks, % patches: all as they should be\n", words[1], chunks, patches);
    return 0;
}
