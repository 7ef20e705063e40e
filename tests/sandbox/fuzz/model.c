/* A model of the chunks of live code. */
#include "model.h"

#include <string.h>

static const ModelAnswer MADE = {NCS_OK, 0, 0};

static ModelAnswer refused(uint32_t kind, uint32_t fault, uint32_t at) {
    ModelAnswer answer = {kind, fault, at};
    return answer;
}

void model_begin(Model *m) {
    memset(m, 0, sizeof *m);
    memset(m->text, NC_STOP, sizeof m->text);
}

uint32_t model_code(uint8_t *code, uint32_t kind, uint32_t bundle, uint32_t wanted, uint32_t number) {
    uint32_t k;
    switch (kind) {
    case MODEL_CALLS: codes_call(code, NC_START + NC_BUNDLE * bundle); return 2;
    case MODEL_WAITS: codes_wait(code, SHARED); return 1;
    case MODEL_LOADS: codes_load(code, 0); return 1;
    case MODEL_BEYOND: codes_load(code, ROOM); return 1;
    case MODEL_JUMPS: codes_jump(code, LIMIT); return 1;
    default:
        for (k = 0; k < wanted; k++) {
            codes_number(code + NC_BUNDLE * k, number + k);
        }
        return wanted;
    }
}

static int is_free(const Model *m, uint32_t bundle, uint32_t count) {
    uint32_t k = 0;
    while (k < count && m->bundles[bundle + k].state == MODEL_FREE) {
        k++;
    }
    return k == count;
}

ModelAnswer model_create(Model *m, uint32_t bundle, uint32_t kind, const uint8_t *code, uint32_t count, uint32_t number) {
    uint32_t k;
    if (bundle + count > BUNDLES) {
        return refused(NCS_BAD_CODE, NC_OUT_OF_RANGE, 0);
    }
    if (!is_free(m, bundle, count)) {
        return refused(NCS_BAD_CHANGE, NC_OCCUPIED, 0);
    }
    for (k = 0; k < count; k++) {
        ModelBundle made = {MODEL_LIVE, (uint8_t)kind, (uint8_t)k, (uint8_t)count, number + k, 0};
        m->bundles[bundle + k] = made;
    }
    memcpy(m->text + NC_BUNDLE * bundle, code, NC_BUNDLE * count);
    return MADE;
}

/* A load has an instruction as long as that of a number at its beginning. Other kinds have shorter or longer ones there. */
ModelAnswer model_patch_number(Model *m, uint32_t bundle, uint32_t number) {
    ModelBundle *b = m->bundles + (bundle < BUNDLES ? bundle : 0);
    if (bundle >= BUNDLES || b->state != MODEL_LIVE) {
        return refused(NCS_BAD_CHANGE, NC_PATCH_NOT_LIVE, 0);
    }
    if (b->kind != MODEL_NUMBER && b->kind != MODEL_LOADS && b->kind != MODEL_BEYOND) {
        return refused(NCS_BAD_CHANGE, NC_PATCH_BOUNDARIES, 0);
    }
    codes_mov(m->text + NC_BUNDLE * bundle, number);
    b->kind = MODEL_NUMBER;
    b->number = number;
    return MADE;
}

/* They are refused for the code that a number's bundle has. */
const ModelBad MODEL_BAD_PATCH[MODEL_BAD_PATCHES] = {
    {NC_PATCH_BAD_SPAN, 0, 0, {0}},
    {NC_PATCH_BAD_SPAN, 31, 2, {0x90, 0x90}},
    {NC_PATCH_NOT_PERMITTED, 11, 1, {0xC3}},
    {NC_PATCH_BOUNDARIES, 0, 2, {0x90, 0x90}},
    {NC_PATCH_BOUNDARIES, 1, 1, {0x90}},
    {NC_PATCH_PAIR_TOUCHED, 6, 3, {0x83, 0xE0, 0xE0}},
    {NC_PATCH_BAD_TARGET, 0, 5, {0xE9, 0xFC, 0xFF, 0xFF, 0xFF}},
};

/* Each is the beginning of a bundle of nops; where its fault is, or 0 if that has no address. */
const ModelBad MODEL_BAD_CODE[MODEL_BAD_CODES] = {
    {NC_NOT_PERMITTED, 1, 2, {0x90, 0xC3}},
    {NC_NOT_PERMITTED, 0, 2, {0xCD, 0x80}},
    {NC_BARE, 1, 3, {0x90, 0xFF, 0xE0}},
    {NC_BAD_TARGET, 2, 4, {0x90, 0x90, 0xEB, 0xFF}},
    {NC_CROSSES, 31, 0, {0}}, /* a number, of which one byte is in its bundle */
};

ModelAnswer model_bad_patch(const Model *m, uint32_t bundle, uint32_t which) {
    const ModelBad *bad = &MODEL_BAD_PATCH[which];
    int is_live = bundle < BUNDLES && m->bundles[bundle].state == MODEL_LIVE;
    return refused(NCS_BAD_CHANGE, bad->fault != NC_PATCH_BAD_SPAN && !is_live ? NC_PATCH_NOT_LIVE : bad->fault, 0);
}

ModelAnswer model_delete(Model *m, uint32_t bundle) {
    uint32_t k, count;
    if (bundle >= BUNDLES || m->bundles[bundle].state != MODEL_LIVE || m->bundles[bundle].part != 0) {
        return refused(NCS_BAD_CHANGE, NC_NO_CHUNK, 0);
    }
    count = m->bundles[bundle].count;
    m->deletions++;
    for (k = 0; k < count; k++) {
        m->bundles[bundle + k].state = MODEL_RETIRED;
        m->bundles[bundle + k].deletion = m->deletions;
    }
    memset(m->text + NC_BUNDLE * bundle, NC_STOP, NC_BUNDLE * count);
    return MADE;
}

uint32_t model_reclaim(Model *m, unsigned held_from) {
    uint32_t k, freed = 0;
    for (k = 0; k < BUNDLES; k++) {
        ModelBundle *b = &m->bundles[k];
        if (b->state == MODEL_RETIRED && b->deletion < held_from) {
            freed += b->part == 0;
            b->state = MODEL_FREE;
        }
    }
    return freed;
}

int model_is_list_of(const Model *m, NcRegion *region) {
    size_t index = 0;
    uint32_t k;
    for (k = 0; k < BUNDLES; k++) {
        const ModelBundle *b = &m->bundles[k];
        NcChunk found;
        if (b->state == MODEL_FREE || b->part != 0) {
            continue;
        }
        found = nc_region_chunk(region, index++);
        if (found.fault != NC_OK || found.base != NC_START + NC_BUNDLE * k || found.length != NC_BUNDLE * (uint32_t)b->count ||
            found.retired != (b->state == MODEL_RETIRED)) {
            return 0;
        }
    }
    return nc_region_chunk(region, index).fault == NC_NO_CHUNK;
}
