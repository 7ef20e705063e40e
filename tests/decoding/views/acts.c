/* The library changes a chunk of one bundle. The acts that put a byte of the instruction, or serialize, are kept. */
#include "acts.h"

#include "nc_host.h"

#include <stdio.h>
#include <stdlib.h>
#include <string.h>

#define ROOM (NC_BUNDLE + 2u)

static const uint8_t register_numbers[REGISTERS] = {0, 1, 2, 3, 5, 6, 7};

uint8_t version_byte(uint64_t version, unsigned place) {
    return (uint8_t)(place == 0 ? 0xB8u + register_numbers[version % REGISTERS] : version % VERSIONS * 4 + place);
}

static void must(int good, const char *what) {
    if (!good) {
        fprintf(stderr, "views: the library's %s isn't as expected\n", what);
        exit(4);
    }
}

static void lay(uint8_t *at, uint64_t version) {
    unsigned place;
    for (place = 0; place < LENGTH; place++) {
        at[place] = version_byte(version, place);
    }
}

static void add(Acts *acts, int kind, unsigned number) {
    must(acts->count < MOST_ACTS, "number of acts");
    acts->all[acts->count].kind = kind;
    acts->all[acts->count++].number = number;
}

static unsigned serializations_in(const Acts *acts) {
    unsigned count = 0;
    size_t i;
    for (i = 0; i < acts->count; i++) {
        count += acts->all[i].kind == SERIALIZE;
    }
    return count;
}

/* Adds the serializations that a call wrote, and its puts to the instruction at this address. The instruction gets version 1. */
static void keep(Acts *acts, NcChange change, const NcAct *written, uint32_t at) {
    size_t i;
    must(change.fault == NC_OK, "verdict");
    for (i = 0; i < change.count; i++) {
        uint32_t place = written[i].at - at;
        if (written[i].kind == NC_SERIALIZE) {
            add(acts, SERIALIZE, serializations_in(acts));
        } else if (written[i].kind == NC_PUT && place < LENGTH) {
            int is_stop = written[i].value == NC_STOP;
            must(is_stop || written[i].value == version_byte(1, place), "byte");
            add(acts, is_stop ? PUT_STOP : PUT_NEW, place);
        }
    }
}

/* A region with one chunk. The chunk is a bundle of nops, with version 0 of the instruction among them. */
static NcRegion new_region(uint8_t code[NC_BUNDLE], unsigned offset) {
    NcRegion region = {0};
    NcAct written[ROOM];
    must(nc_region_new(NC_MIN_BUNDLES, 1, &region) == NC_OK, "region");
    memset(code, 0x90, NC_BUNDLE);
    lay(code + offset, 0);
    must(nc_region_create(&region, NC_START, code, NC_BUNDLE, written, ROOM).fault == NC_OK, "creation");
    return region;
}

/* Adds the serialization between two changes. */
static Acts ended(Acts acts, NcRegion *region) {
    nc_region_free(region);
    must(serializations_in(&acts) == SERIALIZATIONS - 1, "number of serializations");
    add(&acts, SERIALIZE, SERIALIZATIONS - 1);
    return acts;
}

Acts acts_of_patch(unsigned offset) {
    uint8_t code[NC_BUNDLE], bytes[LENGTH];
    NcAct written[3 * LENGTH];
    NcRegion region = new_region(code, offset);
    Acts acts = {.count = 0};
    lay(bytes, 1);
    keep(&acts, nc_region_patch(&region, NC_START + offset, bytes, LENGTH, written, 3 * LENGTH), written, NC_START + offset);
    return ended(acts, &region);
}

Acts acts_of_replacement(void) {
    uint8_t code[NC_BUNDLE];
    NcAct written[ROOM];
    NcRegion region = new_region(code, 0);
    Acts acts = {.count = 0};
    keep(&acts, nc_region_begin_delete(&region, NC_START, written, ROOM), written, NC_START);
    must(nc_region_end_delete(&region).fault == NC_OK && nc_region_reclaim(&region).count == 1, "reclaim");
    lay(code, 1);
    keep(&acts, nc_region_create(&region, NC_START, code, NC_BUNDLE, written, ROOM), written, NC_START);
    return ended(acts, &region);
}
