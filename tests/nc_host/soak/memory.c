/*
 * A thread that fetches each byte by itself may read any byte that stood at its place since the last serialization, beside any such byte of
 * the next place. So each place keeps these bytes, and after each act every mixture of them is read at the marked places: it has to begin with
 * an instruction that lies in its bundle, is safe there, and leads only to marked places and trampolines.
 */
#include "memory.h"

#include <stdbool.h>

#define SEEN 16 /* bytes of one place: between two serializations the writer puts at most ten different ones */

typedef struct Place {
    uint8_t byte, mark;
    uint8_t count;      /* of the bytes seen since the last serialization */
    uint8_t seen[SEEN]; /* these, each of them once */
} Place;

Readings readings;
static Place places[BUNDLES * NC_BUNDLE];

static Place *place_at(uint32_t at) {
    return &places[at - NC_START];
}

static bool is_span(uint32_t at, uint32_t length) {
    return at >= NC_START && at <= LIMIT && length <= LIMIT - at;
}

uint8_t memory_byte(uint32_t at) {
    return place_at(at)->byte;
}

uint8_t memory_mark(uint32_t at) {
    return place_at(at)->mark;
}

/* ---- What is read */

/* A thread may be at the address, if it has just masked a register or, by 0, none. */
static bool may_be_at(uint32_t at, uint32_t masked) {
    if (at < NC_START || at >= LIMIT) {
        return at < NC_START && at % NC_BUNDLE == 0;
    }
    uint8_t found = memory_mark(at);
    return found == NC_PLAIN || (found != NC_UNMARKED && found == masked);
}

/* The instruction may be executed at a marked place. */
static bool is_right(uint32_t at, const NcInstruction *in) {
    uint32_t next = at + in->length, target = next + (uint32_t)in->rel;
    switch (in->flow) {
    case NC_FLOW_NEXT: return may_be_at(next, in->masks);
    case NC_FLOW_BRANCH: return may_be_at(next, 0) && may_be_at(target, 0);
    case NC_FLOW_JUMP:
    case NC_FLOW_CALL: return may_be_at(target, 0);
    case NC_FLOW_INDIRECT_JUMP:
    case NC_FLOW_INDIRECT_CALL: return memory_mark(at) == NC_MASKED(in->reg);
    default: return in->flow == NC_FLOW_STOP;
    }
}

/* Reads on from an address in every way, behind these bytes, up to the end of its bundle. */
static void read_on(uint32_t at, uint8_t *bytes, uint32_t length) {
    const Place *next = place_at(at + length);
    for (uint8_t i = 0; i < next->count; i++) {
        bytes[length] = next->seen[i];
        NcInstruction in = nc_host_decode(bytes, length + 1);
        if (in.fault == NC_CUT_SHORT && (at + length + 1) % NC_BUNDLE != 0) {
            read_on(at, bytes, length + 1);
        } else {
            readings.readings++;
            readings.wrong += in.fault != NC_OK || !is_right(at, &in);
        }
    }
}

static void read_bundle(uint32_t base) {
    uint8_t bytes[NC_BUNDLE];
    for (uint32_t at = base; at < base + NC_BUNDLE; at++) {
        if (memory_mark(at) != NC_UNMARKED) {
            read_on(at, bytes, 0);
        }
    }
}

static void read_all(void) {
    for (uint32_t base = NC_START; base < LIMIT; base += NC_BUNDLE) {
        read_bundle(base);
    }
}

/* ---- What is made */

static void put(uint32_t at, uint8_t byte) {
    Place *place = place_at(at);
    uint8_t i = 0;
    place->byte = byte;
    while (i < place->count && place->seen[i] != byte) {
        i++;
    }
    if (i < SEEN) {
        place->seen[i] = byte;
        place->count = i < place->count ? place->count : i + 1;
    } else {
        readings.wrong++; /* more bytes than there is room for */
    }
    read_bundle(at - at % NC_BUNDLE);
}

/* From now on only the present bytes are read. */
static void serialize(void) {
    for (size_t i = 0; i < BUNDLES * NC_BUNDLE; i++) {
        places[i].count = 1;
        places[i].seen[0] = places[i].byte;
    }
    readings.serializations++;
}

static void mark(uint32_t base, uint32_t length, const uint8_t *marks) {
    for (uint32_t i = 0; i < length; i++) {
        place_at(base + i)->mark = marks[i % NC_BUNDLE];
    }
    read_all();
}

static void make(const NcAct *act, const uint8_t *marks) {
    if (act->kind == NC_PUT && is_span(act->at, 1)) {
        put(act->at, (uint8_t)act->value);
    } else if (act->kind == NC_MARK && is_span(act->at, act->value)) {
        mark(act->at, act->value, marks);
    } else if (act->kind == NC_SERIALIZE) {
        serialize();
    } else if (act->kind != NC_BUMP) {
        readings.wrong++;
    }
    readings.acts++;
}

void memory_make(const NcAct *acts, size_t count, const uint8_t *marks) {
    for (size_t i = 0; i < count; i++) {
        make(&acts[i], marks);
    }
}

void memory_unmark(uint32_t base, uint32_t length) {
    static const uint8_t unused[NC_BUNDLE] = {NC_PLAIN};
    mark(base, length, unused);
}

void memory_begin(void) {
    for (size_t i = 0; i < BUNDLES * NC_BUNDLE; i++) {
        places[i].byte = NC_STOP;
    }
    serialize();
    memory_unmark(NC_START, BUNDLES * NC_BUNDLE);
}
