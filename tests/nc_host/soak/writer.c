/* The model is the chunks and the bytes that the region should have: its bytes come from the code that was drawn, those of the memory from
   acts. */
#include "writer.h"

#include "memory.h"

#include <stdbool.h>
#include <string.h>

#define LONGEST (3 * NC_BUNDLE) /* chunk */
#define ROOM (LONGEST + 2)
#define SINGLES_LENGTH 10u

/* Where the instructions of a bundle stand: a number that is put into EAX, a branch over the next two, another number, a jump, ten single
   bytes, and a masked jump. */
enum { NUMBER = 0, BRANCH = 5, JUMP = 12, SINGLES = 17, MASK = 27 };

static const uint8_t bundle[NC_BUNDLE] = {
    0xB8, 0,    0,    0,    0,    0x74, 0x0A, 0xB8, 1,    0,    0,    0,    0xE9, 0,    0,    0,
    0,    0x90, 0x90, 0x90, 0x90, 0x90, 0x90, 0x90, 0x90, 0x90, 0x90, 0x83, 0xE1, 0xE0, 0xFF, 0xE1,
};
static const uint8_t marks[NC_BUNDLE] = {
    1, 0, 0, 0, 0, 1, 0, 1, 0, 0, 0, 0, 1, 0, 0, 0, 0, 1, 1, 1, 1, 1, 1, 1, 1, 1, 1, 1, 0, 0, NC_MASKED(1), 0,
};

typedef struct Chunk {
    uint32_t base, length;
    uint64_t stamp; /* 0 while it is live */
} Chunk;

typedef struct Patch {
    uint32_t at, length;
    uint8_t bytes[SINGLES_LENGTH];
    uint32_t fault; /* in a live chunk */
} Patch;

Done done;
static uint64_t random_state = 1, generation;
static Chunk chunks[BUNDLES];
static uint32_t count;
static uint8_t bytes[BUNDLES * NC_BUNDLE];
static NcAct acts[ROOM];

static uint8_t *byte_at(uint32_t at) {
    return &bytes[at - NC_START];
}

/* Counts an answer. Whether it is that a change was made, as it should be. */
static bool is_made(uint32_t fault, uint32_t wanted, unsigned long *counter) {
    if (fault != wanted) {
        done.wrong++;
        return false;
    }
    ++*(fault == NC_OK ? counter : &done.refused);
    return fault == NC_OK;
}

/* ---- What is drawn */

static uint32_t draw(uint32_t end) {
    return below(&random_state, end);
}

static uint32_t draw_start(void) {
    return NC_START + NC_BUNDLE * draw(BUNDLES);
}

/* An instruction of five bytes: its first one, and a number. */
static void put_number(uint8_t *to, uint8_t first, uint32_t number) {
    *to++ = first;
    for (int i = 0; i < 4; i++) {
        *to++ = (uint8_t)(number >> 8 * i);
    }
}

/* The jump of a bundle. */
static void put_jump(uint8_t *to, uint32_t base, uint32_t target) {
    put_number(to, bundle[JUMP], target - (base + SINGLES));
}

static void draw_code(uint8_t *code, uint32_t base, uint32_t length) {
    for (uint32_t i = 0; i < length; i += NC_BUNDLE) {
        memcpy(code + i, bundle, NC_BUNDLE);
        put_number(code + i, bundle[NUMBER], draw(UINT32_MAX));
        put_jump(code + i + JUMP, base + i, draw_start());
    }
}

static Patch draw_patch(uint32_t base) {
    Patch drawn = {.at = base, .length = 5};
    switch (draw(7)) {
    case 0: put_number(drawn.bytes, bundle[NUMBER], draw(UINT32_MAX)); return drawn;
    case 1:
        drawn.at += JUMP;
        put_jump(drawn.bytes, base, draw_start());
        return drawn;
    case 2:
        drawn.at += SINGLES;
        drawn.length = SINGLES_LENGTH;
        for (uint32_t i = 0; i < SINGLES_LENGTH; i++) {
            drawn.bytes[i] = draw(2) ? bundle[SINGLES] : (uint8_t)(0x40 + draw(8));
        }
        return drawn;
    case 3: /* the condition */ return (Patch){base + BRANCH, 2, {0x74 + (uint8_t)draw(2), 0x0A}, NC_OK};
    case 4: /* another mask */ return (Patch){base + MASK, 3, {0x83, 0xC1, 0x01}, NC_PATCH_PAIR_TOUCHED};
    case 5: /* shorter instructions */ return (Patch){base + JUMP, 5, {0x90, 0x90, 0x90, 0x90, 0x90}, NC_PATCH_BOUNDARIES};
    default:
        drawn.at += JUMP;
        drawn.fault = NC_PATCH_BAD_TARGET;
        put_jump(drawn.bytes, base, LIMIT);
        return drawn;
    }
}

/* ---- Changes, each under the lock */

static bool is_free(uint32_t base, uint32_t length) {
    for (uint32_t i = 0; i < count; i++) {
        if (base < chunks[i].base + chunks[i].length && chunks[i].base < base + length) {
            return false;
        }
    }
    return true;
}

static void load(NcRegion *region, NcVetted *vetted, uint32_t base, const uint8_t *code, uint32_t length) {
    NcChange made = nc_region_load(region, vetted, acts, ROOM);
    if (is_made(made.fault, is_free(base, length) ? NC_OK : NC_OCCUPIED, &done.created)) {
        memory_make(acts, made.count, marks);
        memcpy(byte_at(base), code, length);
        chunks[count++] = (Chunk){base, length, 0};
    }
}

static void patch(NcRegion *region, const Chunk *chunk) {
    Patch new = draw_patch(chunk->base + NC_BUNDLE * draw(chunk->length / NC_BUNDLE));
    NcChange made = nc_region_patch(region, new.at, new.bytes, new.length, acts, ROOM);
    if (is_made(made.fault, chunk->stamp ? NC_PATCH_NOT_LIVE : new.fault, &done.patched)) {
        memory_make(acts, made.count, marks);
        memcpy(byte_at(new.at), new.bytes, new.length);
    }
}

static void remove_chunk(NcRegion *region, Chunk *chunk) {
    NcChange made = nc_region_begin_delete(region, chunk->base, acts, ROOM);
    if (is_made(made.fault, chunk->stamp ? NC_NO_CHUNK : NC_OK, &done.deleted)) {
        memory_make(acts, made.count, marks);
        NcStamp end = nc_region_end_delete(region);
        chunk->stamp = ++generation;
        done.wrong += end.fault != NC_OK || end.stamp != generation;
        memset(byte_at(chunk->base), NC_STOP, chunk->length);
    }
}

/* The retired chunk with the least stamp, or none. */
static Chunk *oldest(void) {
    Chunk *found = NULL;
    for (uint32_t i = 0; i < count; i++) {
        if (chunks[i].stamp && (!found || chunks[i].stamp < found->stamp)) {
            found = &chunks[i];
        }
    }
    return found;
}

static void reclaim(NcRegion *region) {
    NcCount answer = nc_region_reclaim(region);
    done.wrong += answer.fault != NC_OK;
    done.reclaimed++;
    for (uint32_t i = 0; i < answer.count; i++) {
        Chunk *freed = oldest();
        if (!freed) {
            done.wrong++;
            return;
        }
        memory_unmark(freed->base, freed->length);
        *freed = chunks[--count];
        done.freed++;
    }
}

/* ---- The whole region */

static bool has_chunk(NcChunk found) {
    for (uint32_t i = 0; i < count; i++) {
        const Chunk *chunk = &chunks[i];
        if (chunk->base == found.base && chunk->length == found.length && chunk->stamp == found.stamp) {
            return found.retired == (found.stamp > 0);
        }
    }
    return false;
}

static bool has_chunks(NcRegion *region) {
    uint32_t end = NC_START;
    for (uint32_t i = 0; i < count; i++) {
        NcChunk found = nc_region_chunk(region, i);
        if (found.fault != NC_OK || found.base < end || !has_chunk(found)) {
            return false;
        }
        end = found.base + found.length;
    }
    return nc_region_chunk(region, count).fault == NC_NO_CHUNK;
}

static bool has_places(NcRegion *region) {
    for (uint32_t at = NC_START; at < LIMIT; at++) {
        NcPlace place = nc_region_place(region, at);
        if (place.byte != *byte_at(at) || place.byte != memory_byte(at) || place.mark != memory_mark(at)) {
            return false;
        }
    }
    return true;
}

static void compare(NcRegion *region) {
    done.compared++;
    done.wrong += !has_chunks(region) || !has_places(region) || nc_region_generation(region).stamp != generation;
}

/* ---- Calls from outside */

/* Creates a chunk of one to three bundles somewhere. It is vetted without the lock. */
static void create(Host *host) {
    uint8_t code[LONGEST];
    uint32_t bundles = 1 + draw(3), base = NC_START + NC_BUNDLE * draw(BUNDLES - bundles);
    NcVetted vetted = {NULL};
    draw_code(code, base, NC_BUNDLE * bundles);
    done.wrong += nc_vetted_new(base, LIMIT, code, NC_BUNDLE * bundles, &vetted).fault != NC_OK;
    pthread_mutex_lock(&host->lock);
    load(&host->region, &vetted, base, code, NC_BUNDLE * bundles);
    pthread_mutex_unlock(&host->lock);
    nc_vetted_free(&vetted);
}

void writer_begin(void) {
    memset(bytes, NC_STOP, sizeof bytes);
    memory_begin();
}

void writer_step(Host *host) {
    uint32_t kind = draw(8);
    if (kind < 3) {
        create(host);
        return;
    }
    pthread_mutex_lock(&host->lock);
    if (kind < 5 && count > 0) {
        patch(&host->region, &chunks[draw(count)]);
    } else if (kind == 5 && count > 0) {
        remove_chunk(&host->region, &chunks[draw(count)]);
    } else if (kind > 5) {
        reclaim(&host->region);
    }
    pthread_mutex_unlock(&host->lock);
}

void writer_compare(Host *host) {
    pthread_mutex_lock(&host->lock);
    compare(&host->region);
    pthread_mutex_unlock(&host->lock);
}

void writer_end(Host *host) {
    pthread_mutex_lock(&host->lock);
    reclaim(&host->region);
    done.wrong += oldest() != NULL;
    compare(&host->region);
    pthread_mutex_unlock(&host->lock);
}
