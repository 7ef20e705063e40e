/* A target: what nc_check does with a file, in this process. nc_host_elf judges it, and nc_host_vet, nc_host_marks and nc_host_image judge
   each segment of code. They have to agree with each other, and with the model of judge.c. A file that isn't an ELF file is code, at a base
   and below a limit that its first bytes name. The program nc_check has trials of its own (tests/programs/damaged-elf). It couldn't lead a
   fuzzer, since it isn't compiled for one. */
#include "fields.h"
#include "fuzz.h"
#include "judge.h"

#include <stdlib.h>
#include <string.h>

#define SEGMENTS_MOST 16u
#define LIMIT_MOST 0x30000u /* up to it images are written */
#define UNTOUCHED 0xA5

/* A chunk, with room for its marks. */
typedef struct Chunk {
    uint32_t base, limit;
    const uint8_t *code;
    size_t len;
    uint8_t *wanted, *marks;
} Chunk;

static int is_full_of(const uint8_t *bytes, size_t len, uint8_t byte) {
    return len == 0 || (bytes[0] == byte && memcmp(bytes, bytes + 1, len - 1) == 0);
}

static void try_marks(const Chunk *c, NcVerdict wanted) {
    NcVerdict found;
    memset(c->marks, UNTOUCHED, c->len);
    if (wanted.fault == NC_OK) {
        found = nc_host_marks(c->base, c->limit, c->code, c->len, c->marks, c->len - 1);
        MUST(found.fault == NC_NO_ROOM && found.at == 0 && is_full_of(c->marks, c->len, UNTOUCHED));
    }
    found = nc_host_marks(c->base, c->limit, c->code, c->len, c->marks, c->len);
    MUST(found.fault == wanted.fault && found.at == wanted.at);
    MUST(wanted.fault == NC_OK ? memcmp(c->marks, c->wanted, c->len) == 0 : is_full_of(c->marks, c->len, UNTOUCHED));
}

/* Stops, and the chunk at its place. */
static void try_image(const Chunk *c, NcVerdict wanted) {
    uint32_t len = c->limit - NC_START, at = c->base - NC_START;
    uint8_t *image = malloc(len);
    NcVerdict found;
    MUST(image != NULL);
    memset(image, UNTOUCHED, len);
    found = nc_host_image(c->base, c->code, c->len, image, len);
    MUST(found.fault == wanted.fault && found.at == wanted.at);
    if (wanted.fault == NC_OK) {
        MUST(is_full_of(image, at, NC_STOP) && memcmp(image + at, c->code, c->len) == 0);
        MUST(is_full_of(image + at + c->len, len - at - c->len, NC_STOP));
    } else {
        MUST(is_full_of(image, len, UNTOUCHED));
    }
    free(image);
}

static void try_chunk(uint32_t base, uint32_t limit, const uint8_t *code, size_t len) {
    Chunk c = {base, limit, fuzz_copy(code, len), len, malloc(len + 1), malloc(len + 1)};
    NcVerdict wanted, found = nc_host_vet(base, limit, c.code, len);
    MUST(c.wanted != NULL && c.marks != NULL);
    wanted = judge_code(base, limit, c.code, len, c.wanted);
    MUST(found.fault == wanted.fault && found.at == wanted.at);
    try_marks(&c, wanted);
    if (limit > NC_START && limit <= LIMIT_MOST) {
        try_image(&c, wanted);
    }
    free((void *)(uintptr_t)c.code);
    free(c.wanted);
    free(c.marks);
}

/* Each segment of code by itself, in the least region that has room for it, and in the largest. */
static void try_segments(const uint8_t *file, size_t len) {
    NcSegment segments[SEGMENTS_MOST];
    NcSegments found = nc_host_elf(file, len, segments, SEGMENTS_MOST);
    size_t k;
    for (k = 0; k < found.count && found.fault == NC_OK; k++) {
        const NcSegment *s = &segments[k];
        if ((s->flags & 1) != 0) {
            try_chunk(s->address, s->address + s->file_len + NC_BUNDLE, file + s->offset, s->file_len);
            try_chunk(s->address, NC_LIMIT(NC_MAX_BUNDLES), file + s->offset, s->file_len);
        }
    }
}

/* The base is near the region's beginning, and the limit is near the chunk's end. */
static void try_code(const uint8_t *bytes, size_t len) {
    Input input = {bytes, len};
    uint8_t head[FIELDS_HEAD];
    uint32_t base, limit, way;
    fuzz_bytes(&input, head, sizeof head);
    base = NC_START + head[0];
    limit = head[1];
    way = head[2];
    limit = way % 8 == 0 ? limit << 24 : base + (uint32_t)input.len + (way % 8 == 1 ? limit : NC_BUNDLE * (limit % 4));
    try_chunk(way / 8 % 2 == 0 ? base & ~(NC_BUNDLE - 1) : base, limit, input.bytes, input.len);
}

int LLVMFuzzerTestOneInput(const uint8_t *bytes, size_t len) {
    uint8_t *file = fuzz_copy(bytes, len);
    if (len >= 4 && memcmp(file, "\177ELF", 4) == 0) {
        try_segments(file, len);
    } else {
        try_code(file, len);
    }
    free(file);
    return 0;
}
