/* A target: what reads ELF files, without a box. nc_host_elf and the library's own reader have to agree with the model of reader.c. Nothing
   may be read behind the file's end. */
#include "fuzz.h"
#include "inner.h"
#include "reader.h"

#include <stdlib.h>
#include <string.h>

#define NAMES_MOST 24u /* symbols that are looked up by their names, and at their addresses */
#define MEMORY_MOST (8u << 20)

static Reader reader;

/* With room for each segment, and with room for one less. */
static void try_segments(const uint8_t *file, size_t len) {
    NcSegment segments[READER_SEGMENTS];
    NcSegments found = nc_host_elf(file, len, segments, READER_SEGMENTS);
    if (reader.fault != NC_OK || reader.segment_count <= READER_SEGMENTS) {
        MUST(found.fault == reader.fault && found.header == reader.header);
        MUST(found.count == (reader.fault == NC_OK ? reader.segment_count : 0));
        MUST(memcmp(segments, reader.segments, found.count * sizeof *segments) == 0);
    }
    if (reader.fault == NC_OK) {
        found = nc_host_elf(file, len, segments, reader.segment_count - 1 < READER_SEGMENTS ? reader.segment_count - 1 : READER_SEGMENTS);
        MUST(found.fault == NC_NO_ROOM && found.count == reader.segment_count);
    }
}

static void try_place(const Image *image, uint32_t at) {
    uint32_t offset = 7, wanted_offset = 7;
    const char *wanted = reader_function(&reader, at, &wanted_offset);
    const char *found = ncs_elf_function(image, at, &offset);
    MUST(found == wanted || (found != NULL && wanted != NULL && strcmp(found, wanted) == 0));
    MUST(offset == wanted_offset);
}

static void try_name(const Image *image, const char *name) {
    MUST(ncs_elf_symbol(image, name) == reader_symbol(&reader, name));
}

static void try_symbols(const Image *image) {
    size_t k;
    try_name(image, "");
    try_name(image, "nothing");
    for (k = 0; k < reader.symbol_count && k < NAMES_MOST; k++) {
        const ReaderSymbol *s = &reader.symbols[k];
        try_name(image, s->name != NULL ? s->name : "start");
        try_place(image, s->at);
        try_place(image, s->at - 1);
    }
}

/* The data where the file says, and nothing beside them. */
static void try_data(const Image *image) {
    uint8_t *memory = calloc(1, image->data_end);
    size_t k;
    MUST(memory != NULL);
    ncs_elf_copy_data(image, (uintptr_t)memory);
    for (k = 0; k < reader.segment_count; k++) {
        const NcSegment *s = &reader.segments[k];
        if (s->address != reader.code.address) {
            MUST(memcmp(memory + s->address, reader.file + s->offset, s->file_len) == 0);
            memset(memory + s->address, 0, s->file_len);
        }
    }
    MUST(memory[0] == 0 && memcmp(memory, memory + 1, image->data_end - 1) == 0);
    free(memory);
}

static void try_image(uint8_t *file, size_t len) {
    Image image;
    const char *wrong;
    uint32_t k;
    memset(&image, 0, sizeof image);
    image.bytes = file;
    image.len = len;
    wrong = ncs_elf_read(&image);
    MUST((wrong == NULL) == (reader.is_program && reader.segment_count <= SEGMENTS));
    if (wrong != NULL) {
        MUST(wrong[0] != 0);
        return;
    }
    MUST(image.data_begin == reader.data_begin && image.data_end == reader.data_end && image.entry == reader.entry);
    MUST(image.code_at == reader.code.address && image.code_len == reader.code.file_len && image.code_offset == reader.code.offset);
    MUST(image.symbol_count == reader.symbol_count);
    for (k = 0; k < 5; k++) {
        const uint32_t places[] = {0, image.code_at - 1, image.code_at, image.code_at + image.code_len, UINT32_MAX};
        try_place(&image, places[k]);
        try_place(&image, image.code_at + image.code_len / 5 * k);
    }
    try_symbols(&image);
    if (image.data_end <= MEMORY_MOST) {
        try_data(&image);
    }
}

int LLVMFuzzerTestOneInput(const uint8_t *bytes, size_t len) {
    uint8_t *file = fuzz_copy(bytes, len);
    if (len <= READER_FILE_MOST) {
        reader_read(&reader, file, len);
        try_segments(file, len);
        try_image(file, len);
    }
    free(file);
    return 0;
}
