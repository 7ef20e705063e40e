/* A plain reader of ELF files. Each number is read where the ABI says that it is, and judged in 64 bits. */
#include "reader.h"

#include <string.h>

#define HEADER_LEN 52u
#define PROGRAM_HEADER_LEN 32u
#define SECTION_HEADER_LEN 40u
#define SYMBOL_LEN 16u
#define LOADED 1u
#define SYMBOLS 2u
#define EXECUTABLE_FLAG 1u /* of a segment */
#define WRITABLE_FLAG 2u
#define CODE_FLAG 4u /* of a section */
#define LOCAL 0u
#define NO_TYPE 0u
#define FUNCTION 2u
#define DATA_FIRST 0x20000u /* where data may begin, since a stack lies below it */
#define MEMORY_FIRST 0x10000u
#define MEMORY_END (1ull << 30)
#define DATA_NONE 0x110000u /* where the heap begins without data */
#define NAME_MOST 255u

static uint32_t number(const Reader *r, uint64_t at, unsigned bytes) {
    uint32_t value = 0;
    while (bytes-- != 0) {
        value = value << 8 | (at + bytes < r->len ? r->file[at + bytes] : 0);
    }
    return value;
}

static int has(const Reader *r, uint64_t at, uint64_t len) {
    return at + len <= r->len; /* both are numbers of 33 bits at most */
}

/* ---- The headers */

/* The first of the faults from 48 to 55, or NC_OK. */
static uint32_t judge_header(const Reader *r) {
    uint32_t kind = number(r, 16, 2);
    if (!has(r, 0, 4) || memcmp(r->file, "\177ELF", 4) != 0) {
        return NC_ELF_NOT_ELF;
    }
    if (!has(r, 0, HEADER_LEN)) {
        return NC_ELF_SHORT_HEADER;
    }
    if (number(r, 4, 1) == 2) {
        return NC_ELF_64_BITS;
    }
    if (number(r, 4, 3) != 0x010101 || number(r, 20, 4) != 1) {
        return NC_ELF_OTHER_FORMAT;
    }
    if (number(r, 18, 2) != 3) {
        return NC_ELF_OTHER_MACHINE;
    }
    if (kind != 2 && kind != 3) {
        return kind == 1 ? NC_ELF_UNLINKED : NC_ELF_OTHER_TYPE;
    }
    if (number(r, 42, 2) != PROGRAM_HEADER_LEN || number(r, 44, 2) == 0xFFFF ||
        !has(r, number(r, 28, 4), (uint64_t)PROGRAM_HEADER_LEN * number(r, 44, 2))) {
        return NC_ELF_BAD_TABLE;
    }
    return NC_OK;
}

/* The first of the faults from 56 to 61 of a loaded segment, or NC_OK. `reached` is where those before it end. */
static uint32_t judge_segment(const Reader *r, const NcSegment *s, uint64_t reached) {
    int runs = (s->flags & EXECUTABLE_FLAG) != 0;
    return !has(r, s->offset, s->file_len)                   ? NC_ELF_BEYOND_FILE
         : s->file_len > s->memory_len                       ? NC_ELF_BEYOND_MEMORY
         : (uint64_t)s->address + s->memory_len > 1ull << 32 ? NC_ELF_WRAPS
         : s->address < reached                              ? NC_ELF_OUT_OF_ORDER
         : runs && (s->flags & WRITABLE_FLAG) != 0           ? NC_ELF_WRITABLE_CODE
         : runs && s->memory_len > s->file_len               ? NC_ELF_UNFILLED_CODE
                                                             : NC_OK;
}

static void keep_segment(Reader *r, const NcSegment *s) {
    if (s->memory_len != 0) {
        if (r->segment_count < READER_SEGMENTS) {
            r->segments[r->segment_count] = *s;
        }
        r->segment_count++;
    }
}

static uint32_t judge_segments(Reader *r) {
    uint32_t count = number(r, 44, 2), fault = NC_OK, has_code = 0;
    uint64_t reached = 0;
    for (r->header = 0; r->header < count; r->header++) {
        uint64_t at = number(r, 28, 4) + (uint64_t)PROGRAM_HEADER_LEN * r->header;
        NcSegment s = {number(r, at + 8, 4), number(r, at + 4, 4), number(r, at + 16, 4), number(r, at + 20, 4), number(r, at + 24, 4)};
        if (number(r, at, 4) != LOADED) {
            continue;
        }
        fault = judge_segment(r, &s, reached);
        if (fault != NC_OK) {
            return fault;
        }
        reached = (uint64_t)s.address + s.memory_len > reached ? (uint64_t)s.address + s.memory_len : reached;
        has_code |= (s.flags & EXECUTABLE_FLAG) != 0 && s.file_len != 0;
        keep_segment(r, &s);
    }
    r->header = 0;
    return has_code ? NC_OK : NC_ELF_NO_CODE;
}

/* ---- A program, as nc_sandbox.h describes it */

static int judge_program(Reader *r) {
    unsigned codes = 0;
    size_t k;
    r->data_begin = UINT32_MAX;
    for (k = 0; k < r->segment_count; k++) {
        const NcSegment *s = &r->segments[k];
        int runs = (s->flags & EXECUTABLE_FLAG) != 0;
        if (s->address < MEMORY_FIRST || (uint64_t)s->address + s->memory_len > MEMORY_END) {
            return 0;
        }
        codes += (unsigned)runs;
        r->code = runs ? *s : r->code;
        r->data_begin = !runs && s->address < r->data_begin ? s->address : r->data_begin;
        r->data_end = !runs ? s->address + s->memory_len : r->data_end; /* they are in order */
    }
    if (r->data_begin == UINT32_MAX) {
        r->data_begin = r->data_end = DATA_NONE;
    }
    r->entry = number(r, 24, 4);
    return codes == 1 && r->data_begin >= DATA_FIRST && number(r, 16, 2) == 2;
}

/* ---- Symbols */

typedef struct Section {
    uint32_t type, flags, offset, size, link;
} Section;

/* Whether there is a section with this index, all of it in the file. */
static int section(const Reader *r, uint32_t k, Section *s) {
    uint64_t at = number(r, 32, 4) + (uint64_t)SECTION_HEADER_LEN * k;
    s->type = number(r, at + 4, 4);
    s->flags = number(r, at + 8, 4);
    s->offset = number(r, at + 16, 4);
    s->size = number(r, at + 20, 4);
    s->link = number(r, at + 24, 4);
    return k < number(r, 48, 2) && number(r, 46, 2) == SECTION_HEADER_LEN && has(r, at, SECTION_HEADER_LEN) && has(r, s->offset, s->size);
}

static void read_symbol(Reader *r, uint64_t at, const Section *names) {
    ReaderSymbol *s = &r->symbols[r->symbol_count++];
    uint32_t name = number(r, at, 4), info = number(r, at + 12, 1), where = number(r, at + 14, 2);
    Section of;
    s->at = number(r, at + 4, 4);
    s->name = name < names->size ? (const char *)r->file + names->offset + name : NULL;
    s->is_global = where != 0 && info >> 4 != LOCAL;
    s->is_of_code = ((info & 15) == NO_TYPE || (info & 15) == FUNCTION) && section(r, where, &of) && (of.flags & CODE_FLAG) != 0 &&
                    s->at >= r->code.address && s->at - r->code.address < r->code.file_len;
}

/* Whether there is a table of symbols: the first one, if its names are there and end with a 0. */
static int find_symbols(const Reader *r, Section *table, Section *names) {
    uint32_t k = 0, count = number(r, 48, 2);
    while (k < count && !(section(r, k, table) && table->type == SYMBOLS)) {
        k++;
    }
    return k < count && section(r, table->link, names) && names->size != 0 && r->file[names->offset + names->size - 1] == 0;
}

static void read_symbols(Reader *r) {
    Section table, names;
    uint32_t at;
    if (find_symbols(r, &table, &names)) {
        for (at = 0; table.size - at >= SYMBOL_LEN; at += SYMBOL_LEN) {
            read_symbol(r, (uint64_t)table.offset + at, &names);
        }
    }
}

void reader_read(Reader *r, const uint8_t *file, size_t len) {
    memset(r, 0, offsetof(Reader, symbols));
    r->symbol_count = 0;
    r->file = file;
    r->len = len;
    r->fault = judge_header(r);
    r->fault = r->fault == NC_OK ? judge_segments(r) : r->fault;
    r->is_program = r->fault == NC_OK && r->segment_count <= READER_SEGMENTS && judge_program(r);
    if (r->is_program) {
        read_symbols(r);
    }
}

uint32_t reader_symbol(const Reader *r, const char *name) {
    size_t k;
    for (k = 0; k < r->symbol_count; k++) {
        const ReaderSymbol *s = &r->symbols[k];
        if (s->is_global && s->name != NULL && strcmp(s->name, name) == 0) {
            return s->at;
        }
    }
    return 0;
}

/* A name fit to be printed. */
static int is_shown(const char *name) {
    size_t len = strlen(name), k = 0;
    while (k < len && name[k] >= 0x21 && name[k] <= 0x7E) {
        k++;
    }
    return k == len && len >= 1 && len <= NAME_MOST && name[0] != '$' && strncmp(name, ".L", 2) != 0;
}

const char *reader_function(const Reader *r, uint32_t at, uint32_t *offset) {
    const ReaderSymbol *nearest = NULL;
    size_t k;
    for (k = 0; k < r->symbol_count; k++) {
        const ReaderSymbol *s = &r->symbols[k];
        int is_nearer = s->is_of_code && s->at <= at && (nearest == NULL || s->at >= nearest->at);
        nearest = is_nearer && s->name != NULL && is_shown(s->name) ? s : nearest;
    }
    if (nearest == NULL || at - r->code.address >= r->code.file_len) {
        return NULL;
    }
    *offset = at - nearest->at;
    return nearest->name;
}
