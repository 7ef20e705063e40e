/* Changes ELF files at random. A change sets a field of a header, of a table or of a symbol, or fills a bundle of the code with permitted
   instructions. Values are those at which a bound may be wrong. */
#include "fields.h"

#include "fuzz.h"
#include "nc_host.h"

#include <elf.h>
#include <string.h>

typedef struct File {
    uint8_t *bytes;
    size_t len, most;
    uint64_t random;
    Elf32_Ehdr h;
} File;

static uint32_t draw(File *f, uint32_t below) {
    return fuzz_draw(&f->random, below);
}

static int has(const File *f, uint64_t at, uint64_t len) {
    return at <= f->len && len <= f->len - at;
}

static uint32_t word_at(const File *f, uint64_t at) {
    uint32_t word = 0;
    if (has(f, at, sizeof word)) {
        memcpy(&word, f->bytes + at, sizeof word);
    }
    return word;
}

static void set(File *f, uint64_t at, const void *from, size_t len) {
    if (has(f, at, len)) {
        memcpy(f->bytes + at, from, len);
    }
}

/* The first section of a type, or zeros. */
static Elf32_Shdr section_of(const File *f, uint32_t type) {
    Elf32_Shdr found;
    unsigned k;
    for (k = 0; k < f->h.e_shnum && has(f, f->h.e_shoff + k * sizeof found, sizeof found); k++) {
        memcpy(&found, f->bytes + f->h.e_shoff + k * sizeof found, sizeof found);
        if (found.sh_type == type) {
            return found;
        }
    }
    memset(&found, 0, sizeof found);
    return found;
}

/* The place of a symbol, or of what would be one behind the last. */
static uint64_t draw_symbol(File *f) {
    Elf32_Shdr table = section_of(f, SHT_SYMTAB);
    return table.sh_offset + (uint64_t)sizeof(Elf32_Sym) * draw(f, table.sh_size / sizeof(Elf32_Sym) + 1);
}

/* A word of one of the tables, which is often a bound of something else, or a sum of two. */
static uint32_t draw_neighbour(File *f) {
    uint64_t tables[] = {f->h.e_phoff + sizeof(Elf32_Phdr) * draw(f, f->h.e_phnum + 1u),
                         f->h.e_shoff + sizeof(Elf32_Shdr) * draw(f, f->h.e_shnum + 1u), draw_symbol(f)};
    uint64_t table = tables[draw(f, 3)];
    return word_at(f, table + 4 * draw(f, 10)) + (draw(f, 3) == 0 ? word_at(f, table + 4 * draw(f, 10)) : 0);
}

static uint32_t draw_value(File *f) {
    static const uint32_t edges[] = {0,          1,          2,          3,          4,          5,         6,        31,
                                     32,         33,         40,         51,         52,         0xFFF,     0x1000,   0xFFFE,
                                     0xFFFF,     0x10000,    0x10020,    0x1FFFF,    0x20000,    0x110000,  0x200000, 0x3FFFFFFF,
                                     0x40000000, 0x7FFFFFFF, 0x80000000, 0xFFFF0000, 0xFFFFFFE0, 0xFFFFFFFF};
    uint32_t near = draw(f, 3) == 0 ? draw(f, 65) - 32 : draw(f, 3) - 1;
    switch (draw(f, 4)) {
    case 0: return edges[draw(f, sizeof edges / sizeof *edges)];
    case 1: return edges[draw(f, sizeof edges / sizeof *edges)] + near;
    case 2: return (uint32_t)f->len + near;
    default: return draw_neighbour(f) + near;
    }
}

static void set_field(File *f, uint64_t at, size_t len) {
    uint32_t value = draw_value(f);
    set(f, at, &value, len);
}

/* ---- Ways to change a file */

static void change_header(File *f) {
    uint32_t half = draw(f, 18); /* e_type is the first one */
    set_field(f, EI_NIDENT + 2 * half, half >= 2 && half < 12 && half % 2 == 0 ? 4 : 2);
}

static void change_segment(File *f) {
    set_field(f, f->h.e_phoff + sizeof(Elf32_Phdr) * draw(f, f->h.e_phnum + 1u) + 4 * draw(f, 8), 4);
}

static void change_section(File *f) {
    set_field(f, f->h.e_shoff + sizeof(Elf32_Shdr) * draw(f, f->h.e_shnum + 1u) + 4 * draw(f, 10), 4);
}

/* Two program headers in each other's place, or one of them twice. */
static void copy_segment(File *f) {
    uint8_t one[sizeof(Elf32_Phdr)], other[sizeof one];
    uint64_t at = f->h.e_phoff + sizeof one * draw(f, f->h.e_phnum + 1u), to = f->h.e_phoff + sizeof one * draw(f, f->h.e_phnum + 1u);
    if (has(f, at, sizeof one) && has(f, to, sizeof one)) {
        memcpy(one, f->bytes + at, sizeof one);
        memcpy(other, f->bytes + to, sizeof other);
        set(f, to, one, sizeof one);
        if (draw(f, 2) == 0) {
            set(f, at, other, sizeof other);
        }
    }
}

static void change_symbol(File *f) {
    static const struct { uint8_t at, len; } fields[] = {{0, 4}, {4, 4}, {8, 4}, {12, 1}, {13, 1}, {14, 2}};
    uint32_t k = draw(f, sizeof fields / sizeof *fields);
    set_field(f, draw_symbol(f) + fields[k].at, fields[k].len);
}

static void change_name(File *f) {
    static const uint8_t bytes[] = {0, '$', '.', 'L', ' ', '~', 0x7F, '\n', 0x1B, 'a'};
    Elf32_Shdr table = section_of(f, SHT_STRTAB);
    set(f, table.sh_offset + (uint64_t)draw(f, table.sh_size | 1), bytes + draw(f, sizeof bytes), 1);
}

static void change_byte(File *f) {
    uint8_t byte = (uint8_t)draw(f, 256);
    set(f, draw(f, (uint32_t)f->len), &byte, 1);
}

static void change_length(File *f) {
    size_t len = draw(f, 2) == 0 ? draw(f, (uint32_t)f->len + 1) : f->len + draw(f, 64);
    len = len < f->most ? len : f->most;
    if (len > f->len) {
        memset(f->bytes + f->len, 0, len - f->len);
    }
    f->len = len;
}

/* ---- Code */

/* The first segment of code, or zeros. */
static Elf32_Phdr code_of(const File *f) {
    Elf32_Phdr found;
    unsigned k;
    for (k = 0; k < f->h.e_phnum && has(f, f->h.e_phoff + k * sizeof found, sizeof found); k++) {
        memcpy(&found, f->bytes + f->h.e_phoff + k * sizeof found, sizeof found);
        if (found.p_type == PT_LOAD && (found.p_flags & PF_X) != 0) {
            return found;
        }
    }
    memset(&found, 0, sizeof found);
    return found;
}

/* All of the file but its head, as if it were a segment. */
static Elf32_Phdr raw_code(const File *f) {
    Elf32_Phdr raw = {.p_offset = FIELDS_HEAD, .p_vaddr = NC_START, .p_filesz = (uint32_t)f->len - FIELDS_HEAD};
    return raw;
}

static int is_elf(const File *f) {
    return memcmp(f->bytes, ELFMAG, SELFMAG) == 0;
}

/* Where code may well go: a trampoline, a bundle of the code, or anywhere. */
static uint32_t draw_place(File *f, const Elf32_Phdr *code) {
    switch (draw(f, 4)) {
    case 0: return NC_BUNDLE * draw(f, 24);
    case 1: return draw_value(f);
    default: return code->p_vaddr + NC_BUNDLE * draw(f, code->p_filesz / NC_BUNDLE + 2);
    }
}

/* Instructions of which code that does harm is made: where a number of one or four bytes is in them, or 0. */
/* clang-format off */
static const struct { uint8_t len, number, bytes[6]; } KNOWN[] = {
    {5, 1, {0xB8}}, {5, 1, {0xA1}}, {5, 1, {0xA3}}, {5, 1, {0xBC}}, {5, 1, {0x68}}, {5, 1, {0xE9}}, {2, 1, {0xEB}}, {2, 1, {0x74}},
    {5, 0, {0x83, 0xE0, 0xE0, 0xFF, 0xE0}}, {5, 0, {0x83, 0xE1, 0xE0, 0xFF, 0xE1}}, {5, 0, {0x83, 0xE0, 0xE0, 0xFF, 0xD0}}, {1, 0, {0x59}},
    {2, 0, {0xF3, 0xAA}}, {2, 0, {0xF7, 0xF0}}, {4, 0, {0x8B, 0x44, 0x24, 4}}, {2, 0, {0x31, 0xE4}}, {1, 0, {0xF4}}, {1, 0, {0xFD}},
    {1, 0, {0x60}},
};
/* clang-format on */
#define KNOWN_COUNT (sizeof KNOWN / sizeof *KNOWN)

/* An instruction of the table. The bytes that it takes. */
static uint32_t draw_known(File *f, uint8_t bytes[6], const Elf32_Phdr *code) {
    uint32_t k = draw(f, KNOWN_COUNT), number = draw(f, 2) == 0 ? draw_place(f, code) : draw_value(f), len = KNOWN[k].len;
    memcpy(bytes, KNOWN[k].bytes, sizeof KNOWN[k].bytes);
    memcpy(bytes + KNOWN[k].number, &number, KNOWN[k].number != 0 ? len - KNOWN[k].number : 0);
    return len;
}

/* Any instruction that is permitted, and doesn't transfer. The bytes that it takes, or 0 if there is none. */
static uint32_t draw_any(File *f, uint8_t bytes[12]) {
    NcInstruction says;
    uint32_t at;
    for (at = 0; at < 12; at++) {
        bytes[at] = (uint8_t)draw(f, 256);
    }
    says = nc_host_decode(bytes, 12);
    return says.fault == NC_OK && says.flow == NC_FLOW_NEXT ? says.length : 0;
}

/* An instruction, if there is room for it. The bytes that it takes, or 0. */
static uint32_t put_one(File *f, uint8_t *to, uint32_t room, const Elf32_Phdr *code) {
    uint8_t bytes[12];
    uint32_t len = draw(f, 2) == 0 ? draw_known(f, bytes, code) : draw_any(f, bytes);
    len = len <= room ? len : 0;
    memcpy(to, bytes, len);
    return len;
}

/* A call ends its bundle, so that its address to return to is a bundle start. */
static void put_call(File *f, uint8_t *bundle, uint32_t place, const Elf32_Phdr *code) {
    uint32_t rel = draw_place(f, code) - (place + NC_BUNDLE);
    bundle[NC_BUNDLE - 5] = 0xE8;
    memcpy(bundle + NC_BUNDLE - 4, &rel, sizeof rel);
}

static void change_code(File *f) {
    Elf32_Phdr code = is_elf(f) ? code_of(f) : raw_code(f);
    uint32_t bundle = draw(f, code.p_filesz / NC_BUNDLE + 1) * NC_BUNDLE, at = 0, tries;
    uint8_t bytes[NC_BUNDLE];
    memset(bytes, 0x90, sizeof bytes);
    for (tries = 0; tries < 16; tries++) {
        at += put_one(f, bytes + at, NC_BUNDLE - at, &code);
    }
    if (draw(f, 4) == 0) {
        put_call(f, bytes, code.p_vaddr + bundle, &code);
    }
    set(f, (uint64_t)code.p_offset + bundle, bytes, sizeof bytes);
}

/* ---- Changes */

size_t fields_change(uint8_t *bytes, size_t len, size_t most, uint64_t random) {
    static void (*const ways[])(File *) = {change_header,  change_segment, change_segment, change_segment, change_section,
                                           change_section, change_symbol,  change_symbol,  change_name,    copy_segment,
                                           change_byte,    change_length,  change_code,    change_code,    change_code};
    File f = {.bytes = bytes, .len = len, .most = most, .random = random};
    uint32_t times = 1 + draw(&f, 4);
    while (times-- != 0 && has(&f, 0, sizeof f.h)) {
        memcpy(&f.h, f.bytes, sizeof f.h);
        (is_elf(&f) ? ways[draw(&f, sizeof ways / sizeof *ways)] : change_code)(&f);
    }
    return f.len;
}
