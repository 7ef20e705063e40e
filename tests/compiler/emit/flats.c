/* Two functions as a compiler that knows nothing of bundles writes them; flats.h describes it. */
#include "flats.h"

#include "alone.h"
#include "nc_code.h"
#include "nc_flat.h"

#include <stdlib.h>
#include <string.h>

enum { F = 0, G = 0x19, PLUS_ONE = 0x39, BY_ECX = 0x3B, TWICE = 0x42, LEN = 0x4C };
/* clang-format off */
static const uint8_t flat[LEN] = {
    0x55, 0x89, 0xE5, 0x8B, 0x45, 0x08, 0x85, 0xC0, 0x74, 0x0D,             /* f: the sum of the numbers up to its argument */
    0x48, 0x50, 0xE8, 0xEF, 0xFF, 0xFF, 0xFF, 0x83, 0xC4, 0x04, 0x03, 0x45, /* call f */
    0x08, 0x5D, 0xC3,                                                       /* ret */
    0xFF, 0x74, 0x24, 0x04, 0xE8, 0x0D, 0, 0, 0,                            /* g: push its argument, call 2F */
    0xFF, 0x15, 0, 0, 0, 0, 0xFF, 0x25, 0, 0, 0, 0, 0x90,                   /* call and jmp through memory */
    0x8B, 0x44, 0x24, 0x04, 0x8D, 0x04, 0x40, 0xC2, 0x04, 0,                /* 2F: three times the argument; ret 4 */
    0x40, 0xC3,                                                             /* PLUS_ONE */
    0xB9, 0, 0, 0, 0, 0xFF, 0xE1,                                           /* BY_ECX: mov ecx, TWICE; jmp ecx */
    0x01, 0xC0, 0xEB, 0x01, 0xF4, 0xE9, 0, 0, 0, 0,                         /* TWICE: add eax, eax; jmp; jmp PLUS_ONE */
};
/* clang-format on */
static const uint32_t entries[] = {F, G, PLUS_ONE, BY_ECX, TWICE}, foreign[] = {0x24, 0x2A, 0x3C, 0x48};
static uint32_t pointers[2], argument, result;

static uint32_t address_of(const NcFlat *f, uint32_t base, uint32_t offset) {
    return base + nc_flat_place(f, offset);
}

/* Fills in what relocations would. */
static void relocate(const NcFlat *f, uint32_t base, uint8_t *to) {
    const uint32_t at = nc_flat_place(f, 0x48), words[] = {(uint32_t)(uintptr_t)pointers, (uint32_t)(uintptr_t)(pointers + 1),
                                                           address_of(f, base, TWICE), address_of(f, base, PLUS_ONE) - (base + at + 4)};
    unsigned k;
    for (k = 0; k < 4; k++) memcpy(to + nc_flat_place(f, foreign[k]), words + k, 4);
    pointers[0] = address_of(f, base, PLUS_ONE);
    pointers[1] = address_of(f, base, BY_ECX);
}

/* A function of C for enter: calls one of those with an argument, by code of its own. */
static void *caller(uint32_t function) {
    NceCode c;
    void *made;
    uint32_t word;
    uint8_t bytes[6] = {0xFF, 0x35};
    nce_begin(&c);
    word = (uint32_t)(uintptr_t)&argument;
    memcpy(bytes + 2, &word, 4);
    nce_raw(&c, bytes, 6); /* push [argument] */
    nce_call_to(&c, function);
    nce_raw(&c, "\x59", 1);
    bytes[0] = 0xA3;
    word = (uint32_t)(uintptr_t)&result;
    memcpy(bytes + 1, &word, 4);
    nce_raw(&c, bytes, 5); /* mov [result], eax */
    nce_return(&c, NCE_ECX);
    made = nc_code_new(&c, NULL);
    nce_end(&c);
    return made;
}

static uint32_t called(uint32_t function, uint32_t with) {
    void *by = caller(function);
    argument = with;
    result = ~0u;
    if (by != NULL) enter((void (*)(void))by);
    nc_code_free(by);
    return result;
}

static int read_all(NcFlat *f) {
    unsigned k;
    for (k = 0; k < sizeof entries / sizeof *entries; k++) nc_flat_entry(f, entries[k]);
    for (k = 0; k < sizeof foreign / sizeof *foreign; k++) nc_flat_foreign(f, foreign[k]);
    return nc_flat_read(f, flat);
}

const char *flat_trial(void) {
    static uint8_t bytes[1024];
    NcFlat f;
    uint32_t size, base;
    if (!nc_flat_begin(&f, LEN) || !read_all(&f)) return "flat code isn't read";
    size = nce_layout(&f.code);
    base = size != 0 && size <= sizeof bytes ? nc_code_span(size) : 0;
    if (base == 0 || !nce_write(&f.code, base, bytes)) return "flat code has no room";
    relocate(&f, base, bytes);
    if (nc_code_put(base, bytes, size) == NULL) return "flat code is refused";
    if (called(address_of(&f, base, F), 100) != 5050) return "flat code adds wrongly";
    if (called(address_of(&f, base, G), 7) != (3 * 7 + 1) * 2 + 1) return "flat code transfers wrongly";
    if (nc_flat_place(&f, 1) != NCE_NOWHERE || nc_flat_place(&f, LEN + 1) != NCE_NOWHERE) return "flat code has other places";
    nc_code_free((void *)(uintptr_t)base);
    nc_flat_end(&f);
    return NULL;
}
