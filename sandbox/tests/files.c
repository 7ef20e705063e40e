/* Damaged ELF files: files GUEST [COUNT [SEED]]. Each is refused with a sentence, or its box runs to some end. Nothing is left behind. */
#define _GNU_SOURCE
#include "testing.h"

#include <elf.h>
#include <stdio.h>
#include <stdlib.h>
#include <string.h>

#define ROOM 0x120000u

static uint8_t good[1 << 16], bad[1 << 16];
static size_t good_len;
static unsigned refused, accepted, kinds[NCS_BAD_SYSTEM + 1];

static uint32_t next_random(uint64_t *state) {
    *state ^= *state << 13;
    *state ^= *state >> 7;
    *state ^= *state << 17;
    return (uint32_t)(*state >> 16);
}

/* A place where the file says how it is made: a header or an entry of a table; or in the code; or anywhere. */
static uint32_t place(uint64_t *random) {
    Elf32_Ehdr h;
    Elf32_Phdr code; /* the first segment */
    memcpy(&h, good, sizeof h);
    memcpy(&code, good + h.e_phoff, sizeof code);
    switch (next_random(random) % 8) {
    case 0:
    case 1: return next_random(random) % sizeof h;
    case 2:
    case 3: return h.e_phoff + next_random(random) % (h.e_phnum * (uint32_t)sizeof(Elf32_Phdr));
    case 4:
    case 5: return h.e_shoff + next_random(random) % (h.e_shnum * (uint32_t)sizeof(Elf32_Shdr));
    case 6: return code.p_offset + next_random(random) % code.p_filesz;
    default: return next_random(random) % (uint32_t)good_len;
    }
}

/* Whether the place has no name, or one that can be printed. */
static int is_named_well(const uint8_t *bytes, size_t len, uint32_t place) {
    uint32_t offset = 0;
    const char *name = ncs_function_in(bytes, len, (NcsAt){place}, &offset);
    return name == NULL || (strlen(name) - 1 < 255 && strspn(name, "\n\r\x1b ") == 0 && offset <= place - CODE_AT);
}

/* A copy of the file in a block of its length, so that a sanitizer sees what is read behind it. */
static void try_file(const uint8_t *bytes, size_t len) {
    static const NcsLimits limits = {.memory = ROOM, .depth = 2, .milliseconds = 1};
    static const char *const names[] = {"add", "count", "start", "_end", "nothing", ""};
    uint8_t *exact = malloc(len != 0 ? len : 1);
    NcsRefusal why;
    NcsModule *module;
    NcsBox *box;
    size_t k;
    if (exact == NULL) {
        abort();
    }
    memcpy(exact, bytes, len);
    module = ncs_module_elf(exact, len, &why);
    CHECK(is_named_well(exact, len, module == NULL ? why.at : ncs_entry(module).at) && is_named_well(exact, len, CODE_AT + 200));
    free(exact);
    if (module == NULL) {
        CHECK(why.kind != NCS_OK && why.kind != NCS_BAD_SYSTEM && why.kind != NCS_NO_MEMORY && why.sentence != NULL);
        CHECK((why.kind == NCS_BAD_CODE) == (why.fault != 0));
        refused++;
        kinds[why.kind]++;
        return;
    }
    box = ncs_box_new(module, &limits, &why);
    CHECK(box != NULL || why.kind == NCS_BAD_LIMITS);
    for (k = 0; box != NULL && k < sizeof names / sizeof *names; k++) {
        NcsEnd end = ncs_call(box, ncs_symbol(module, names[k]), NCS_ARGS(1, 2));
        CHECK(end.how == NCS_RETURNED || end.how == NCS_BAD_ENTRY || ncs_reset(box));
    }
    CHECK(ncs_free(box));
    ncs_module_free(module);
    accepted++;
}

/* Changes some places: a byte, a whole number, or a number that is near an edge. */
static void damage(uint64_t *random) {
    static const uint32_t edges[] = {0, 1, 0xFFFF, 0x10000, 0x40000000, 0x7FFFFFFF, 0x80000000, 0xFFFFF000, 0xFFFFFFFF};
    unsigned changes = 1 + next_random(random) % 4;
    memcpy(bad, good, good_len);
    while (changes-- != 0) {
        uint32_t at = place(random), value = next_random(random);
        if (value % 3 == 0) {
            bad[at] = (uint8_t)next_random(random);
        } else if (at / 4 * 4 + 4 <= good_len) {
            value = value % 3 == 1 ? next_random(random) : edges[next_random(random) % (sizeof edges / sizeof *edges)];
            memcpy(bad + at / 4 * 4, &value, 4);
        }
    }
}

int main(int argc, char **argv) {
    uint64_t random = 0x9E3779B97F4A7C15ull * (argc > 3 ? strtoull(argv[3], NULL, 0) | 1 : 1);
    unsigned count = argc > 2 ? (unsigned)strtoul(argv[2], NULL, 0) : 3000, k, before;
    FILE *in = argc > 1 ? fopen(argv[1], "rb") : NULL;
    NcsRefusal why;
    NcsModule *module;
    if (in == NULL || (good_len = fread(good, 1, sizeof good, in)) == 0 || fclose(in) != 0) {
        return 2;
    }
    module = ncs_module_elf(good, good_len, &why);
    if (module == NULL) {
        printf("%s: boxes: %s\n", why.kind == NCS_BAD_SYSTEM ? "skipped" : "refused", why.sentence);
        return why.kind == NCS_BAD_SYSTEM ? SKIPPED : 2;
    }
    ncs_module_free(module);
    before = testing_low_maps();
    for (k = 0; k < good_len; k += 1 + k / 64) {
        try_file(good, k);
    }
    for (k = 0; k < count; k++) {
        damage(&random);
        try_file(bad, good_len);
    }
    CHECK(refused != 0 && accepted != 0 && kinds[NCS_BAD_FILE] != 0 && kinds[NCS_BAD_CODE] != 0);
    CHECK(testing_low_maps() == before);
    printf("%u wrong\n", testing_wrong);
    return testing_wrong != 0;
}
