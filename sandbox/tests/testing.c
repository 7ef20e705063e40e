/* What the tests share. */
#define _GNU_SOURCE
#include "testing.h"

#include <asm/ldt.h>
#include <elf.h>
#include <stdio.h>
#include <stdlib.h>
#include <string.h>
#include <sys/syscall.h>
#include <unistd.h>

unsigned testing_wrong;

size_t testing_elf(uint8_t *to, const uint8_t *code, uint32_t len) {
    /* clang-format off */
    static const Elf32_Ehdr h = {.e_ident = ELFMAG "\1\1\1", .e_type = ET_EXEC, .e_machine = EM_386, .e_version = 1, .e_entry = CODE_AT,
                                 .e_phoff = sizeof h, .e_ehsize = sizeof h, .e_phentsize = sizeof(Elf32_Phdr), .e_phnum = 2};
    /* clang-format on */
    Elf32_Phdr p[2] = {{.p_type = PT_LOAD, .p_vaddr = CODE_AT, .p_filesz = len, .p_memsz = len, .p_flags = PF_R | PF_X},
                       {.p_type = PT_LOAD, .p_vaddr = DATA_AT, .p_filesz = 16, .p_memsz = 4096, .p_flags = PF_R | PF_W}};
    p[0].p_offset = p[1].p_offset = sizeof h + sizeof p;
    memcpy(to, &h, sizeof h);
    memcpy(to + sizeof h, p, sizeof p);
    memcpy(to + sizeof h + sizeof p, code, len);
    return sizeof h + sizeof p + len;
}

static void give_up(const NcsRefusal *why) {
    if (why->kind == NCS_BAD_SYSTEM) {
        printf("skipped: boxes: %s\n", why->sentence);
        exit(SKIPPED);
    }
    printf("refused: %s, fault %u at %08x\n", why->sentence, (unsigned)why->fault, (unsigned)why->at);
    exit(2);
}

NcsModule *testing_module(const uint8_t code[CODE_LEN]) {
    uint8_t file[FILE_ROOM];
    NcsRefusal why;
    NcsModule *module = ncs_module_elf(file, testing_elf(file, code, CODE_LEN), &why);
    if (module == NULL) {
        give_up(&why);
    }
    return module;
}

NcsBox *testing_box(NcsModule *module) {
    static const NcsLimits limits = {.memory = MEMORY, .depth = 16, .milliseconds = 30};
    NcsRefusal why;
    NcsBox *box = ncs_box_new(module, &limits, &why);
    if (box == NULL) {
        give_up(&why);
    }
    return box;
}

unsigned testing_low_maps(void) {
    FILE *maps = fopen("/proc/self/maps", "r");
    unsigned low = 0;
    char line[512];
    while (maps != NULL && fgets(line, sizeof line, maps) != NULL) {
        uint64_t from = strtoull(line, NULL, 16);
        low += from >= 0x10000 && from >> 32 == 0; /* where boxes and modules are */
    }
    if (maps != NULL) {
        fclose(maps);
    }
    return low;
}

unsigned testing_segments(void) {
    static uint64_t table[LDT_ENTRIES];
    long len = syscall(SYS_modify_ldt, 0, table, sizeof table), k;
    unsigned count = 0;
    for (k = 0; k < len / (long)sizeof *table; k++) {
        count += table[k] != 0;
    }
    return count;
}

void testing_check(int good, const char *what, const char *file, int line) {
    if (!good) {
        __atomic_add_fetch(&testing_wrong, 1, __ATOMIC_SEQ_CST);
        printf("WRONG: %s, at %s:%d\n", what, strrchr(file, '/') != NULL ? strrchr(file, '/') + 1 : file, line);
    }
}
