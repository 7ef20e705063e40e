/* Capstone. */
#include "other.h"

#include <capstone/capstone.h>
#include <stdio.h>
#include <stdlib.h>

static csh decoder;
static cs_insn *room;

const char *other_begin(const char *path) {
    static char name[40];
    int major, minor;
    (void)path;
    cs_version(&major, &minor);
    snprintf(name, sizeof name, "Capstone %d.%d", major, minor);
    if (cs_open(CS_ARCH_X86, CS_MODE_32, &decoder) != CS_ERR_OK) {
        exit(2);
    }
    room = cs_malloc(decoder);
    return name;
}

void other_look(const uint8_t *bytes, uint32_t at, Seen *seen) {
    size_t left = 15;
    uint64_t address = at;
    if (cs_disasm_iter(decoder, &bytes, &left, &address, room)) {
        seen->length = room->size;
        snprintf(seen->text, sizeof seen->text, "%s %s", room->mnemonic, room->op_str);
    }
}
