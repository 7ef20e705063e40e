/* Zydis. */
#include "other.h"

#include <Zydis/Zydis.h>
#include <stdio.h>

const char *other_begin(const char *path) {
    static char name[40];
    uint64_t version = ZydisGetVersion();
    (void)path;
    snprintf(name, sizeof name, "Zydis %u.%u.%u", (unsigned)ZYDIS_VERSION_MAJOR(version), (unsigned)ZYDIS_VERSION_MINOR(version),
             (unsigned)ZYDIS_VERSION_PATCH(version));
    return name;
}

void other_look(const uint8_t *bytes, uint32_t at, Seen *seen) {
    ZydisDisassembledInstruction i;
    if (ZYAN_SUCCESS(ZydisDisassembleIntel(ZYDIS_MACHINE_MODE_LEGACY_32, at, bytes, 15, &i))) {
        seen->length = i.info.length;
        snprintf(seen->text, sizeof seen->text, "%s", i.text);
    }
}
