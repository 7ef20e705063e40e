/* distorm3. */
#include "other.h"

#include <distorm3/distorm.h>
#include <stdio.h>
#include <string.h>

const char *other_begin(const char *path) {
    static char name[40];
    unsigned version = distorm_version();
    (void)path;
    snprintf(name, sizeof name, "distorm3 %u.%u.%u", version >> 16, version >> 8 & 0xFF, version & 0xFF);
    return name;
}

void other_look(const uint8_t *bytes, uint32_t at, Seen *seen) {
    _DecodedInst one;
    unsigned count = 0;
    distorm_decode(at, bytes, 15, Decode32Bits, &one, 1, &count);
    if (count != 0 && strncmp((const char *)one.mnemonic.p, "DB", 2) != 0) {
        seen->length = one.size;
        snprintf(seen->text, sizeof seen->text, "%s %s", (const char *)one.mnemonic.p, (const char *)one.operands.p);
    }
}
