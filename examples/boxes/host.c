/* Unpacks runs of letters by a decoder that nobody has to trust: host UNPACK.ELF. docs/SANDBOX.md explains it. */
#include "nc_sandbox.h"

#include <stdio.h>
#include <string.h>

static unsigned char file[1 << 16];

static void unpack(NcsModule *module, NcsBox *box, const char *packed) {
    char text[64];
    uint32_t len = (uint32_t)strlen(packed);
    NcsAt in = ncs_put(box, packed, len), out = ncs_take(box, sizeof text);
    NcsEnd end = ncs_call(box, ncs_symbol(module, "unpack"), NCS_ARGS(out.at, in.at, len));
    if (end.how != NCS_RETURNED) {
        printf("%s: %s by interrupt %u\n", packed, ncs_how(end.how), (unsigned)end.trap);
    } else if (end.result <= sizeof text && ncs_get(box, text, out, end.result)) {
        printf("%s: %.*s\n", packed, (int)end.result, text);
    }
    ncs_reset(box); /* whatever happened, the box is as new */
}

int main(int argc, char **argv) {
    const NcsLimits limits = {.memory = 4 << 20, .depth = 1, .milliseconds = 100};
    FILE *in = argc == 2 ? fopen(argv[1], "rb") : NULL;
    size_t len = in != NULL ? fread(file, 1, sizeof file, in) : 0;
    NcsRefusal why;
    NcsModule *module = ncs_module_elf(file, len, &why);
    NcsBox *box = module != NULL ? ncs_box_new(module, &limits, &why) : NULL;
    if (box == NULL) {
        printf("refused: %s\n", why.sentence);
        return 1;
    }
    unpack(module, box, "3a1b10c");
    unpack(module, box, "99999999a"); /* the decoder doesn't look how much room there is */
    unpack(module, box, "1o1k");
    ncs_free(box);
    ncs_module_free(module);
    return 0;
}
