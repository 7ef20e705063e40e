/* The unpacker that the hosts of this folder share. With the library installed, in a copy of examples/boxes, in the folder `hosts`:

       nc-cc -O2 --data 00110000 -e unpack ../unpack.c -o unpack.elf
       gcc -shared -fPIC unpacker.c $(pkg-config --cflags --libs nc_sandbox) -o libunpacker.so

   A process can have the library of boxes only once. So it is in a shared library, which all add-ons of a process use. It stays loaded from
   the first module on, though a host may unload the add-ons. */
#include "unpacker.h"
#include "nc_sandbox.h"

#include <stdio.h>
#include <stdlib.h>
#include <string.h>

#define FILE_MAX (1 << 16)

/* A file that can't be read is refused as an empty one is. */
static NcsModule *load(const char *path, NcsRefusal *why) {
    char bytes[FILE_MAX];
    FILE *file = fopen(path, "rb");
    size_t len = file != NULL ? fread(bytes, 1, sizeof bytes, file) : 0;
    if (file != NULL) {
        (void)fclose(file); /* it was only read */
    }
    return ncs_module_elf(bytes, len, why);
}

Unpacker *unpacker_new(const char *path, const char **why) {
    static const NcsLimits limits = {.memory = 4 << 20, .depth = 1, .milliseconds = 100};
    NcsRefusal refusal = {.sentence = "out of memory"};
    Unpacker *made = calloc(1, sizeof *made);
    if (made != NULL && (made->module = load(path, &refusal)) != NULL) {
        made->box = ncs_box_new(made->module, &limits, &refusal);
    }
    if (made != NULL && made->box != NULL) {
        return made;
    }
    *why = refusal.sentence;
    if (made != NULL) {
        ncs_module_free(made->module);
    }
    free(made);
    return NULL;
}

/* What comes out of a box is untrusted, and a host expects a text. */
static int is_text(const char *text, uint32_t len) {
    uint32_t k = 0;
    while (k < len && text[k] >= ' ' && text[k] <= '~') {
        k++;
    }
    return k == len;
}

static const char *judge(NcsBox *box, NcsEnd end, NcsAt out, char text[UNPACKED_MAX + 1]) {
    if (end.how != NCS_RETURNED) {
        return ncs_how(end.how);
    }
    if (end.result > UNPACKED_MAX || !ncs_get(box, text, out, end.result) || !is_text(text, end.result)) {
        return "not a text";
    }
    text[end.result] = 0;
    return NULL;
}

const char *unpacker_unpack(Unpacker *unpacker, const char *packed, char text[UNPACKED_MAX + 1]) {
    NcsBox *box = unpacker->box;
    uint32_t len = (uint32_t)strnlen(packed, UINT32_MAX);
    NcsAt in = ncs_put(box, packed, len), out = ncs_take(box, UNPACKED_MAX);
    NcsEnd end = ncs_call(box, ncs_symbol(unpacker->module, "unpack"), NCS_ARGS(out.at, in.at, len));
    const char *wrong = judge(box, end, out, text);
    return ncs_reset(box) || wrong != NULL ? wrong : "the box can't be reset";
}
