/* Unpacks runs of letters in a box, for the hosts of this folder. "3a1b" is "aaab". One thread at a time uses an unpacker. */
#ifndef UNPACKER_H
#define UNPACKER_H

#define UNPACKED_MAX 64

typedef struct Unpacker {
    struct NcsModule *module;
    struct NcsBox *box;
} Unpacker;

/* Makes an unpacker from the ELF file of ../unpack.c. Returns null if it is refused. Then `why` gets the reason, a constant text. */
Unpacker *unpacker_new(const char *path, const char **why);

/* Unpacks a text to at most UNPACKED_MAX printable ASCII characters and a 0. Returns null if that is done, or else the reason, a constant
   text. Whatever happened, the box is as new. */
const char *unpacker_unpack(Unpacker *unpacker, const char *packed, char text[UNPACKED_MAX + 1]);

#endif
