/* Changes ELF files at random where they say how they are made, so that most of them still get far. An input that isn't an ELF file is
   code, behind some bytes that say how it is tried. */
#ifndef FIELDS_H
#define FIELDS_H

#include <stddef.h>
#include <stdint.h>

#define FIELDS_HEAD 3u /* bytes before the code, where there is no ELF file */

/* Changes a file of some bytes in place, by at most `most` of them, and returns its length. */
size_t fields_change(uint8_t *bytes, size_t len, size_t most, uint64_t random);

#endif
