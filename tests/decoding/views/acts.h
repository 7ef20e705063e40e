/* The acts by which a region changes one instruction of five bytes, as the library writes them. */
#ifndef ACTS_H
#define ACTS_H

#include <stddef.h>
#include <stdint.h>

#define LENGTH 5u    /* bytes of the instruction, which is `mov $number, %register` */
#define REGISTERS 7u /* all but %esp */
#define VERSIONS 49u /* a multiple of REGISTERS */
#define MOST_ACTS 16u
#define SERIALIZATIONS 3u /* the two of a change, and one between two changes, which no region makes */

/* The byte of a version at a place of the instruction. Version v names the register v modulo REGISTERS. Each further byte tells its place
   and v modulo VERSIONS. No byte of a version is 0 or a stop. */
uint8_t version_byte(uint64_t version, unsigned place);

typedef struct Act {
    enum { PUT_STOP, PUT_NEW, PUT_FOREIGN, PUT_TRAP, SERIALIZE } kind; /* only controls put foreign bytes and traps */
    unsigned number; /* the place of a put, from 0, or the number of serializations that the change has before this one */
} Act;

typedef struct Acts {
    Act all[MOST_ACTS];
    size_t count;
} Acts;

/* The acts of a patch from one version to the next, where the instruction is this far from its bundle's start. They are followed by
   the serialization between two changes. */
Acts acts_of_patch(unsigned offset);

/* The same for a replacement. The chunk that starts with the instruction is deleted, and one with the next version is created there. */
Acts acts_of_replacement(void);

#endif
