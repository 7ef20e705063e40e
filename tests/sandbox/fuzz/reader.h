/* A plain reader of ELF files, as a model of nc_host_elf and of what the library reads besides. It is written from the System V ABI and
   from the comments of nc_host.h and nc_sandbox.h. Unlike nc_host_elf it is compiled for the fuzzer, which its branches lead into the
   format. */
#ifndef READER_H
#define READER_H

#include "nc_host.h"

#define READER_FILE_MOST 0x8000u /* bytes of a file, at most */
#define READER_SEGMENTS 64u
#define READER_SYMBOLS (READER_FILE_MOST / 16)

typedef struct ReaderSymbol {
    uint32_t at;
    const char *name; /* NULL if it isn't among the names */
    int is_global;    /* and defined */
    int is_of_code;   /* a function, or of no type, in a section of code, within the file's code */
} ReaderSymbol;

typedef struct Reader {
    const uint8_t *file;
    size_t len;
    uint32_t fault;                      /* what nc_host_elf has to say of the file, if it has room */
    uint32_t header;                     /* of a segment's fault */
    NcSegment segments[READER_SEGMENTS]; /* those loaded that have bytes in memory, as far as there is room */
    size_t segment_count;                /* of all of them */
    int is_program;                      /* whether the library takes it, as far as its headers say */
    uint32_t data_begin, data_end, entry;
    NcSegment code;
    ReaderSymbol symbols[READER_SYMBOLS];
    size_t symbol_count;
} Reader;

void reader_read(Reader *reader, const uint8_t *file, size_t len);

/* What ncs_symbol and ncs_function_at have to return. */
uint32_t reader_symbol(const Reader *reader, const char *name);
const char *reader_function(const Reader *reader, uint32_t at, uint32_t *offset);

#endif
