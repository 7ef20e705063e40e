/* What the tests share: ELF files made here, and ends in words. */
#ifndef TESTING_H
#define TESTING_H

#include "nc_sandbox.h"

#include <stddef.h>
#include <stdint.h>

#define CODE_AT 0x10000u
#define CASE_AT (CODE_AT + 32) /* the code of a case; the bundle before it returns */
#define CODE_LEN 96u
#define CODE_LIMIT 0x11000u
#define DATA_AT 0x30000u /* of a page of data, with the stack below it */
#define MEMORY (1u << 20)
#define SKIPPED 77
#define FILE_ROOM 4096u

/* Writes an ELF file with this code at CODE_AT and a page of data; its length. */
size_t testing_elf(uint8_t *to, const uint8_t *code, uint32_t len);

/* A box for a case: MEMORY bytes, 16 calls within calls, 30 ms. It ends the process with SKIPPED if the system has no boxes, and with 2 if
   anything else is refused. */
NcsBox *testing_box(NcsModule *module);
NcsModule *testing_module(const uint8_t code[CODE_LEN]);

/* What the process has of what modules and boxes take: mappings where they are, and segments. */
unsigned testing_low_maps(void);
unsigned testing_segments(void);

/* Counts what is wrong, and says where. */
extern unsigned testing_wrong;
#define CHECK(good) testing_check((good) != 0, #good, __FILE__, __LINE__)
void testing_check(int good, const char *what, const char *file, int line);

#endif
