/*
 * nc_code.h: finds room for code, creates, patches and deletes it, over the calls of nc_run.h.
 *
 * No room is normal, and the program goes on without the code. Room is looked for from where the last chunk ended, and then from the
 * beginning. So a chunk is deleted at once, and its room is used again when no thread can be in it.
 */
#ifndef NC_CODE_H
#define NC_CODE_H

#include "nc_emit.h"

#ifdef __cplusplus
extern "C" {
#endif

/* Why the last call returned 0 or NULL: there is no room now, and `held` bytes are of deleted chunks that threads may still be in; none, or
   no live code; the host has refused it, with a fault of nc_host.h and where the code has it, or an error (EINVAL: not in the area); the
   code has no layout; there is no memory. */
enum { NC_CODE_MADE, NC_CODE_HELD, NC_CODE_FULL, NC_CODE_REFUSED, NC_CODE_NO_LAYOUT, NC_CODE_NO_MEMORY };
typedef struct NcCodeWhy {
    int kind, fault, error;
    uint32_t at, held;
} NcCodeWhy;
extern NcCodeWhy nc_code_why;

/* Creates the code, which is laid out before. Returns its address, a pointer to a function. `room` has its size, or is null. It then is a
   copy of the code, which itself can't be read. */
void *nc_code_new(NceCode *code, void *room);
void nc_code_free(void *code); /* which may be null */

/* Whole instructions, for others of the same lengths in one bundle. nce_transfer makes a jump or call. `copy` is their copy, or null. */
int nc_code_patch(uint32_t at, const void *bytes, uint32_t len, void *copy);

/* The steps of nc_code_new: an address with so much room, and the creation of code for it. Room isn't taken before that, so chunks that
   lead to each other get one span together. */
uint32_t nc_code_span(uint32_t len);
void *nc_code_put(uint32_t span, const void *bytes, uint32_t len);

#ifdef __cplusplus
}
#endif

#endif
