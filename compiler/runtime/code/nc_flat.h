/*
 * nc_flat.h: gives finished i386 code with relocations to nc_emit, as a compiler that knows nothing of bundles writes it.
 *
 * All bytes are instructions. Direct transfers have a relocation, or stay within the code. Returns, and calls and jumps through memory, go
 * by ECX, so ECX is lost there, and the flags at these and at transfers by a register. Nobody misses them by C's conventions for calls.
 * Code with private ones, such as a result in a flag, is accepted and wrong.
 */
#ifndef NC_FLAT_H
#define NC_FLAT_H

#include "nc_emit.h"

#ifdef __cplusplus
extern "C" {
#endif

typedef struct NcFlat {
    NceCode code;
    uint32_t len; /* or where nc_flat_read failed */
    struct NcFlatByte *of;
} NcFlat;

int nc_flat_begin(NcFlat *flat, uint32_t len);               /* 0 if there is no memory */
void nc_flat_foreign(NcFlat *flat, uint32_t offset);         /* four bytes that a relocation fills in; before nc_flat_read */
void nc_flat_entry(NcFlat *flat, uint32_t offset);           /* its address is taken; before nc_flat_read */
int nc_flat_read(NcFlat *flat, const uint8_t *code);         /* 0 if something isn't understood; then nce_layout(&flat->code) */
uint32_t nc_flat_place(const NcFlat *flat, uint32_t offset); /* where an entry or foreign bytes are then; or NCE_NOWHERE */
void nc_flat_end(NcFlat *flat);

#ifdef __cplusplus
}
#endif

#endif
