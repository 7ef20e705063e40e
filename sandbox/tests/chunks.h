/* Chunks made by hand, for threads that run while they are changed. Each judges itself: what isn't as it was written stops at BAD, traps,
   or brings wrong numbers. */
#ifndef CHUNKS_H
#define CHUNKS_H

#include "nc_host.h"

#define REGION 131071u    /* bundles: with the guard 4 MiB of code */
#define BAD 0x60u         /* a bundle start of the zone that has no trampoline */
#define ENTRY_AT 0x10000u /* takes ECX, EBP, ESI, EDI and where to go from its arguments */
#define DONE_AT 0x10020u  /* where a stay ends that is to come out by ESI; and by EDI. What they store: */
#define OTHER_AT 0x10040u
#define RESULT_AT 0x110000u /* ECX, EBX, and DONE or OTHER */
#define DONE 1u
#define OTHER 2u

#define PATCHED_AT 0x20000u /* a loop of ECX rounds, then a jump by ESI; four instructions are patched */
#define PATCHED_LEN 96u
#define ASIDE_AT 0x3FABE0u /* one round of the loop may lead here, far away */
#define ASIDE_LEN 32u
#define CHANGING_AT 0x30000u /* deleted, and created anew with other code; out by a jump by EDI */
#define CHANGING_MAX 512u

/* The two values of EAX with which the loop may end; int3 and ud2 where they are executed. */
#define FIRST_NUMBER 0xCCCCCCCCu
#define SECOND_NUMBER 0x0B0F0B0Fu

/* What a version of the changing chunk comes to. */
typedef struct Version {
    uint8_t code[CHANGING_MAX];
    uint32_t len, id, eax, edx; /* it ends with EBX as `id` */
} Version;

/* A patch of the loop: which instruction, and its new bytes. */
typedef struct Change {
    uint32_t at, len;
    uint8_t bytes[5];
} Change;

void chunks_lay_entry(uint8_t code[NC_BUNDLE]);
void chunks_lay_end(uint8_t code[NC_BUNDLE], uint32_t base, uint32_t way);
void chunks_lay_patched(uint8_t code[PATCHED_LEN]);
void chunks_lay_aside(uint8_t code[ASIDE_LEN]);
void chunks_lay_version(Version *version, uint64_t *random);
Change chunks_change(uint64_t *random);
uint32_t chunks_random(uint64_t *random);

#endif
