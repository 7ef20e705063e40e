/* What the tests of live code share: chunks of code, a module and its boxes. */
#ifndef CODES_H
#define CODES_H

#include "inner.h"
#include "testing.h"

#define BUNDLE NC_BUNDLE
#define BUNDLES 127u /* with the guard a page of code */
#define LIMIT NC_LIMIT(BUNDLES + 1)
#define HERE 0x10000u /* where most chunks are */
#define THERE 0x10400u
#define SHARED 0x110000u /* words in the box's memory, for code that waits */
#define ROOM 0x112000u   /* a box's memory */
#define SHORT 30u        /* milliseconds */
#define LONG 10000u
#define MOV_LEN 5u /* of the instruction that loads a number */

/* `mov eax, number`, and back to the caller: a bundle. The instruction alone is for a patch. */
void codes_number(uint8_t code[BUNDLE], uint32_t number);
void codes_mov(uint8_t code[MOV_LEN], uint32_t number);

/* Sets the word at an address of the box to 1, waits until the next one isn't 0, and returns: a bundle. */
void codes_wait(uint8_t code[BUNDLE], uint32_t at);

/* A loop without end, once ESP is the first argument: a bundle. */
void codes_loop(uint8_t code[BUNDLE]);

/* Calls call-back 0, without arguments, and returns what that returns: two bundles, at this base. */
void codes_call(uint8_t code[2 * BUNDLE], uint32_t base);

/* A load from an address of the box, or a store there, and a return; a masked jump to an address, by the instruction at JUMP: a bundle. */
void codes_load(uint8_t code[BUNDLE], uint32_t at);
void codes_store(uint8_t code[BUNDLE], uint32_t at);
void codes_jump(uint8_t code[BUNDLE], uint32_t to);
#define JUMP 8u

/* They end the process with SKIPPED if the system has no live code, and with 2 if anything else is refused. */
NcsModule *codes_module(uint32_t bundles); /* all of its text has pages */
NcsBox *codes_box(NcsModule *module, uint32_t milliseconds);
void codes_end(NcsModule *module, NcsBox *box);

/* The calls, for code without arguments. Whether the change was made, and whether the code returned this number. */
int codes_create(NcsModule *module, uint32_t at, const uint8_t *code, size_t len);
int codes_create_number(NcsModule *module, uint32_t at, uint32_t number);
int codes_delete(NcsModule *module, uint32_t at);
NcsEnd codes_run(NcsBox *box, uint32_t at);
int codes_returns(NcsBox *box, uint32_t at, uint32_t number);

/* The text as it is executed, and a check that it is what the region has, and that each live chunk is accepted once more. */
const uint8_t *codes_text(const NcsModule *module, uint32_t at);
void codes_check(const NcsModule *module);

#endif
