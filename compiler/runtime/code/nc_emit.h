/*
 * nc_emit.h: writes code in bundles, for generators of code in the sandbox. nc_code.h makes a chunk of it.
 *
 * A generator gives it ordinary i386 instructions, labels and transfers in order. It places them by the rules for chunks: no instruction
 * crosses the end of a bundle, a call ends where its bundle ends, an indirect transfer directly follows its mask, an entry is a bundle
 * start, and nops fill the gaps. A jump to a near label is short. It judges nothing, since the host does.
 *
 *     NceCode code;
 *     nce_begin(&code);
 *     nce_instruction(&code, "\x8B\x44\x24\x04", 4);       mov eax, [esp + 4]
 *     nce_return(&code, NCE_ECX);
 *     int (*function)(int) = nc_code_new(&code, NULL);     NULL if there is no room: nc_code_why says why
 *     nce_end(&code);
 *
 * A call that can't be carried out leaves a fault in `fault`. The calls after it then do nothing, and nce_layout returns 0.
 */
#ifndef NC_EMIT_H
#define NC_EMIT_H

#include <stdint.h>

#ifdef __cplusplus
extern "C" {
#endif

/* Faults: there is no memory, or more than NCE_MOST bytes; bytes that can't be raw, or something in the midst of an instruction; a label
   that isn't there, is bound twice, or is used and isn't bound. */
enum { NCE_OK, NCE_NO_MEMORY, NCE_BAD_BYTES, NCE_BAD_LABEL };
enum { NCE_EAX, NCE_ECX, NCE_EDX, NCE_EBX, NCE_ESP, NCE_EBP, NCE_ESI, NCE_EDI };
#define NCE_ALWAYS 16u /* the condition of a jump; 0 to 15 are those of Jcc, 70 + cc */
#define NCE_CALL 17u   /* for nce_transfer */
#define NCE_BUNDLE 32u
#define NCE_LONGEST 15u     /* bytes of an instruction */
#define NCE_MOST (1u << 26) /* bytes that can be given */
#define NCE_NOWHERE (~(uint32_t)0)

/* What is more than an instruction. Its bytes are among the others, as many as they can become. */
typedef struct NceItem {
    uint32_t raw, place, label; /* where it begins in `bytes`, and in the code; its label or address */
    uint8_t kind, raw_len, len, is_far;
} NceItem;

typedef struct NceLabel {
    uint32_t place, item;
    uint8_t is_entry;
} NceLabel;

typedef struct NceCode {
    uint32_t fault, size, passes; /* passes of the layout */
    uint32_t len, room, partial;  /* of `bytes`; how many of the last ones aren't a whole instruction yet */
    uint8_t *bytes;
    uint32_t *borders; /* a bit of each byte: whether an instruction begins there */
    NceItem *items;
    NceLabel *labels;
    uint32_t count, items_room, label_count, labels_room;
    uint32_t open, laid; /* labels that are used and not bound yet; `len` at the layout */
} NceCode;

void nce_begin(NceCode *code);
void nce_end(NceCode *code); /* frees its memory */

/* One whole instruction that is no transfer; and any number of them, whose borders are found by decoding. One may then come in parts, if
   nothing else comes between. nce_length tells how long the first one is; 0 if these aren't all of its bytes, -1 if it can't be raw. */
void nce_instruction(NceCode *code, const void *bytes, uint32_t len);
void nce_raw(NceCode *code, const void *bytes, uint32_t len);
int nce_length(const uint8_t *bytes, uint32_t len);

uint32_t nce_label(NceCode *code);               /* a new label */
void nce_bind(NceCode *code, uint32_t label);    /* it is here; if nothing follows, it may be where the next chunk begins */
void nce_entry(NceCode *code, uint32_t label);   /* indirect transfers or other chunks lead to it, so it is a bundle start */
void nce_address(NceCode *code, uint32_t label); /* the last four bytes of the last instruction become its address; an entry */
void nce_align(NceCode *code);                   /* here is a bundle start */

/* Transfers. Those by a register mask it, so the flags are lost. A return takes the address into a register, which is lost too. */
void nce_jump(NceCode *code, uint32_t cc, uint32_t label);
void nce_jump_to(NceCode *code, uint32_t cc, uint32_t address); /* a bundle start of another chunk, or a call of the host */
void nce_far(NceCode *code);                                    /* the last jump is to be patched, so it is long */
void nce_call(NceCode *code, uint32_t label);
void nce_call_to(NceCode *code, uint32_t address);
void nce_jump_by(NceCode *code, unsigned reg);
void nce_call_by(NceCode *code, unsigned reg);
void nce_return(NceCode *code, unsigned reg);

/* Places all of it, and returns the size, whole bundles; 0 if there is a fault, or nothing. The base is chosen afterwards. */
uint32_t nce_layout(NceCode *code);

/* Writes the code for a base, a bundle start, into `size` bytes. 0 if it isn't laid out as it is now. */
int nce_write(const NceCode *code, uint32_t base, void *to);

/* Which one the last instruction or transfer is. After the layout nce_place tells how far it is from the base, and nce_label_place the same
   of a label; NCE_NOWHERE if there is no layout. */
uint32_t nce_last(NceCode *code);
uint32_t nce_place(const NceCode *code, uint32_t last);
uint32_t nce_label_place(const NceCode *code, uint32_t label);

/* The address of an entry; 0 if there is no layout, or it is no entry. A table of jumps has such addresses: load one, and nce_jump_by. */
uint32_t nce_label_address(const NceCode *code, uint32_t label, uint32_t base);

/* The bytes of a long jump or call from one address to another, with which one is patched. Returns how many. */
uint32_t nce_transfer(uint8_t to[6], uint32_t cc, uint32_t at, uint32_t target);

#ifdef __cplusplus
}
#endif

#endif
