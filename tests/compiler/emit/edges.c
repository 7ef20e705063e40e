/* Layouts at their edges, each against what it has to be. */
#include "judge.h"

#include <stdio.h>
#include <stdlib.h>
#include <string.h>

static const uint8_t fifteen[15] = {0x66, 0x66, 0x66, 0x66, 0x2E, 0x0F, 0x1F, 0x84};

/* So many bytes of one-byte instructions. */
static void give_bytes(NceCode *c, uint32_t count) {
    while (count-- != 0) nce_instruction(c, "\x40", 1);
}

/* A jump over `between` bytes, forward or back; the length that it has. */
static uint32_t jump_length(uint32_t cc, uint32_t before, uint32_t between, int is_back, int is_far) {
    NceCode c;
    uint32_t label, at, behind;
    nce_begin(&c);
    label = nce_label(&c);
    give_bytes(&c, before);
    if (is_back) {
        nce_bind(&c, label);
        give_bytes(&c, between);
    }
    nce_jump(&c, cc, label);
    if (is_far) nce_far(&c);
    at = nce_last(&c);
    if (!is_back) {
        give_bytes(&c, between);
        nce_bind(&c, label);
    }
    nce_instruction(&c, "\x41", 1);
    behind = nce_last(&c);
    check(nce_layout(&c) != 0, "a layout with one jump");
    at = nce_place(&c, behind) - nce_place(&c, at) - (is_back ? 0 : between);
    nce_end(&c);
    return at;
}

/* The bytes before are such that no nops come between. */
static void try_distances(void) {
    check(jump_length(NCE_ALWAYS, 0, 126, 1, 0) == 2, "a jump back by 128");
    check(jump_length(NCE_ALWAYS, 32, 127, 1, 0) == 5, "a jump back by 130, behind a nop");
    check(jump_length(NCE_ALWAYS, 1, 127, 1, 0) == 5, "a jump back by 129");
    check(jump_length(4, 0, 126, 1, 0) == 2, "a branch back by 128");
    check(jump_length(4, 1, 127, 1, 0) == 6, "a branch back by 129");
    check(jump_length(NCE_ALWAYS, 0, 120, 0, 0) == 2, "a jump ahead by 120");
    check(jump_length(NCE_ALWAYS, 0, 128, 0, 0) == 5, "a jump ahead by 128");
    check(jump_length(4, 0, 128, 0, 0) == 6, "a branch ahead by 128");
    check(jump_length(NCE_ALWAYS, 0, 4, 0, 1) == 5, "a far jump");
    check(jump_length(4, 0, 4, 1, 1) == 6, "a far branch");
}

/* A jump short at first, which becomes long since calls in between fill bundles. */
static void try_growth(void) {
    NceCode c;
    uint32_t to, at, next, k;
    nce_begin(&c);
    to = nce_label(&c);
    nce_jump(&c, 4, to);
    at = nce_last(&c);
    nce_instruction(&c, "\x40", 1);
    next = nce_last(&c);
    for (k = 0; k < 6; k++) nce_call_to(&c, 0x10000);
    nce_bind(&c, to);
    nce_instruction(&c, "\x40", 1);
    check(nce_layout(&c) == 7 * 32, "calls that end their bundles");
    check(nce_place(&c, next) - nce_place(&c, at) == 6, "a jump that doesn't reach over them");
    nce_end(&c);
}

/* An instruction that ends just at the bundle's end, and one that doesn't. */
static void try_ends(void) {
    uint32_t before, len;
    for (len = 1; len <= 15; len++) {
        for (before = 0; before <= 40; before++) {
            NceCode c;
            uint8_t bytes[96];
            uint32_t label, at, wanted = before % 32 + len > 32 ? (before + 31) / 32 * 32 : before, k;
            nce_begin(&c);
            label = nce_label(&c);
            give_bytes(&c, before);
            nce_bind(&c, label);
            nce_instruction(&c, fifteen, len);
            at = nce_last(&c);
            give_bytes(&c, 1);
            check(nce_layout(&c) != 0 && nce_write(&c, 0, bytes), "a layout of instructions of all lengths");
            check(nce_place(&c, at) == wanted, "where it fits");
            check(nce_label_place(&c, label) == wanted, "a label before nops is bound behind them");
            check(memcmp(bytes + wanted, fifteen, len) == 0, "its bytes");
            for (k = 0; k < before; k++) check(bytes[k] == 0x40, "those before it");
            nce_end(&c);
        }
    }
}

/* Labels, entries, and an address before and after the layout. */
static void try_labels(void) {
    NceCode c;
    uint8_t bytes[96];
    uint32_t entry, plain, end, word;
    nce_begin(&c);
    entry = nce_label(&c);
    plain = nce_label(&c);
    end = nce_label(&c);
    nce_raw(&c, "\xB8\0\0\0\0", 5);
    nce_address(&c, entry);
    nce_bind(&c, plain);
    nce_bind(&c, entry);
    give_bytes(&c, 3);
    nce_align(&c);
    nce_bind(&c, end);
    check(nce_label_address(&c, entry, 0x20000) == 0, "no address before the layout");
    check(nce_place(&c, 0) == NCE_NOWHERE && nce_label_place(&c, plain) == NCE_NOWHERE, "no place before the layout");
    check(!nce_write(&c, 0, bytes), "no bytes before the layout");
    check(nce_layout(&c) == 64 && nce_write(&c, 0x20000, bytes), "a layout with an entry");
    memcpy(&word, bytes + 1, 4);
    check(word == 0x20020 && nce_label_address(&c, entry, 0x20000) == 0x20020, "the address of an entry");
    check(nce_label_address(&c, plain, 0x20000) == 0, "a label that is no entry has none");
    check(nce_label_place(&c, plain) == 32 && nce_label_place(&c, end) == 64, "labels before an entry, and at the end");
    nce_entry(&c, plain);
    check(nce_label_address(&c, plain, 0) == 0, "no address after an entry was added");
    check(nce_layout(&c) == 64 && nce_label_address(&c, plain, 0) == 32, "and again after a layout");
    give_bytes(&c, 1);
    check(!nce_write(&c, 0, bytes), "no bytes after an instruction was added");
    nce_end(&c);
}

static uint32_t fault_of(int which) {
    NceCode c;
    uint32_t label, fault;
    nce_begin(&c);
    label = nce_label(&c);
    switch (which) {
    case 0: nce_jump(&c, 4, label); break;
    case 1: nce_jump(&c, 4, label + 1); break;
    case 2:
        nce_bind(&c, label);
        nce_bind(&c, label);
        break;
    case 3: nce_raw(&c, "\xC3", 1); break;
    case 4: nce_raw(&c, "\xB8", 1); break;
    case 5:
        nce_raw(&c, "\xB8", 1);
        nce_bind(&c, label);
        break;
    case 6:
        nce_raw(&c, "\xB8", 1);
        nce_instruction(&c, "\x40", 1);
        nce_raw(&c, "\x40", 1);
        break;
    case 7: nce_instruction(&c, fifteen, 0); break;
    case 8: nce_instruction(&c, fifteen, 16); break;
    case 9: nce_address(&c, label); break;
    case 10:
        nce_raw(&c, "\x40", 1);
        nce_address(&c, label);
        break;
    case 11:
        nce_raw(&c, "\xB8\0\0\0\0", 5);
        nce_bind(&c, label);
        nce_address(&c, label);
        break;
    case 12:
        nce_raw(&c, "\xB8\0\0\0\0", 5);
        nce_bind(&c, nce_label(&c));
        nce_last(&c);
        break;
    case 13:
        nce_raw(&c, "\x40", 1);
        nce_far(&c);
        break;
    case 14:
        nce_jump_to(&c, 4, 0);
        nce_raw(&c, "\x40", 1);
        nce_far(&c);
        break;
    case 15: nce_jump_by(&c, NCE_ESP); break;
    case 16: nce_return(&c, 8); break;
    case 17: nce_last(&c); break;
    case 18: nce_raw(&c, "\x66\x66\x66\x66\x66\x66\x66\x66\x66\x66\x66\x66\x66\x66\x66\x40", 16); break;
    case 19:
        nce_raw(&c, "\xB8\0\0\0\0", 5);
        nce_address(&c, label);
        nce_address(&c, label);
        nce_bind(&c, label);
        break;
    default: nce_entry(&c, label + 1); break;
    }
    check(nce_layout(&c) == 0, "a layout in spite of a fault");
    fault = c.fault;
    nce_end(&c);
    return fault;
}

static void try_faults(void) {
    static const uint8_t wanted[] = {3, 3, 3, 2, 2, 2, 2, 2, 2, 2, 2, 2, 2, 2, 2, 2, 2, 2, 2, 2, 3};
    unsigned k;
    for (k = 0; k < sizeof wanted; k++) {
        if (fault_of((int)k) != wanted[k]) {
            printf("WRONG: fault %u\n", k);
            exit(1);
        }
    }
}

/* Nothing, and only labels. */
static void try_empty(void) {
    NceCode c;
    nce_begin(&c);
    check(nce_layout(&c) == 0 && c.fault == NCE_OK, "nothing");
    nce_bind(&c, nce_label(&c));
    nce_align(&c);
    check(nce_layout(&c) == 0 && c.fault == NCE_OK, "a label and nothing");
    nce_jump(&c, NCE_ALWAYS, 0);
    check(nce_layout(&c) == 32, "a jump to itself");
    nce_end(&c);
}

/* Many jumps, each over some others, so that the short ones just reach: ahead, or back. */
static void try_chain(uint32_t count, uint32_t over, int is_back) {
    NceCode c;
    uint8_t *bytes;
    uint32_t k;
    nce_begin(&c);
    for (k = 0; k < count + over; k++) (void)nce_label(&c);
    for (k = 0; k < count; k++) {
        nce_bind(&c, k);
        give_bytes(&c, k % 3);
        nce_jump(&c, k % 16, !is_back ? k + over : k < over ? 0 : k - over);
    }
    for (; k < count + over; k++) nce_bind(&c, k);
    give_bytes(&c, 1);
    check(nce_layout(&c) != 0 && c.passes < 200, "a chain of jumps");
    bytes = malloc(c.size);
    check(bytes != NULL && nce_write(&c, 0x20000, bytes), "its bytes");
    check(vetted(0x20000, bytes, c.size), is_back ? "a chain back is accepted" : "a chain is accepted");
    free(bytes);
    nce_end(&c);
}

void try_edges(void) {
    uint32_t over;
    try_distances();
    try_growth();
    try_ends();
    try_labels();
    try_faults();
    try_empty();
    for (over = 1; over < 60; over++) {
        try_chain(300, over, 0);
        try_chain(300, over, 1);
    }
    try_chain(20000, 37, 0);
}
