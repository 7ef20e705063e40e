/* Ways in: with flags that a host may have, and with the segments of another box, which may have had the same selector. */
#define _GNU_SOURCE
#include "flagging.h"
#include "testing.h"

#include "../inner.h"

#include <stdio.h>
#include <string.h>
#include <sys/mman.h>

#define ROUNDS 100u

/* Loads a word that isn't aligned, and a byte of the data by a string instruction, whose ESI it returns. Two bundles further it returns the
   data's first word, by DS and by ES. */
static const uint8_t CODE[CODE_LEN] = {[0] = 0x59, 0x83, 0xE1,        0xE0, 0xFF, 0xE1, [32] = 0x8B, 0x44, 0x24, 0x05, 0xBE,
                                       0x00,       0x00, 0x03,        0x00, 0xAC, 0x89, 0xF0,        0x59, 0x83, 0xE1, 0xE0,
                                       0xFF,       0xE1, [64] = 0xBF, 0x00, 0x00, 0x03, 0x00,        0x8B, 0x07, 0xAF, 0x0F,
                                       0x94,       0xC2, 0x59,        0x83, 0xE1, 0xE0, 0xFF,        0xE1, 0x90};
#define BOTH_AT (CASE_AT + 32) /* EAX is the word, and DL whether it is the same by ES */

static void try_flags(void) {
    static const uint64_t flags[] = {0, DIRECTION, NESTED_TASK, ALIGNMENT, FLAGGING_ALL};
    NcsModule *module = testing_module(CODE);
    NcsBox *box = testing_box(module);
    unsigned k;
    for (k = 0; k < sizeof flags / sizeof *flags; k++) {
        NcsEnd end;
        CHECK(ncs_call(box, (NcsAt){CASE_AT}, NCS_NO_ARGS).how == NCS_RETURNED); /* so that nothing is left for which a thread serializes */
        flagging_flags = flags[k];
        end = ncs_call(box, (NcsAt){CASE_AT}, NCS_NO_ARGS);
        flagging_flags = 0;
        CHECK(end.how == NCS_RETURNED && end.result == DATA_AT + 1);
        CHECK(end.how == NCS_RETURNED || ncs_reset(box));
    }
    CHECK(flagging_kept == 0 && ncs_free(box));
    ncs_module_free(module);
    puts("flags of the host's");
}

static void set_word(NcsBox *box, uint32_t word) {
    CHECK(ncs_set(box, (NcsAt){DATA_AT}, &word, sizeof word));
}

static int has_word(NcsBox *box, uint32_t word) {
    NcsEnd end = ncs_call(box, (NcsAt){BOTH_AT}, NCS_NO_ARGS);
    return end.how == NCS_RETURNED && end.result == word && (end.high & 0xFF) == 1;
}

static void try_turns(void) {
    NcsModule *module = testing_module(CODE);
    NcsBox *box = testing_box(module), *other = testing_box(module);
    unsigned k;
    set_word(box, 1);
    set_word(other, 2);
    for (k = 0; k < ROUNDS; k++) {
        CHECK(has_word(box, 1) && has_word(other, 2) && has_word(other, 2));
    }
    CHECK(ncs_free(box) && ncs_free(other));
    ncs_module_free(module);
    puts("boxes by turns");
}

/* Each box gets the selector that the thread still has of the one before, and other memory. */
static void try_selectors(void) {
    NcsModule *module = testing_module(CODE);
    NcsBox *other = testing_box(module); /* at base 0 */
    uint32_t at = 0, selector = 0;
    unsigned k, same = 0, moved = 0;
    for (k = 0; k < ROUNDS; k++) {
        NcsBox *box = testing_box(module);
        same += box->memory->selector == selector;
        moved += box->data_at != at;
        selector = box->memory->selector;
        at = box->data_at;
        set_word(box, k);
        CHECK(has_word(box, k) && ncs_free(box));
    }
    CHECK(same == ROUNDS - 1 && moved == ROUNDS && ncs_free(other));
    ncs_module_free(module);
    puts("a selector of a box that is gone");
}

int main(void) {
    try_flags();
    try_turns();
    try_selectors();
    printf("%u wrong\n", testing_wrong);
    return testing_wrong != 0;
}
