/* A short transfer gets each displacement, a near one those below; what else has numbers gets four choices of them. */
#include "numbers.h"

#include <string.h>

/* The last are instructions that trap, were they ever executed. */
static const uint8_t NUMBERS[][LONGEST] = {
    {0x10, 0x00, 0x00, 0x00, 0x01, 0x00, 0x00, 0x00, 0x00, 0x00},
    {0xF8, 0x0F, 0x00, 0x00, 0xFF, 0xFF, 0xFF, 0xFF, 0xFF, 0xFF},
    {0xE0, 0xFF, 0xFF, 0xFF, 0xE0, 0xFF, 0xFF, 0xFF, 0xFF, 0xFF},
    {0xCC, 0xCC, 0xCC, 0xCC, 0x0F, 0x0B, 0xF4, 0xCC, 0xC3, 0xC3},
};
static const uint32_t NEAR[] = {0,          1,          0x1F,       0x20,       0x7F,       0x80,       0xFF,       0x100,      0x7FFFFFFF,
                                0x80000000, 0xFFFF0000, 0xFFFFFF80, 0xFFFFFFFA, 0xFFFFFFFB, 0xFFFFFFFE, 0xFFFFFFFF, 0xCCCCCCCC, 0x0B0F0B0F};

static int is_transfer(const Beginning *b) {
    return b->flow == NC_FLOW_BRANCH || b->flow == NC_FLOW_JUMP || b->flow == NC_FLOW_CALL;
}

int numbers_fill(const Beginning *b, size_t index, uint8_t bytes[LONGEST]) {
    size_t left = (size_t)(b->length - b->count);
    uint8_t chosen[LONGEST] = {0};
    size_t choices = 1;
    if (left == 1 && is_transfer(b)) {
        choices = 256;
        chosen[0] = (uint8_t)index;
    } else if (left == 4 && is_transfer(b)) {
        choices = sizeof NEAR / sizeof *NEAR;
        memcpy(chosen, &NEAR[index < choices ? index : 0], 4);
    } else if (left != 0) {
        choices = sizeof NUMBERS / sizeof *NUMBERS;
        memcpy(chosen, NUMBERS[index < choices ? index : 0], left);
    }
    memset(bytes, 0, LONGEST);
    memcpy(bytes, b->bytes, b->count);
    memcpy(bytes + b->count, chosen, left);
    return index < choices;
}
