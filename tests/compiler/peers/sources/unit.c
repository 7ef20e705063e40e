/* What all units share. */
#include "unit.h"

static const unsigned char *out;
static size_t out_len;
static uint32_t number_made;

unsigned char *in;
uint32_t in_len;

void need(int holds) {
    if (!holds) {
        abort();
    }
}

void *room_for(size_t len) {
    void *room = malloc(len);
    need(room != NULL);
    return room;
}

void made(const void *bytes, size_t len) {
    out = bytes;
    out_len = len;
}

void made_number(uint32_t number) {
    number_made = number;
    made(&number_made, sizeof number_made);
}

unsigned char *unit_room(uint32_t len) {
    in_len = len;
    in = room_for(len);
    return in;
}

uint32_t unit_sum(void) {
    uint32_t sum = 1;
    size_t k;
    for (k = 0; k < out_len; k++) {
        sum = (sum << 5 | sum >> 27) * 3 ^ out[k];
    }
    return sum;
}
