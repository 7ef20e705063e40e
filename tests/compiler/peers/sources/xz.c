/* xz: compresses a quarter of the input, and decompresses it. */
#include "unit.h"

#include "lzma.h"

enum { LEVEL = 1 };
static uint8_t *packed, *back;
static size_t len, packed_len;

static void compress(void) {
    packed_len = 0;
    need(lzma_easy_buffer_encode(LEVEL, LZMA_CHECK_CRC32, NULL, in, len, packed, &packed_len, 2 * len) == LZMA_OK);
    made(packed, packed_len);
}

static void decompress(void) {
    size_t from = 0, to = 0;
    uint64_t memory = UINT64_MAX;
    need(lzma_stream_buffer_decode(&memory, 0, NULL, packed, &from, packed_len, back, &to, len) == LZMA_OK);
    made(back, to);
}

void unit_prepare(void) {
    len = in_len / 4;
    packed = room_for(2 * len);
    back = room_for(len);
}

UNIT_OPERATIONS(compress, decompress)
