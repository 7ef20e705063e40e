/* Brotli: compresses and decompresses. */
#include "unit.h"

#include "brotli/decode.h"
#include "brotli/encode.h"

enum { QUALITY = 5, WINDOW = 20 };
static uint8_t *packed, *back;
static size_t packed_len;

static void compress(void) {
    packed_len = 2 * (size_t)in_len;
    need(BrotliEncoderCompress(QUALITY, WINDOW, BROTLI_MODE_GENERIC, in_len, in, &packed_len, packed));
    made(packed, packed_len);
}

static void decompress(void) {
    size_t len = in_len;
    need(BrotliDecoderDecompress(packed_len, packed, &len, back) == BROTLI_DECODER_RESULT_SUCCESS);
    made(back, len);
}

void unit_prepare(void) {
    packed = room_for(2 * (size_t)in_len);
    back = room_for(in_len);
}

UNIT_OPERATIONS(compress, decompress)
