/* brotli: four qualities and sizes of the window, and back. */
#include <stdio.h>
#include <string.h>

#include "brotli/decode.h"
#include "brotli/encode.h"
#include "port.h"

enum { COUNT = 60000 };
static uint8_t in[COUNT], out[2 * COUNT], back[COUNT];
static size_t size;

static unsigned work(unsigned sum, int quality, int window, BrotliEncoderMode mode) {
    size_t length = COUNT;
    size = sizeof out;
    int good = BrotliEncoderCompress(quality, window, mode, COUNT, in, &size, out);
    BrotliDecoderResult status = BrotliDecoderDecompress(size, out, &length, back);
    if (!good || status != BROTLI_DECODER_RESULT_SUCCESS || length != COUNT || memcmp(in, back, COUNT)) printf("differs: %d\n", status);
    return sum_of(sum, out, size);
}

int main(int argc, char **argv) {
    unsigned sum = 0;
    fill((char *)in, COUNT);
    for (int k = rounds_of(argc, argv); k > 0; k--) {
        sum = work(sum, 1, 18, BROTLI_MODE_GENERIC);
        sum = work(sum, 5, 16, BROTLI_MODE_TEXT);
        sum = work(sum, 9, 22, BROTLI_MODE_FONT);
        sum = work(sum, 11, 20, BROTLI_MODE_TEXT);
    }
    size_t length = COUNT;
    printf("%06x, %u bytes, %08x", (unsigned)BrotliEncoderVersion(), (unsigned)size, sum);
    printf(", too short: %d\n", BrotliDecoderDecompress(size / 2, out, &length, back));
    return 0;
}
