/* liblzma of xz: two presets with different checks, a filter for code, and back. */
#include <stdio.h>
#include <string.h>

#include "lzma.h"
#include "port.h"

enum { COUNT = 100000 };
static uint8_t in[COUNT], out[2 * COUNT], back[COUNT];

/* The checksum behind what was compressed, if it comes back. */
static unsigned checked(unsigned sum, lzma_ret encoded, size_t size) {
    uint64_t limit = UINT64_MAX;
    size_t from = 0, to = 0;
    lzma_ret decoded = lzma_stream_buffer_decode(&limit, 0, NULL, out, &from, size, back, &to, COUNT);
    if (encoded != LZMA_OK || decoded != LZMA_OK || to != COUNT || memcmp(in, back, COUNT)) printf("differs: %d %d\n", encoded, decoded);
    return sum_of(sum, out, size);
}

static unsigned work(unsigned sum, uint32_t preset, lzma_check check) {
    size_t size = 0;
    lzma_ret status = lzma_easy_buffer_encode(preset, check, NULL, in, COUNT, out, &size, sizeof out);
    return checked(sum, status, size);
}

static unsigned filtered(unsigned sum) {
    lzma_options_lzma options;
    lzma_options_delta delta = {.type = LZMA_DELTA_TYPE_BYTE, .dist = 4};
    lzma_lzma_preset(&options, 3);
    options.pb = 0;
    lzma_filter filters[] = {{LZMA_FILTER_X86, NULL}, {LZMA_FILTER_DELTA, &delta}, {LZMA_FILTER_LZMA2, &options}, {LZMA_VLI_UNKNOWN, NULL}};
    size_t size = 0;
    lzma_ret status = lzma_stream_buffer_encode(filters, LZMA_CHECK_SHA256, NULL, in, COUNT, out, &size, sizeof out);
    return checked(sum, status, size);
}

int main(int argc, char **argv) {
    unsigned sum = 0;
    fill((char *)in, COUNT);
    for (int k = rounds_of(argc, argv); k > 0; k--) sum = filtered(work(work(sum, 1, LZMA_CHECK_CRC32), 6, LZMA_CHECK_CRC64));
    out[200] ^= 1;
    uint64_t limit = UINT64_MAX;
    size_t from = 0, to = 0;
    printf("%s, %08x, %08x", lzma_version_string(), sum, (unsigned)lzma_crc32(in, COUNT, 0));
    printf(", damaged: %d\n", lzma_stream_buffer_decode(&limit, 0, NULL, out, &from, sizeof out, back, &to, COUNT));
    return 0;
}
