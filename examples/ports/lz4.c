/* lz4: the fast and the strong compressor, frames, and back. */
#include <stdio.h>
#include <string.h>

#include "lz4.h"
#include "lz4frame.h"
#include "lz4hc.h"
#include "port.h"
#include "xxhash.h"

enum { COUNT = 100000 };
static char in[COUNT], out[2 * COUNT], back[COUNT];

/* The checksum behind what was compressed, if it comes back. */
static unsigned checked(unsigned sum, int size) {
    memset(back, 0, COUNT);
    if (LZ4_decompress_safe(out, back, size, COUNT) != COUNT || memcmp(in, back, COUNT)) printf("differs\n");
    return sum_of(sum, out, size);
}

static unsigned frame(unsigned sum) {
    LZ4F_preferences_t wanted = {.frameInfo = {.contentChecksumFlag = LZ4F_contentChecksumEnabled, .blockMode = LZ4F_blockLinked}};
    size_t size = LZ4F_compressFrame(out, sizeof out, in, COUNT, &wanted), length = COUNT;
    LZ4F_dctx *context;
    LZ4F_createDecompressionContext(&context, LZ4F_VERSION);
    sum = sum_of(sum, out, size);
    size_t left = LZ4F_decompress(context, back, &length, out, &size, NULL);
    LZ4F_freeDecompressionContext(context);
    return sum_of(sum_of(sum, &left, sizeof left), back, length);
}

int main(int argc, char **argv) {
    unsigned sum = 0;
    int sizes[3] = {0};
    fill(in, COUNT);
    for (int k = rounds_of(argc, argv); k > 0; k--) {
        sum = checked(sum, sizes[0] = LZ4_compress_default(in, out, COUNT, sizeof out));
        sum = checked(sum, sizes[1] = LZ4_compress_fast(in, out, COUNT, sizeof out, 20));
        sum = checked(sum, sizes[2] = LZ4_compress_HC(in, out, COUNT, sizeof out, 9));
        sum = frame(sum);
    }
    printf("%d %d %d, %08x, %016llx\n", sizes[0], sizes[1], sizes[2], sum, (unsigned long long)XXH64(in, COUNT, 1));
    printf("%d\n", LZ4_decompress_safe(out, back, 50, COUNT));
    return 0;
}
