/* lz4: fast and strong compression and back, a frame, input that ends too early. What the fast one makes depends on the size of a word, so
   only what comes back is printed. */
#include <stdio.h>
#include <string.h>
#include "lz4.h"
#include "lz4frame.h"
#include "lz4hc.h"
#include "xxhash.h"

enum { COUNT = 100000 };
static char in[COUNT], out[2 * COUNT], back[COUNT];

int main(void) {
    unsigned seed = 7;
    for (int i = 0; i < COUNT; i++) {
        seed = seed * 1103515245u + 12345u;
        in[i] = (char)(seed >> 16 & 7 ? "lorem ipsum dolor sit amet "[(i + i / 7) % 27] : seed >> 24);
    }
    int size = LZ4_compress_default(in, out, COUNT, sizeof out);
    size = LZ4_decompress_safe(out, back, size, COUNT);
    printf("fast: %d back, %s\n", size, memcmp(in, back, COUNT) ? "differs" : "same");
    for (int level = 1; level <= 12; level++) {
        size = LZ4_compress_HC(in, out, COUNT, sizeof out, level);
        int length = LZ4_decompress_safe(out, back, size, COUNT);
        const char *came = length == COUNT && !memcmp(in, back, COUNT) ? "same" : "differs";
        printf("level %d: %d bytes, %016llx, %s\n", level, size, (unsigned long long)XXH64(out, size, 1), came);
    }
    printf("too early: %d\n", LZ4_decompress_safe(out, back, 50, COUNT));
    size_t frame = LZ4F_compressFrame(out, sizeof out, in, COUNT, NULL), length = COUNT;
    LZ4F_dctx *context;
    memset(back, 0, COUNT);
    printf("frame: %u", (unsigned)LZ4F_createDecompressionContext(&context, LZ4F_VERSION));
    printf(" %u", (unsigned)LZ4F_decompress(context, back, &length, out, &frame, NULL));
    printf(", %u back, %s\n", (unsigned)length, memcmp(in, back, COUNT) ? "differs" : "same");
    LZ4F_freeDecompressionContext(context);
    return 0;
}
