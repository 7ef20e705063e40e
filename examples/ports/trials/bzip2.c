/* bzip2: three sizes of blocks, and back by both decoders. */
#include <stdio.h>
#include <string.h>
#include "bzlib.h"

enum { COUNT = 100000 };
static char in[COUNT], out[2 * COUNT], back[COUNT];

int main(void) {
    unsigned seed = 42;
    for (int i = 0; i < COUNT; i++) {
        seed = seed * 1103515245u + 12345u;
        in[i] = (char)(seed >> 16 & 7 ? "abracadabra "[(i * 7 + i / 5) % 12] : seed >> 24);
    }
    for (int blocks = 1; blocks <= 9; blocks += 4) {
        unsigned size = sizeof out, sum = 0;
        printf("blocks %d: %d", blocks, BZ2_bzBuffToBuffCompress(out, &size, in, COUNT, blocks, 0, 30));
        for (unsigned i = 0; i < size; i++) sum = sum * 31 + (unsigned char)out[i];
        for (int small = 0; small < 2; small++) {
            unsigned length = COUNT;
            int read = BZ2_bzBuffToBuffDecompress(back, &length, out, size, small, 0);
            printf(", %d %s", read, length == COUNT && !memcmp(in, back, COUNT) ? "same" : "differs");
        }
        printf(", %u bytes, %08x\n", size, sum);
    }
    return 0;
}
