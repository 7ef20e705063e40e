/* bzip2: two sizes of blocks, and back by both decoders. */
#include <stdio.h>
#include <string.h>

#include "bzlib.h"
#include "port.h"

enum { COUNT = 150000 };
static char in[COUNT], out[COUNT], back[COUNT];

static unsigned work(unsigned sum, int blocks) {
    unsigned size = sizeof out;
    int status = BZ2_bzBuffToBuffCompress(out, &size, in, COUNT, blocks, 0, 30);
    sum = sum_of(sum_of(sum, &status, sizeof status), out, size);
    for (int small = 0; small < 2; small++) {
        unsigned length = COUNT;
        status = BZ2_bzBuffToBuffDecompress(back, &length, out, size, small, 0);
        if (status != BZ_OK || length != COUNT || memcmp(in, back, COUNT)) printf("differs: %d\n", status);
    }
    return sum_of(sum, &size, sizeof size);
}

int main(int argc, char **argv) {
    unsigned sum = 0, length = COUNT;
    fill(in, COUNT);
    for (int k = rounds_of(argc, argv); k > 0; k--) sum = work(work(sum, 1), 9);
    out[99] ^= 4;
    printf("%s, %08x, damaged: %d\n", BZ2_bzlibVersion(), sum, BZ2_bzBuffToBuffDecompress(back, &length, out, sizeof out, 0, 0));
    return 0;
}
