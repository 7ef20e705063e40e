/* zlib: sums, each level of compression and back, a stream with a fault. */
#include <stdio.h>
#include <string.h>
#include "zlib.h"

enum { COUNT = 100000 };
static unsigned char in[COUNT], out[2 * COUNT], back[COUNT];

int main(void) {
    unsigned seed = 1;
    uLongf size;
    for (int i = 0; i < COUNT; i++) {
        seed = seed * 1103515245u + 12345u;
        in[i] = (unsigned char)(seed >> 16 & 7 ? "the quick brown fox "[i % 977 % 20] : seed >> 24);
    }
    printf("%s: adler %08lx, crc %08lx\n", zlibVersion(), adler32(1, in, COUNT), crc32(0, in, COUNT));
    for (int level = 0; level <= 9; level++) {
        uLongf length = COUNT;
        size = sizeof out;
        int made = compress2(out, &size, in, COUNT, level), read = uncompress(back, &length, out, size);
        const char *came = memcmp(in, back, COUNT) ? "differs" : "same";
        printf("level %d: %d %d, %lu bytes, crc %08lx, %s\n", level, made, read, size, crc32(0, out, size), came);
    }
    uLongf length = COUNT;
    out[size / 2] ^= 0x55;
    printf("with a fault: %d\n", uncompress(back, &length, out, size));
    return 0;
}
