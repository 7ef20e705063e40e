/* zlib: deflates, inflates, and takes both checksums. */
#include "unit.h"

#include "zlib.h"

enum { LEVEL = 6 };
static Bytef *packed, *back;
static uLong packed_len;

static void deflate_all(void) {
    packed_len = compressBound(in_len);
    need(compress2(packed, &packed_len, in, in_len, LEVEL) == Z_OK);
    made(packed, packed_len);
}

static void inflate_all(void) {
    uLong len = in_len;
    need(uncompress(back, &len, packed, packed_len) == Z_OK);
    made(back, len);
}

static void take_checksums(void) {
    made_number((uint32_t)crc32(adler32(1, in, in_len), in, in_len));
}

void unit_prepare(void) {
    packed = room_for(compressBound(in_len));
    back = room_for(in_len);
}

UNIT_OPERATIONS(deflate_all, inflate_all, take_checksums)
