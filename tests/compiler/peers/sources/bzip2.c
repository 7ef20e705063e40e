/* bzip2: compresses a quarter of the input, and decompresses it. */
#include "unit.h"

#include "bzlib.h"

enum { LEVEL = 9 };
static char *packed, *back;
static unsigned len, packed_len, packed_room;

/* What the library calls in place of an exit. */
void bz_internal_error(int code) {
    (void)code;
    abort();
}

static void compress(void) {
    packed_len = packed_room;
    need(BZ2_bzBuffToBuffCompress(packed, &packed_len, (char *)in, len, LEVEL, 0, 0) == BZ_OK);
    made(packed, packed_len);
}

static void decompress(void) {
    unsigned back_len = len;
    need(BZ2_bzBuffToBuffDecompress(back, &back_len, packed, packed_len, 0, 0) == BZ_OK);
    made(back, back_len);
}

void unit_prepare(void) {
    len = in_len / 4;
    packed_room = len + len / 50 + 1000;
    packed = room_for(packed_room);
    back = room_for(len);
}

UNIT_OPERATIONS(compress, decompress)
