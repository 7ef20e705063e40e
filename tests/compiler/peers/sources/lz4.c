/* LZ4: compresses a quarter of the input well and all of it fast, and decompresses it. */
#include "unit.h"

#include "lz4.h"
#include "lz4hc.h"

enum { LEVEL = 9 };
static char *packed, *back;
static int packed_len, packed_room;

static void told(int len) {
    need(len > 0);
    packed_len = len;
    made(packed, (size_t)len);
}

static void compress_well(void) {
    told(LZ4_compress_HC((char *)in, packed, (int)in_len / 4, packed_room, LEVEL));
}

static void compress_fast(void) {
    told(LZ4_compress_default((char *)in, packed, (int)in_len, packed_room));
}

static void decompress(void) {
    int len = LZ4_decompress_safe(packed, back, packed_len, (int)in_len);
    need(len == (int)in_len);
    made(back, in_len);
}

void unit_prepare(void) {
    packed_room = LZ4_compressBound((int)in_len);
    packed = room_for((size_t)packed_room);
    back = room_for(in_len);
}

UNIT_OPERATIONS(compress_well, compress_fast, decompress)
