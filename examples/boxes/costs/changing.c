/* For changes.c: code in a box that changes its code again and again. */
#include <nc_run.h>

static unsigned char bytes[1024];

__attribute__((section(".text.start"))) void start(void) {}

/* One round of a kind; whether it was made. */
static int make(unsigned kind, unsigned at, unsigned round) {
    const unsigned len = kind == 3 ? sizeof bytes : 32;
    struct nc_hole hole;
    bytes[1] = (unsigned char)round;
    bytes[2] = (unsigned char)(round >> 8);
    if (kind == 0) return (int)nc_delete(0) < 0;
    if (kind == 1) return (int)nc_patch(at, bytes, 5) == 0;
    return nc_hole(0, &hole) == 0 && (int)nc_create(hole.at, bytes, len) == 0 && (int)nc_delete(hole.at) == 0;
}

/* How many rounds weren't made. */
unsigned change(unsigned kind, unsigned rounds) {
    unsigned wrong = 0;
    struct nc_hole hole;
    for (unsigned k = 0; k < sizeof bytes; k++) bytes[k] = 0x90;
    bytes[0] = 0xB8; /* mov eax, .. */
    wrong += nc_hole(0, &hole) != 0;
    if (kind == 1) wrong += (int)nc_create(hole.at, bytes, 32) != 0;
    for (unsigned k = 0; k < rounds; k++) wrong += !make(kind, hole.at, k);
    if (kind == 1) wrong += (int)nc_delete(hole.at) != 0;
    return wrong;
}
