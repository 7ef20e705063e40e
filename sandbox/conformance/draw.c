/* Random code. It is made so that it is permitted, and the host judges it when it is loaded. */
#include "draw.h"

#include <string.h>

#define LONGEST 15u /* bytes of an instruction, at most */

/* Where the next instruction goes. */
typedef struct Bundle {
    uint8_t *to;           /* of all the code */
    uint32_t len, at, end; /* end of the bundle */
} Bundle;

uint32_t draw(Draw *d, uint32_t below) {
    d->random ^= d->random << 13;
    d->random ^= d->random >> 7;
    d->random ^= d->random << 17;
    return (uint32_t)((d->random >> 20) % below);
}

static uint32_t word(Draw *d) {
    return draw(d, 0x10000) << 16 | draw(d, 0x10000);
}

uint32_t draw_number(Draw *d, const KitBox *box) {
    /* clang-format off */
    const uint32_t numbers[] = {0, 0x80000000, box->data_first, box->data_at, box->data_limit, box->code_at, box->code_limit,
                                KIT_LOW_AT + KIT_LOW_LEN / 2 - box->data_base, KIT_LOW_AT + KIT_LOW_LEN / 2,
                                KIT_STACK_CANARY - box->data_base, KIT_STACK_CANARY,
                                kit_other.data_base + kit_other.data_at - box->data_base,
                                box->code_base + box->code_at - box->data_base, kit_host.way_out};
    /* clang-format on */
    uint32_t kind = draw(d, 10), near = draw(d, 3) == 0 ? draw(d, 2 * KIT_PAGE) - KIT_PAGE : draw(d, 17) - 8;
    return kind == 9      ? word(d)
         : kind < d->tame ? box->data_at + draw(d, box->data_limit - box->data_at)
                          : numbers[draw(d, sizeof numbers / sizeof *numbers)] + near;
}

/* The place of some bundle of the code, mostly one behind this one, or the one behind the code. Few runs are to be loops. */
static uint32_t draw_place(Draw *d, const Bundle *b) {
    uint32_t next = b->end / NC_BUNDLE, count = b->len / NC_BUNDLE;
    return d->like->code_at + NC_BUNDLE * (draw(d, 64) == 0 ? draw(d, count) : next + draw(d, count - next + 1));
}

/* Where a masked jump goes: code, a trampoline, text without code, beyond the limit, or a place that the mask has to change. */
static uint32_t draw_target(Draw *d, const Bundle *b) {
    switch (draw(d, 8)) {
    case 0: return draw(d, NC_START);
    case 1: return kit_host.call_count != 0 ? kit_host.calls[draw(d, kit_host.call_count)] : kit_host.way_out;
    case 2: return draw(d, 2) == 0 ? draw_number(d, d->like) : d->like->code_limit + draw(d, KIT_PAGE);
    case 3: return d->like->code_at + draw(d, d->like->code_limit - d->like->code_at);
    default: return draw_place(d, b) + draw(d, NC_BUNDLE);
    }
}

static int put(Bundle *b, const uint8_t *bytes, uint32_t len) {
    if (len > b->end - b->at) {
        return 0;
    }
    memcpy(b->to + b->at, bytes, len);
    b->at += len;
    return 1;
}

static int put_with(Bundle *b, uint8_t opcode, uint32_t number) {
    uint8_t bytes[5] = {opcode};
    memcpy(bytes + 1, &number, 4);
    return put(b, bytes, sizeof bytes);
}

/* Any instruction that the decoder permits, and that transfers nowhere. In a long one, the last four bytes are a number of 32 bits. */
static int put_any(Draw *d, Bundle *b) {
    static const uint8_t prefixes[] = {0x66, 0xF0, 0xF2, 0xF3};
    uint32_t number = draw(d, 2) == 0 ? draw_number(d, d->like) : draw(d, 256) - 128, k = 0, at;
    uint8_t bytes[LONGEST];
    NcInstruction says;
    for (at = 0; at < LONGEST; at++) {
        bytes[at] = (uint8_t)draw(d, 256);
    }
    if (draw(d, 6) == 0) {
        bytes[k++] = prefixes[draw(d, sizeof prefixes)];
    }
    if (draw(d, 4) == 0) {
        bytes[k] = 0x0F;
    }
    says = nc_host_decode(bytes, LONGEST);
    if (says.fault == NC_OK && says.length >= 6) {
        memcpy(bytes + says.length - 4, &number, 4);
        says = nc_host_decode(bytes, LONGEST);
    }
    if (says.fault != NC_OK || (says.flow != NC_FLOW_NEXT && (says.flow != NC_FLOW_STOP || draw(d, 8) != 0))) {
        return 0;
    }
    return put(b, bytes, says.length);
}

static int put_string(Draw *d, Bundle *b) {
    static const uint8_t opcodes[] = {0xA4, 0xA5, 0xA6, 0xA7, 0xAA, 0xAB, 0xAC, 0xAD, 0xAE, 0xAF};
    static const uint8_t directions[] = {0xFC, 0xFD};
    uint8_t bytes[3], k = 0;
    uint8_t opcode = opcodes[draw(d, sizeof opcodes)];
    if (draw(d, 2) == 0) {
        bytes[k++] = directions[draw(d, 2)];
    }
    if (draw(d, 2) == 0 && opcode != 0xAC && opcode != 0xAD) {
        bytes[k++] = 0xF3;
    }
    bytes[k++] = opcode;
    return put(b, bytes, k);
}

static int put_stack(Draw *d, Bundle *b) {
    uint8_t set[] = {0x89, (uint8_t)(0xC4 | draw(d, 2) | draw(d, 8) << 3)}, leave = 0xC9, one = (uint8_t)(0x50 + draw(d, 16));
    switch (draw(d, 6)) {
    case 0: return put_with(b, (uint8_t)(0xBC + draw(d, 2)), draw_number(d, d->like)); /* mov esp or ebp */
    case 1: return put(b, set, sizeof set);
    case 2: return put(b, &leave, 1);
    case 3: return put_with(b, 0x68, draw(d, 2) == 0 ? draw_target(d, b) : word(d));
    default: return put(b, &one, 1); /* push or pop of a register */
    }
}

/* mov of a number, EAX or EDX to a register. */
static int put_register(Draw *d, Bundle *b) {
    uint8_t from[] = {0x89, (uint8_t)(0xC0 | draw(d, 8) | draw(d, 2) << 4)};
    return draw(d, 2) == 0 ? put(b, from, sizeof from) : put_with(b, (uint8_t)(0xB8 + draw(d, 8)), draw_number(d, d->like));
}

/* Mostly a call ends its bundle, since the address to return to is masked: otherwise the bundle begins anew. */
static void go_to_end(Draw *d, Bundle *b, uint32_t len) {
    if (b->end - b->at > len && draw(d, 16) != 0) {
        b->at = b->end - len;
    }
}

/* To a bundle start of the code or of the zone. */
static int put_direct(Draw *d, Bundle *b) {
    uint32_t opcode = draw(d, 4), rel;
    uint32_t to = draw(d, 6) == 0 ? NC_BUNDLE * draw(d, NC_START / NC_BUNDLE) : draw_place(d, b);
    uint8_t branch[6] = {0x0F, (uint8_t)(0x80 + draw(d, 16))};
    if (opcode == 1) {
        go_to_end(d, b, 5);
    }
    rel = to - (d->like->code_at + b->at) - (opcode == 0 ? 6 : 5);
    memcpy(branch + 2, &rel, 4);
    return opcode == 0 ? put(b, branch, sizeof branch) : b->end - b->at >= 5 && put_with(b, opcode == 1 ? 0xE8 : 0xE9, rel);
}

/* mov reg, target; and reg, -32; jmp or call reg */
static int put_masked(Draw *d, Bundle *b) {
    static const uint8_t registers[] = {0, 1, 2, 3, 5, 6, 7};
    uint8_t reg = registers[draw(d, sizeof registers)], is_call = (uint8_t)draw(d, 2);
    uint8_t pair[] = {0x83, (uint8_t)(0xE0 + reg), 0xE0, 0xFF, (uint8_t)((is_call ? 0xD0 : 0xE0) + reg)};
    if (b->end - b->at >= 5 + sizeof pair && draw(d, 8) != 0) {
        put_with(b, (uint8_t)(0xB8 + reg), draw_target(d, b));
    }
    if (is_call) {
        go_to_end(d, b, sizeof pair);
    }
    return put(b, pair, sizeof pair);
}

/* A jump to a call of the host, mostly on a stack of the box's with an argument and an address to return to; or with any stack pointer. */
static int put_call(Draw *d, Bundle *b) {
    uint32_t call = kit_host.call_count != 0 ? kit_host.calls[draw(d, kit_host.call_count)] : kit_host.way_out;
    uint32_t esp = d->like->data_at + 16 + draw(d, d->like->data_limit - d->like->data_at - 16), kind = draw(d, 8);
    if (b->end - b->at < 20) {
        return 0;
    }
    if (kind == 0) {
        put_with(b, 0xBC, draw_number(d, d->like));
    } else {
        (void)(kind == 1 || put_with(b, 0xBC, esp));
        put_with(b, 0x68, draw_target(d, b));
        put_with(b, 0x68, draw_target(d, b));
    }
    return put_with(b, 0xE9, call - (d->like->code_at + b->at + 5));
}

/* Now and then a jump to itself. */
static int put_loop(Draw *d, Bundle *b) {
    static const uint8_t loop[] = {0xEB, 0xFE};
    return draw(d, 1024) == 0 && put(b, loop, sizeof loop);
}

void draw_code(Draw *d, uint8_t *code, uint32_t len) {
    static int (*const kinds[])(Draw *, Bundle *) = {put_any,    put_any,   put_any,   put_any,      put_any,      put_string,
                                                     put_string, put_stack, put_stack, put_register, put_register, put_direct,
                                                     put_masked, put_call,  put_call,  put_loop};
    Bundle b = {code, len, 0, 0};
    d->tame = draw(d, 10);
    memset(code, 0x90, len);
    while (b.at < len) {
        b.end = b.at / NC_BUNDLE * NC_BUNDLE + NC_BUNDLE;
        if (!kinds[draw(d, sizeof kinds / sizeof *kinds)](d, &b) && b.end - b.at < 12) {
            b.at = b.end; /* nops */
        }
    }
}
