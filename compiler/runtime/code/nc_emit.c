/* Code in bundles; nc_emit.h describes it. */
#include "nc_emit.h"

#include <stdlib.h>
#include <string.h>

enum { LABEL, ALIGN, PLAIN, JUMP, CALL, ADDRESS, JUMP_TO, CALL_TO, JUMP_BY, CALL_BY };
#define MASK (NCE_BUNDLE - 1)
#define SHORT_LEN 2u
#define WANTED (NCE_NOWHERE - 1) /* the item of a label that is used, and isn't bound yet */
#define NEAR 120u                /* given bytes between a jump and its label ahead, up to which it is short at first */
#define SLACK 16u                /* bytes after the given ones, so that decoding may read on */
#define SPARE 4u /* bytes of `borders` before the first bit and after the last one, so that a window can be read as a word */
#define BORDERS(room) ((room) == 0 ? 0 : (room) / 8 + 2 * SPARE)
#define INLINE static inline __attribute__((always_inline))

/* ---- Lengths */

/* What follows an opcode: none, a byte, a word, four bytes; and with a ModRM operand (M) none, a byte, a word, or as in group 3. E is the
   escape, P a prefix, and X can't be raw. */
enum { N = 0, B = 1, O = 4, M = 16, W = 32, G = 64, Y = M | B, Z = M | W, U = M | G | B, V = M | G | W, X = 128, E, P, NUMBER = 7 };
#define OPERATIONS M, M, M, M, B, W, X, X, M, M, M, M, B, W, X
#define SIX(x) x, x, x, x, x, x
#define ALL(x) SIX(x), SIX(x), x, x, x, x
/* clang-format off */
static const uint8_t lengths[512] = {
    OPERATIONS, E, OPERATIONS, X, OPERATIONS, X, OPERATIONS, X, ALL(N), ALL(N),             /* 00 to 5F */
    X, X, X, X, X, X, P, X, W, Z, B, Y, X, X, X, X, ALL(X),                                 /* 60 */
    Y, Z, X, Y, M, M, M, M, M, M, M, M, X, M, X, X, N, N, N, N, N, N, N, N, N, N, SIX(X),   /* 80 */
    O, O, O, O, N, N, N, N, B, W, N, N, N, N, N, N, B, B, SIX(B), W, W, SIX(W),             /* A0 */
    Y, Y, X, X, X, X, Y, Z, X, N, SIX(X), M, M, M, M, SIX(X), SIX(X),                       /* C0 */
    ALL(X), P, X, P, P, N, N, U, V, N, N, X, X, N, N, M, M,                                 /* E0 */
    X, X, X, X, X, SIX(X), N, X, X, X, X, SIX(X), SIX(X), X, X, X, M, ALL(X), ALL(X),       /* 0F 00 to 0F 3F */
    ALL(M), ALL(X), ALL(X), ALL(X), ALL(X), ALL(M),                                         /* 0F 40 to 0F 9F */
    X, X, N, M, Y, M, X, X, X, X, X, M, Y, M, X, M, M, M, X, M, X, X, M, M, X, X, Y, M, M, M, M, M, /* 0F A0 */
    M, M, X, X, X, X, X, M, N, N, SIX(N), ALL(X), ALL(X), ALL(X),                           /* 0F C0 to 0F FF */
};
/* clang-format on */

/* Of a ModRM byte's mod and rm, the bytes of its displacement. SIB: a second byte comes before that. */
enum { SIB = 8 };
static const uint8_t displacements[32] = {0, 0, 0, 0, SIB, 4, 0, 0, 1, 1, 1, 1, SIB | 1, 1, 1, 1, 4, 4, 4, 4, SIB | 4, 4, 4, 4};

/* As nce_length; SLACK bytes more can be read. */
INLINE int length_at(const uint8_t *p, uint32_t len) {
    uint32_t at = 0, word = 4, op, what, modrm = 0, form;
    for (; at < len && lengths[p[at]] == P; at++) word = p[at] == 0x66 ? 2 : word;
    op = p[at++];
    op = op == 0x0F ? 256u + p[at++] : op;
    what = lengths[op];
    if (what & M) {
        modrm = p[at++];
        form = displacements[(modrm >> 3 & 0x18) | (modrm & 7)];
        if (form & SIB) {
            form = form == SIB && (p[at] & 7) == 5 ? 4 : form - SIB;
            at++;
        }
        at += form;
        modrm &= 0x38;
        what = what & G && modrm >= 0x10 ? 0 : what; /* in group 3 only `test` has a number */
    }
    at += (what & NUMBER) + (what & W ? word : 0);
    return at > len ? 0 : what >= X || (op == 0xFF && modrm >= 0x10 && modrm != 0x30) ? -1 : (int)at; /* the latter are transfers */
}

int nce_length(const uint8_t *p, uint32_t len) {
    uint8_t front[2 * SLACK] = {0};
    memcpy(front, p, len < SLACK ? len : SLACK);
    return length_at(front, len < SLACK ? len : SLACK);
}

/* ---- What is given */

void nce_begin(NceCode *c) { memset(c, 0, sizeof *c); }

void nce_end(NceCode *c) {
    free(c->bytes);
    free(c->items);
    free(c->labels);
    nce_begin(c);
}

static void fail(NceCode *c, uint32_t fault) { c->fault = c->fault == NCE_OK ? fault : c->fault; }

/* Makes an array of so many elements twice as long. NULL and a fault if there is no memory. */
static __attribute__((noinline)) void *grow_array(NceCode *c, void *array, uint32_t *count, size_t size) {
    uint32_t wanted = *count == 0 ? 64 : 2 * *count;
    array = realloc(array, wanted * size);
    *count = array != NULL ? wanted : *count;
    fail(c, array != NULL ? NCE_OK : NCE_NO_MEMORY);
    return array;
}

/* Makes room for so many more bytes, where there is none. The borders are behind the bytes. */
static int grow_bytes(NceCode *c, uint32_t len) {
    uint32_t wanted = c->room == 0 ? 1024 : c->room;
    uint8_t *more = NULL;
    while (len <= NCE_MOST && wanted < c->len + len) wanted *= 2;
    more = len <= NCE_MOST && wanted <= NCE_MOST ? realloc(c->bytes, wanted + SLACK + BORDERS(wanted)) : NULL;
    if (more == NULL) {
        fail(c, NCE_NO_MEMORY);
        return 0;
    }
    c->bytes = more;
    c->borders = memmove(more + wanted + SLACK, more + c->room + SLACK, BORDERS(c->room));
    memset((uint8_t *)c->borders + BORDERS(c->room), 0, BORDERS(wanted) - BORDERS(c->room));
    c->room = wanted;
    return 1;
}

/* Copies 1 to 15 bytes. */
static inline void copy_few(uint8_t *to, const uint8_t *from, uint32_t len) {
    if (len >= 8) {
        memcpy(to, from, 8);
        memcpy(to + len - 8, from + len - 8, 8);
    } else if (len >= 4) {
        memcpy(to, from, 4);
        memcpy(to + len - 4, from + len - 4, 4);
    } else {
        to[0] = from[0];
        to[len / 2] = from[len / 2];
        to[len - 1] = from[len - 1];
    }
}

/* Copies any number of bytes, which mostly are few. */
static inline void copy(uint8_t *to, const uint8_t *from, uint32_t len) {
    if (len - 1 < NCE_LONGEST) {
        copy_few(to, from, len);
    } else {
        memcpy(to, from, len);
    }
}

static inline void set_border(NceCode *c, uint32_t at) { c->borders[at / 32 + 1] |= 1u << at % 32; }

void nce_instruction(NceCode *c, const void *bytes, uint32_t len) {
    if ((c->fault | c->partial) != 0 || len - 1 >= NCE_LONGEST) {
        fail(c, NCE_BAD_BYTES);
    } else if (len <= c->room - c->len || grow_bytes(c, len)) {
        copy_few(c->bytes + c->len, bytes, len);
        set_border(c, c->len);
        c->len += len;
    }
}

void nce_raw(NceCode *c, const void *bytes, uint32_t len) {
    uint32_t at = c->len - c->partial, end = c->len + len;
    int got = 0;
    if (c->fault != NCE_OK || len == 0 || (len > c->room - c->len && !grow_bytes(c, len))) return;
    copy(c->bytes + c->len, bytes, len);
    for (; at < end; at += (uint32_t)got) {
        got = length_at(c->bytes + at, end - at);
        if (got <= 0 || got > (int)NCE_LONGEST) break;
        set_border(c, at);
    }
    c->len = end;
    c->partial = end - at;
    if (at < end && (got != 0 || end - at >= NCE_LONGEST)) fail(c, NCE_BAD_BYTES);
}

static int grow_items(NceCode *c) {
    NceItem *more = grow_array(c, c->items, &c->items_room, sizeof *more);
    c->items = more != NULL ? more : c->items;
    return more != NULL;
}

static int grow_labels(NceCode *c) {
    NceLabel *more = grow_array(c, c->labels, &c->labels_room, sizeof *more);
    c->labels = more != NULL ? more : c->labels;
    return more != NULL;
}

/* A new item, with room for `len` bytes of its own. NULL if there is a fault. */
INLINE NceItem *item(NceCode *c, unsigned kind, uint32_t label, uint32_t len) {
    NceItem *one;
    if ((c->fault | c->partial) != 0 || (len > c->room - c->len && !grow_bytes(c, len)) || (c->count == c->items_room && !grow_items(c))) {
        fail(c, NCE_BAD_BYTES);
        return NULL;
    }
    one = c->items + c->count++;
    *one = (NceItem){.raw = c->len, .label = label, .kind = (uint8_t)kind, .raw_len = (uint8_t)len, .len = (uint8_t)len};
    c->laid = NCE_NOWHERE;
    if (len != 0) set_border(c, c->len);
    c->len += len;
    return one;
}

uint32_t nce_label(NceCode *c) {
    if (c->label_count == c->labels_room && !grow_labels(c)) return 0;
    c->labels[c->label_count] = (NceLabel){.item = NCE_NOWHERE};
    return c->label_count++;
}

static NceLabel *label_of(NceCode *c, uint32_t label) {
    if (label < c->label_count) return c->labels + label;
    fail(c, NCE_BAD_LABEL);
    return NULL;
}

/* A label that has to be bound in the end. */
static NceLabel *used(NceCode *c, uint32_t label) {
    NceLabel *one = label_of(c, label);
    if (one != NULL && one->item == NCE_NOWHERE) {
        one->item = WANTED;
        c->open++;
    }
    return one;
}

void nce_bind(NceCode *c, uint32_t label) {
    NceLabel *one = label_of(c, label);
    if (one != NULL && one->item < WANTED) {
        fail(c, NCE_BAD_LABEL);
    } else if (one != NULL && item(c, LABEL, label, 0) != NULL) {
        c->open -= one->item == WANTED;
        one->item = c->count - 1;
    }
}

void nce_entry(NceCode *c, uint32_t label) {
    NceLabel *one = label_of(c, label);
    if (one != NULL && !one->is_entry) {
        one->is_entry = 1;
        c->laid = NCE_NOWHERE;
    }
}

/* How far before `at` the last instruction begins that begins there or before it. */
static inline uint32_t back_to_border(const NceCode *c, uint32_t at) {
    uint32_t window;
    memcpy(&window, (const uint8_t *)c->borders + SPARE - 2 + at / 8, 4);
    return (uint32_t)__builtin_clz((window << (15 - at % 8)) | 1);
}

uint32_t nce_last(NceCode *c) {
    uint32_t len = c->len == 0 || c->partial != 0 ? 0 : 1 + back_to_border(c, c->len - 1), raw = c->len - len;
    NceItem *one = c->count != 0 ? c->items + c->count - 1 : NULL;
    if (len == 0 || (one != NULL && one->raw > raw)) {
        fail(c, NCE_BAD_BYTES);
    } else if ((one == NULL || one->raw < raw || one->raw_len == 0) && (one = item(c, PLAIN, 0, 0)) != NULL) {
        one->raw = raw;
        one->raw_len = one->len = (uint8_t)len;
    }
    return c->fault == NCE_OK ? c->count - 1 : NCE_NOWHERE;
}

void nce_address(NceCode *c, uint32_t label) {
    uint32_t last = nce_last(c);
    nce_entry(c, label);
    if (last != NCE_NOWHERE && (c->items[last].kind != PLAIN || c->items[last].len < 5)) {
        fail(c, NCE_BAD_BYTES);
    } else if (used(c, label) != NULL && c->fault == NCE_OK) {
        c->items[last].kind = ADDRESS;
        c->items[last].label = label;
    }
}

uint32_t nce_transfer(uint8_t to[6], uint32_t cc, uint32_t at, uint32_t target) {
    uint32_t len = cc >= NCE_ALWAYS ? 5 : 6, word = target - (at + len);
    to[0] = cc == NCE_CALL ? 0xE8 : cc == NCE_ALWAYS ? 0xE9 : 0x0F;
    to[1] = (uint8_t)(0x80 | (cc & 15)); /* the displacement overwrites it, if there is one byte */
    memcpy(to + len - 4, &word, 4);
    return len;
}

/* A transfer, whose displacement is the label or address as yet. */
INLINE void direct(NceCode *c, unsigned kind, uint32_t cc, uint32_t word) {
    NceItem *one = kind == JUMP_TO || kind == CALL_TO || used(c, word) != NULL ? item(c, kind, word, cc >= NCE_ALWAYS ? 5 : 6) : NULL;
    if (one != NULL) (void)nce_transfer(c->bytes + one->raw, cc, 0, word + one->len);
}

void nce_jump(NceCode *c, uint32_t cc, uint32_t label) { direct(c, JUMP, cc, label); }
void nce_jump_to(NceCode *c, uint32_t cc, uint32_t address) { direct(c, JUMP_TO, cc, address); }
void nce_call(NceCode *c, uint32_t label) { direct(c, CALL, NCE_CALL, label); }
void nce_call_to(NceCode *c, uint32_t address) { direct(c, CALL_TO, NCE_CALL, address); }
void nce_align(NceCode *c) { (void)item(c, ALIGN, 0, 0); }

void nce_far(NceCode *c) {
    NceItem *one = c->count != 0 ? c->items + c->count - 1 : NULL;
    if (one == NULL || one->kind < JUMP || one->kind > CALL_TO || one->kind == ADDRESS || one->raw + one->raw_len != c->len) {
        fail(c, NCE_BAD_BYTES);
    } else {
        one->is_far = 1;
        c->laid = NCE_NOWHERE;
    }
}

/* The mask of a register, and the transfer by it. */
static void indirect(NceCode *c, unsigned kind, unsigned reg) {
    const uint8_t bytes[5] = {0x83, (uint8_t)(0xE0 + reg), 0xE0, 0xFF, (uint8_t)((kind == CALL_BY ? 0xD0 : 0xE0) + reg)};
    NceItem *one = reg > NCE_EDI || reg == NCE_ESP ? NULL : item(c, kind, 0, sizeof bytes);
    if (one != NULL) {
        copy_few(c->bytes + one->raw, bytes, sizeof bytes);
    } else {
        fail(c, NCE_BAD_BYTES);
    }
}

void nce_jump_by(NceCode *c, unsigned reg) { indirect(c, JUMP_BY, reg); }
void nce_call_by(NceCode *c, unsigned reg) { indirect(c, CALL_BY, reg); }

void nce_return(NceCode *c, unsigned reg) {
    const uint8_t pop = (uint8_t)(0x58 | (reg & 7));
    nce_instruction(c, &pop, 1);
    nce_jump_by(c, reg);
}

/* ---- Layout */

/* How many bytes of the instructions from `raw` on fit into `room`, which they exceed. */
static inline uint32_t fitting(const NceCode *c, uint32_t raw, uint32_t room) { return room - back_to_border(c, raw + room); }

/* Writes nops up to a place. */
static void fill(uint8_t *to, uint32_t from, uint32_t end) {
    /* clang-format off */
    static const uint8_t nops[9][9] = {
        {0x90}, {0x66, 0x90}, {0x0F, 0x1F, 0}, {0x0F, 0x1F, 0x40, 0}, {0x0F, 0x1F, 0x44, 0, 0}, {0x66, 0x0F, 0x1F, 0x44, 0, 0},
        {0x0F, 0x1F, 0x80, 0, 0, 0, 0}, {0x0F, 0x1F, 0x84, 0, 0, 0, 0, 0}, {0x66, 0x0F, 0x1F, 0x84, 0, 0, 0, 0, 0}};
    /* clang-format on */
    while (from < end) {
        uint32_t room = NCE_BUNDLE - (from & MASK), len = end - from < room ? end - from : room;
        len = len < 9 ? len : 9;
        copy_few(to + from, nops[len - 1], len);
        from += len;
    }
}

/* Where instructions end that begin at the place `at`. Writes them if `to` isn't null, those together between which there are no nops. */
INLINE uint32_t run(const NceCode *c, uint32_t raw, uint32_t end, uint32_t at, uint8_t *to) {
    uint32_t written = raw, place = at, room = NCE_BUNDLE - (at & MASK);
    for (; end - raw > room; room = NCE_BUNDLE) {
        uint32_t got = fitting(c, raw, room);
        raw += got;
        at += room;
        if (to != NULL && got != room) {
            memcpy(to + place, c->bytes + written, raw - written);
            fill(to, at - (room - got), at);
            written = raw;
            place = at;
        }
    }
    if (to != NULL && end != written) copy(to + place, c->bytes + written, end - written);
    return at + (end - raw);
}

/* Whether a short jump at a place doesn't reach its label. */
static inline uint32_t is_beyond(uint32_t place, uint32_t target) { return target - (place + SHORT_LEN) + 128 > 255; }

/* The length of a jump that need not be long. Back, the label's place is known. */
static inline uint32_t jump_length(const NceCode *c, const NceItem *one, uint32_t at) {
    const NceLabel *label = c->labels + one->label;
    uint32_t to = label->item, is_long;
    if (to < (uint32_t)(one - c->items)) {
        is_long = is_beyond(at, label->place);
    } else {
        is_long = c->passes == 0 && c->items[to].raw - (one->raw + one->raw_len) > NEAR;
    }
    return is_long ? one->raw_len : SHORT_LEN;
}

/* How many nops come before an item. */
static inline uint32_t gap_before(NceCode *c, NceItem *one, uint32_t at) {
    if (one->kind <= ALIGN) return one->kind == ALIGN || c->labels[one->label].is_entry ? -at & MASK : 0;
    if (one->kind == CALL || one->kind == CALL_TO || one->kind == CALL_BY) return -(at + one->len) & MASK;
    if (one->kind == JUMP && !one->is_far && (c->passes == 0 || one->len == SHORT_LEN)) one->len = (uint8_t)jump_length(c, one, at);
    return (at & MASK) + one->len > NCE_BUNDLE ? -at & MASK : 0;
}

/* Binds labels behind the nops that follow them. */
static void move_labels(NceCode *c, const NceItem *from, const NceItem *end, uint32_t at) {
    for (; from < end; from++) {
        if (from->kind == LABEL) c->labels[from->label].place = at;
    }
}

/* Places the items from this one on, and what is between and after them. Returns where all ends. */
static uint32_t lay(NceCode *c, NceItem *one) {
    const NceItem *end = c->items + c->count, *waiting = one; /* from there on there are only labels before `one` */
    uint32_t raw = one == c->items ? 0 : one[-1].raw + one[-1].raw_len, at = one == c->items ? 0 : one[-1].place + one[-1].len, gap;
    for (;; one++) {
        uint32_t next = one < end ? one->raw : c->len, room = NCE_BUNDLE - (at & MASK);
        if (next != raw) {
            if (waiting != one && next - raw > room && fitting(c, raw, room) == 0) {
                at += room;
                move_labels(c, waiting, one, at);
            }
            at = run(c, raw, next, at, NULL);
            waiting = one;
        }
        if (one == end) return at;
        gap = gap_before(c, one, at);
        at += gap;
        if (gap != 0) move_labels(c, waiting, one, at);
        one->place = at;
        if (one->kind == LABEL) {
            c->labels[one->label].place = at;
        } else if (one->kind != ALIGN) {
            waiting = one + 1;
        }
        raw = next + one->raw_len;
        at += one->len;
    }
}

/* Makes the jumps long that don't reach. Returns the first of those, or the end. After many passes what just reaches is made long too, and
   in the end everything ahead. */
static NceItem *lengthen(NceCode *c) {
    NceItem *one = c->items, *end = one + c->count, *first = end;
    for (; one < end; one++) {
        if (one->kind == JUMP && one->len == SHORT_LEN && is_beyond(one->place, c->labels[one->label].place + c->passes / 8 * 16)) {
            one->len = one->raw_len;
            first = one < first ? one : first;
        }
    }
    return first;
}

static int is_laid(const NceCode *c) { return c->fault == NCE_OK && c->passes != 0 && c->laid == c->len; }

uint32_t nce_layout(NceCode *c) {
    NceItem *from = c->items;
    if (is_laid(c)) return c->size;
    fail(c, c->partial != 0 ? NCE_BAD_BYTES : c->open == 0 ? NCE_OK : NCE_BAD_LABEL);
    for (c->passes = 0; c->fault == NCE_OK && (c->passes == 0 || from < c->items + c->count); c->passes++) {
        while (from > c->items && from[-1].kind <= ALIGN) from--;
        c->size = (lay(c, from) + MASK) & ~MASK;
        from = lengthen(c);
    }
    c->laid = c->len;
    return c->fault == NCE_OK ? c->size : 0;
}

uint32_t nce_place(const NceCode *c, uint32_t item) { return is_laid(c) && item < c->count ? c->items[item].place : NCE_NOWHERE; }

uint32_t nce_label_place(const NceCode *c, uint32_t label) {
    return is_laid(c) && label < c->label_count && c->labels[label].item < WANTED ? c->labels[label].place : NCE_NOWHERE;
}

uint32_t nce_label_address(const NceCode *c, uint32_t label, uint32_t base) {
    return nce_label_place(c, label) != NCE_NOWHERE && c->labels[label].is_entry ? base + c->labels[label].place : 0;
}

/* Writes a transfer, or an instruction with an address. */
static void write_item(const NceCode *c, const NceItem *one, uint32_t base, uint8_t *to) {
    const uint8_t *raw = c->bytes + one->raw;
    uint32_t len = one->len, end = one->place + len, word;
    if (one->kind == JUMP && len == SHORT_LEN) {
        to[0] = raw[0] == 0xE9 ? 0xEB : (uint8_t)(0x70 | (raw[1] & 15));
        to[1] = (uint8_t)(c->labels[one->label].place - end);
        return;
    }
    copy_few(to, raw, len);
    switch (one->kind) {
    case JUMP:
    case CALL: word = c->labels[one->label].place - end; break;
    case JUMP_TO:
    case CALL_TO: word = one->label - (base + end); break; /* which is an address here */
    case ADDRESS: word = base + c->labels[one->label].place; break;
    default: return;
    }
    memcpy(to + len - 4, &word, 4);
}

int nce_write(const NceCode *c, uint32_t base, void *to) {
    const NceItem *one = c->items, *end = one + c->count;
    uint32_t raw = 0, at = 0;
    if (!is_laid(c)) return 0;
    for (; one < end; one++) {
        at = one->raw != raw ? run(c, raw, one->raw, at, to) : at;
        if (at != one->place) fill(to, at, one->place);
        if (one->len != 0) write_item(c, one, base, (uint8_t *)to + one->place);
        raw = one->raw + one->raw_len;
        at = one->place + one->len;
    }
    at = run(c, raw, c->len, at, to);
    fill(to, at, c->size);
    return 1;
}
