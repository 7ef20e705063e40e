/* Finished code to bundles; nc_flat.h describes it. */
#include "nc_flat.h"

#include <stdlib.h>
#include <string.h>

enum { PLAIN, RETURN, CALL, JUMP, BY_REGISTER, BY_MEMORY };

/* Of a byte of the old code, 1 more than its label and its foreign bytes' instruction for nce_place; how far into that they are. */
struct NcFlatByte {
    uint32_t label, last;
    uint8_t is_foreign, into;
};

typedef struct Found {
    uint32_t kind, len, cc, target; /* `len` is 0 if it isn't understood */
    int is_inner;                   /* a direct transfer within the code */
    uint8_t bytes[16];
} Found;

int nc_flat_begin(NcFlat *f, uint32_t len) {
    nce_begin(&f->code);
    f->len = len;
    f->of = len < NCE_MOST ? calloc(len + 1, sizeof *f->of) : NULL;
    return f->of != NULL;
}

void nc_flat_end(NcFlat *f) {
    nce_end(&f->code);
    free(f->of);
    f->of = NULL;
}

void nc_flat_foreign(NcFlat *f, uint32_t offset) {
    if (offset < f->len) f->of[offset].is_foreign = 1;
}

static void want_label(NcFlat *f, uint32_t offset) {
    if (f->of[offset].label == 0) f->of[offset].label = 1 + nce_label(&f->code);
}

void nc_flat_entry(NcFlat *f, uint32_t offset) {
    if (offset <= f->len) {
        want_label(f, offset);
        nce_entry(&f->code, f->of[offset].label - 1);
    }
}

/* What kind a transfer is, with its length. One through memory is as long as a load from there. */
static void recognise(Found *x) {
    uint8_t *p = x->bytes, reg = p[1] >> 3 & 7;
    if (p[0] == 0xC3 || p[0] == 0xC2) {
        *x = (Found){.kind = RETURN, .len = p[0] == 0xC3 ? 1 : 3, .bytes = {p[0], p[1], p[2]}};
    } else if (p[0] == 0xE8 || p[0] == 0xE9 || p[0] == 0xEB) {
        x->kind = p[0] == 0xE8 ? CALL : JUMP;
        x->len = p[0] == 0xEB ? 2 : 5;
        x->cc = NCE_ALWAYS;
    } else if ((p[0] & 0xF0) == 0x70 || (p[0] == 0x0F && (p[1] & 0xF0) == 0x80)) {
        x->kind = JUMP;
        x->len = p[0] == 0x0F ? 6 : 2;
        x->cc = (p[0] == 0x0F ? p[1] : p[0]) & 15u;
    } else if (p[0] == 0xFF && (reg == 2 || reg == 4)) {
        x->kind = p[1] >= 0xC0 ? BY_REGISTER : BY_MEMORY;
        x->len = 2;
        p[0] = x->kind == BY_MEMORY ? 0x8B : 0xFF;
    }
}

static Found found_at(const NcFlat *f, const uint8_t *code, uint32_t at) {
    Found x = {.kind = PLAIN};
    uint32_t left = f->len - at, word = 0;
    int got;
    memcpy(x.bytes, code + at, left < NCE_LONGEST ? left : NCE_LONGEST);
    recognise(&x);
    if (x.kind == PLAIN || x.kind == BY_MEMORY) {
        got = nce_length(x.bytes, NCE_LONGEST);
        x.len = got > 0 ? (uint32_t)got : 0;
    } else if (x.kind == CALL || x.kind == JUMP) {
        word = (uint32_t)(int8_t)x.bytes[1];
        memcpy(&word, x.bytes + (x.len > 2 ? x.len - 4 : 12), x.len > 2 ? 4 : 0);
        x.is_inner = x.len == 2 || (x.len <= left && !f->of[at + x.len - 4].is_foreign);
        x.target = x.is_inner ? at + x.len + word : 0;
    }
    x.len = x.len > left || x.target > f->len ? 0 : x.len;
    return x;
}

/* The bytes of an instruction are what has just been given. */
static void note(NcFlat *f, const Found *x, uint32_t at) {
    uint32_t k;
    for (k = 0; k < x->len; k++) {
        if (f->of[at + k].is_foreign) {
            f->of[at + k].last = 1 + nce_last(&f->code);
            f->of[at + k].into = (uint8_t)k;
        }
    }
}

static void give(NcFlat *f, Found *x, uint32_t at) {
    NceCode *c = &f->code;
    uint8_t *p = x->bytes, drop[6] = {0x81, 0xC4, p[1], p[2], 0, 0}; /* add esp, n */
    int is_call = (p[1] & 0x20) == 0;
    if (x->kind == CALL || x->kind == JUMP) {
        uint32_t label = x->is_inner ? f->of[x->target].label - 1 : 0;
        if (x->kind == CALL) {
            x->is_inner ? nce_call(c, label) : nce_call_to(c, 0);
        } else {
            x->is_inner ? nce_jump(c, x->cc, label) : nce_jump_to(c, x->cc, 0);
        }
    } else if (x->kind == PLAIN || x->kind == BY_MEMORY) {
        p[1] = x->kind == PLAIN ? p[1] : (uint8_t)((p[1] & 0xC7) | NCE_ECX << 3);
        nce_instruction(c, p, x->len);
    }
    note(f, x, at);
    if (x->kind == RETURN) {
        nce_instruction(c, "\x59", 1);
        nce_raw(c, drop, x->len == 3 ? sizeof drop : 0);
        nce_jump_by(c, NCE_ECX);
    } else if (x->kind == BY_REGISTER || x->kind == BY_MEMORY) {
        (is_call ? nce_call_by : nce_jump_by)(c, x->kind == BY_MEMORY ? NCE_ECX : p[1] & 7u);
    }
}

static void bind(NcFlat *f, uint32_t offset) {
    if (f->of[offset].label != 0) nce_bind(&f->code, f->of[offset].label - 1);
}

/* Finds the targets first, and gives everything then. */
int nc_flat_read(NcFlat *f, const uint8_t *code) {
    uint32_t pass, at;
    for (pass = 0; pass < 2; pass++) {
        Found x;
        for (at = 0; at < f->len; at += x.len) {
            x = found_at(f, code, at);
            if (x.len == 0) {
                f->len = at;
                return 0;
            }
            if (pass == 0 && x.is_inner) {
                want_label(f, x.target);
            } else if (pass == 1) {
                bind(f, at);
                give(f, &x, at);
            }
        }
    }
    bind(f, at);
    nce_raw(&f->code, "\xF4", f->of[at].label != 0); /* what jumps to the end stops there */
    return f->code.fault == NCE_OK;
}

uint32_t nc_flat_place(const NcFlat *f, uint32_t offset) {
    const struct NcFlatByte *of = offset <= f->len ? f->of + offset : NULL;
    if (of != NULL && of->label != 0) return nce_label_place(&f->code, of->label - 1);
    return of != NULL && of->last != 0 ? nce_place(&f->code, of->last - 1) + of->into : NCE_NOWHERE;
}
