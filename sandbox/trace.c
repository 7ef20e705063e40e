/* What the code of a box was doing when its call ended. Its registers and its stack are untrusted. So each word is read once, within the
   box's memory, and counts only if the file's own code, which nobody changes, has a call there. TRUSTED, NOT PROVED. [14] */
#include "inner.h"

#include <string.h>

#define CALL_LEN 5u          /* of a call that has its distance */
#define BY_REGISTER_LEN 2u   /* and of one by a register */
#define LOOKED_AT (4u << 20) /* bytes of the stack, at most, for each call */

/* A call of the file's code. */
typedef struct Call {
    uint32_t at; /* its instruction */
    uint32_t to; /* where it goes, or 0 if a register says so */
} Call;

/* How far the search has come. */
typedef struct Walk {
    NcsBox *box;
    uint32_t sp, bp, top; /* the stack from there to there, and the frame pointer: any numbers */
    uint32_t function;    /* the beginning of the one that was called, or 0 if no symbol says */
} Walk;

/* The call that returns to this address. Calls end where their bundles end. Whether there is one. */
static int call_before(const Image *image, uint32_t back, Call *call) {
    uint32_t len = back - image->code_at, distance;
    const uint8_t *end;
    if (back % NC_BUNDLE != 0 || back < image->code_at || len < CALL_LEN || len > image->code_len) {
        return 0;
    }
    end = image->bytes + image->code_offset + len;
    if (end[-5] == 0xE8) {
        memcpy(&distance, end - 4, sizeof distance);
        *call = (Call){back - CALL_LEN, back + distance};
        return 1;
    }
    *call = (Call){back - BY_REGISTER_LEN, 0};
    return end[-2] == 0xFF && (end[-1] & 0xF8) == 0xD0;
}

/* Whether the word there is an address to which a call returns. */
static int call_of(const Walk *w, uint32_t slot, Call *call) {
    uint32_t back;
    return ncs_get(w->box, &back, (NcsAt){slot}, sizeof back) && call_before(&w->box->module->image, back, call);
}

/* Whether the call can have led to the function at hand. */
static int fits(const Walk *w, const Call *call) {
    return call->to == 0 || w->function == 0 || call->to == w->function;
}

static int by_frame_pointer(Walk *w, Call *call) {
    uint32_t slot = w->bp + 4;
    if (w->bp < w->sp || !call_of(w, slot, call) || !fits(w, call)) {
        return 0;
    }
    w->sp = slot + 4;
    return ncs_get(w->box, &w->bp, (NcsAt){w->bp}, sizeof w->bp);
}

/* The nearest call that fits, else the nearest one: a function may end by a jump to another one. */
static int by_search(Walk *w, Call *call) {
    uint32_t from = (w->sp + 3) & ~3u, slot, nearest = 0;
    uint32_t end = w->top > from && w->top - from > LOOKED_AT ? from + LOOKED_AT : w->top;
    Call found;
    for (slot = from; slot < end; slot += 4) {
        if (call_of(w, slot, &found) && (nearest == 0 || fits(w, &found))) {
            *call = found;
            nearest = slot;
            if (fits(w, &found)) {
                break;
            }
        }
    }
    w->sp = nearest + 4;
    return nearest != 0;
}

static uint32_t function_of(const Image *image, uint32_t place) {
    uint32_t offset;
    return ncs_elf_function(image, place, &offset) != NULL ? place - offset : 0;
}

/* Whether a stack pointer has gone down beyond the memory, perhaps below 0. */
static int has_left(uint32_t sp) {
    return sp - 1 < DATA_LEAST || sp > INT32_MAX;
}

/* Code may have stacks of its own in its heap. One that has left its memory is searched from the least address on. */
static Walk begin(NcsBox *b) {
    uint32_t sp = b->reg[ESP], is_inside = sp > DATA_LEAST && sp <= b->limits.memory;
    Walk w = {.box = b, .sp = is_inside ? sp : DATA_LEAST, .bp = b->reg[EBP], .function = function_of(&b->module->image, b->end.place)};
    w.top = w.sp < b->stack ? b->stack : b->limits.memory;
    return w;
}

int ncs_trace(NcsBox *b, NcsTrace *to) {
    Walk w;
    Call call;
    if (!b->dead || b->end.place == 0) {
        return 0;
    }
    memset(to, 0, sizeof *to);
    memcpy(to->reg, b->reg, sizeof to->reg);
    w = begin(b);
    to->is_full = (uint32_t)has_left(b->reg[ESP]);
    while (to->count < NCS_TRACE_CALLS && (by_frame_pointer(&w, &call) || by_search(&w, &call))) {
        to->calls[to->count++].at = call.at;
        w.function = function_of(&b->module->image, call.at);
    }
    return 1;
}

NcsLinear ncs_linear(const NcsBox *b) {
    const Image *image = &b->module->image;
    NcsLinear linear = {b->module->text_at, b->data_at, {{image->code_at}, image->code_len}};
    return linear;
}
