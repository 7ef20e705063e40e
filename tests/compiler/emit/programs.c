/* Random programs; programs.h describes them. EAX, EDX, EBX, ESI and EBP are the registers, ECX and EDI are for the code itself. */
#include "programs.h"

#include <stddef.h>
#include <string.h>

enum {
    SET,
    ADD,
    SUB,
    XOR,
    AND,
    OR,
    ADD_BYTE,
    ADD_NUMBER,
    ADD_HALF,
    LOAD,
    STORE,
    STORE_NUMBER,
    ADD_CELL,
    LEA,
    TIMES,
    SHIFT,
    SET_IF,
    MOVE_IF,
    STACK,
    NOTHING,
    OPS
};
static const uint8_t numbers[REGISTERS] = {NCE_EAX, NCE_EDX, NCE_EBX, NCE_ESI, NCE_EBP};

/* ---- Drawing */

static uint32_t random_state;

void draw_from(uint32_t seed) {
    random_state = seed * 2654435761u + 12345;
}

uint32_t draw(uint32_t below) {
    random_state = random_state * 1664525u + 1013904223u;
    return (uint32_t)((uint64_t)(random_state ^ random_state >> 15) % below);
}

static uint32_t number(void) {
    return draw(2) ? draw(256) - 128 : draw(65536) << 16 | draw(65536);
}

/* A step in a chunk with these labels. */
static Step step(Program *p, uint32_t chunk, uint32_t first, uint32_t labels) {
    static const uint8_t kinds[] = {GO,   GO,   GO_IF,   GO_IF,  GO_IF,   GO_IF,     GO_BY,      GO_TABLE,
                                    CALL, CALL, CALL_BY, RETURN, GO_OVER, CALL_OVER, GO_PATCHED, ALIGN};
    Step made = {PLAIN, (uint8_t)draw(OPS), (uint8_t)draw(REGISTERS), (uint8_t)draw(REGISTERS), number()};
    if (draw(3) != 0) return made;
    made.kind = kinds[draw(sizeof kinds)];
    made.op = (uint8_t)draw(16);
    made.number = first + draw(labels);
    if (made.kind == GO_TABLE) {
        made.number = first + draw(labels > TABLE ? labels - TABLE + 1 : 1);
        made.kind = labels < TABLE ? ALIGN : GO_TABLE;
    }
    if (made.kind == GO_PATCHED) {
        if (chunk != 0 || p->patches == MOST_PATCHES) {
            made.kind = ALIGN;
        } else {
            p->to[p->patches] = made.number;
            made.number = p->patches++;
        }
    }
    return made;
}

void program_draw(Program *p, uint32_t most) {
    uint32_t chunk, k, label = 0, at = 0;
    p->patches = 0;
    for (chunk = 0; chunk < CHUNKS; chunk++) {
        uint32_t count = 1 + draw(most / CHUNKS), every = 2 + draw(8), labels = 1 + (count - 1) / every;
        p->begins[chunk] = at;
        p->labels[chunk] = label;
        for (k = 0; k < count; k++, at++) {
            if (k % every != 0) {
                p->steps[at] = step(p, chunk, p->labels[chunk], labels);
            } else {
                p->steps[at] = (Step){BIND, 0, 0, 0, label};
                p->places[label++] = at;
            }
        }
        p->steps[at++] = (Step){END, 0, 0, 0, 0};
    }
    p->begins[chunk] = at;
    p->labels[chunk] = label;
}

void state_draw(State *s) {
    uint32_t k;
    memset(s, 0, sizeof *s);
    for (k = 0; k < REGISTERS; k++) s->registers[k] = number();
    for (k = 0; k < CELLS; k++) s->cells[k] = number();
    s->fuel = FUEL;
}

/* ---- What it does */

static uint32_t holds(uint32_t cc, uint32_t a, uint32_t b) {
    uint32_t r = a - b, sign = r >> 31, over = ((a ^ b) & (a ^ r)) >> 31;
    const uint32_t is[8] = {over, a < b, r == 0, a <= b, sign, !__builtin_parity(r & 255), sign != over, sign != over || r == 0};
    return is[cc / 2] ^ (cc & 1);
}

static void act(const Step *x, State *s) {
    uint32_t *a = s->registers + x->a, *b = s->registers + x->b, *word = s->cells + x->number % CELLS, n = x->number, cc = n & 15;
    switch (x->op) {
    case SET: *a = n; break;
    case ADD: *a += *b; break;
    case SUB: *a -= *b; break;
    case XOR: *a ^= *b; break;
    case AND: *a &= *b; break;
    case OR: *a |= *b; break;
    case ADD_BYTE: *a += (uint32_t)(int8_t)n; break;
    case ADD_NUMBER: *a += n; break;
    case ADD_HALF: *a = (*a & 0xFFFF0000) | ((*a + n) & 0xFFFF); break;
    case LOAD: *a = *word; break;
    case STORE: *word = *a; break;
    case STORE_NUMBER: *word = n; break;
    case ADD_CELL: *word += n; break;
    case LEA: *a = *a + 4 * *b + n; break;
    case TIMES: *a *= *b; break;
    case SHIFT: *a <<= n & 31; break;
    case SET_IF: *a = holds(cc, *a, *b); break;
    case MOVE_IF: *a = holds(cc, *a, *b) ? *b : *a; break;
    case STACK: *b = *a; break;
    default: break;
    }
}

/* The step to which a transfer leads. */
static uint32_t target(const Program *p, const State *s, const Step *x) {
    uint32_t chunk = (uint32_t)(x - p->steps) >= p->begins[1];
    switch (x->kind) {
    case GO_OVER:
    case CALL_OVER: return p->begins[1 - chunk];
    case GO_PATCHED: return p->places[p->to[x->number]];
    case GO_TABLE: return p->places[x->number + (s->registers[x->a] & (TABLE - 1))];
    default: return p->places[x->number];
    }
}

void program_interpret(const Program *p, State *s) {
    static uint32_t returns[FUEL + 1];
    uint32_t at = p->begins[0], depth = 0;
    for (;;) {
        const Step *x = p->steps + at++;
        if (x->kind == PLAIN) act(x, s);
        if ((x->kind == BIND && --s->fuel < 0) || x->kind == END || (x->kind == RETURN && depth == 0)) return;
        if (x->kind == CALL || x->kind == CALL_BY || x->kind == CALL_OVER) returns[depth++] = at;
        if (x->kind == RETURN) {
            at = returns[--depth];
        } else if (x->kind > END && (x->kind != GO_IF || holds(x->op, s->registers[x->a], s->registers[x->b]))) {
            at = target(p, s, x);
        }
    }
}

/* ---- Its code */

/* Gives instructions whose lengths are named, one by one or together, or in two parts. */
static void give(NceCode *c, const uint8_t *bytes, const uint8_t *lens, uint32_t count) {
    uint32_t k, all = 0, cut;
    for (k = 0; k < count; k++) all += lens[k];
    cut = draw(all + 1);
    switch (draw(4)) {
    case 0: nce_raw(c, bytes, all); break;
    case 1:
        nce_raw(c, bytes, cut);
        nce_raw(c, bytes + cut, all - cut);
        break;
    default:
        for (k = 0; k < count; bytes += lens[k++]) nce_instruction(c, bytes, lens[k]);
    }
}

static void give_one(NceCode *c, const uint8_t *bytes, uint32_t len) {
    const uint8_t lens[1] = {(uint8_t)len};
    give(c, bytes, lens, 1);
}

/* An opcode of one or two bytes, a ModRM byte, and words after it. */
static void give_words(NceCode *c, uint32_t opcode, uint32_t modrm, uint32_t count, uint32_t word, uint32_t second) {
    uint8_t bytes[11];
    uint32_t len = 0;
    if (opcode > 255) bytes[len++] = (uint8_t)(opcode >> 8);
    bytes[len++] = (uint8_t)opcode;
    bytes[len++] = (uint8_t)modrm;
    memcpy(bytes + len, &word, 4);
    memcpy(bytes + len + 4, &second, 4);
    give_one(c, bytes, len + 4 * count);
}

/* An instruction on a register and a word of the state: ModRM with an address alone. */
static void give_at(Made *m, uint32_t opcode, uint32_t reg, uint32_t offset) {
    give_words(&m->code, opcode, reg << 3 | 5, 1, m->state + offset, 0);
}

static uint32_t cell(uint32_t k) {
    return (uint32_t)(offsetof(State, cells) + 4 * (k % CELLS));
}

/* add r16, number; lock add [cell], number; cmp, setcc and movzx; push and pop; lea; shl */
static void give_group(Made *m, const Step *x, uint32_t a, uint32_t b) {
    uint8_t bytes[16] = {0};
    const uint8_t cc = x->number & 15;
    uint32_t n = x->number, at = m->state + cell(n);
    switch (x->op) {
    case ADD_HALF:
        memcpy(bytes, (const uint8_t[]){0x66, 0x81, (uint8_t)(0xC0 | a), (uint8_t)n, (uint8_t)(n >> 8)}, 5);
        give_one(&m->code, bytes, 5);
        break;
    case ADD_CELL:
        memcpy(bytes, (const uint8_t[]){0x31, 0xFF, 0xF0, 0x81, 0x84, 0x27}, 6);
        memcpy(bytes + 6, &at, 4);
        memcpy(bytes + 10, &n, 4);
        give(&m->code, bytes, (const uint8_t[]){2, 12}, 2);
        break;
    case SET_IF:
        memcpy(bytes, (const uint8_t[]){0x39, (uint8_t)(0xC0 | b << 3 | a), 0x0F, (uint8_t)(0x90 | cc), 0xC1}, 5);
        memcpy(bytes + 5, (const uint8_t[]){0x0F, 0xB6, (uint8_t)(0xC1 | a << 3)}, 3);
        give(&m->code, bytes, (const uint8_t[]){2, 3, 3}, 3);
        break;
    case MOVE_IF:
        memcpy(bytes, (const uint8_t[]){0x39, (uint8_t)(0xC0 | b << 3 | a), 0x0F, (uint8_t)(0x40 | cc), (uint8_t)(0xC0 | a << 3 | b)}, 5);
        give(&m->code, bytes, (const uint8_t[]){2, 3}, 2);
        break;
    case STACK:
        memcpy(bytes, (const uint8_t[]){(uint8_t)(0x50 | a), (uint8_t)(0x58 | b)}, 2);
        give(&m->code, bytes, (const uint8_t[]){1, 1}, 2);
        break;
    case LEA:
        memcpy(bytes, (const uint8_t[]){0x8D, (uint8_t)(0x84 | a << 3), (uint8_t)(0x80 | b << 3 | a)}, 3);
        memcpy(bytes + 3, &n, 4);
        give_one(&m->code, bytes, 7);
        break;
    default: give_one(&m->code, (const uint8_t[]){0xC1, (uint8_t)(0xE0 | a), (uint8_t)n}, 3);
    }
}

static void give_act(Made *m, const Step *x) {
    static const uint8_t opcodes[] = {[ADD] = 0x01, [SUB] = 0x29, [XOR] = 0x31, [AND] = 0x21, [OR] = 0x09};
    uint32_t a = numbers[x->a], b = numbers[x->b], n = x->number;
    NceCode *c = &m->code;
    switch (x->op) {
    case SET: give_words(c, 0xC7, 0xC0 | a, 1, n, 0); break;
    case ADD:
    case SUB:
    case XOR:
    case AND:
    case OR: give_words(c, opcodes[x->op], 0xC0 | b << 3 | a, 0, 0, 0); break;
    case ADD_BYTE: give_one(c, (const uint8_t[]){0x83, (uint8_t)(0xC0 | a), (uint8_t)n}, 3); break;
    case ADD_NUMBER: give_words(c, 0x81, 0xC0 | a, 1, n, 0); break;
    case LOAD: give_at(m, 0x8B, a, cell(n)); break;
    case STORE: give_at(m, 0x89, a, cell(n)); break;
    case STORE_NUMBER: give_words(c, 0xC7, 5, 2, m->state + cell(n), n); break;
    case TIMES: give_words(c, 0x0FAF, 0xC0 | a << 3 | b, 0, 0, 0); break;
    case NOTHING: nce_raw(c, "\x90\x66\x90\x0F\x1F\x80\x00\x00\x00\x00\xF8\xFC", n & 1 ? 12 : 1); break;
    default: give_group(m, x, a, b); break;
    }
}

/* ECX or EDI becomes a label's address, or that in the table. */
static unsigned give_address(Made *m, const Step *x) {
    uint32_t reg = x->op & 1 ? NCE_EDI : NCE_ECX, table = m->state + (uint32_t)offsetof(State, table) + 4 * x->number, k;
    /* clang-format off */
    uint8_t bytes[12] = {0x89, (uint8_t)(0xC0 | numbers[x->a] << 3 | reg), 0x83, (uint8_t)(0xE0 | reg), TABLE - 1,
                         0x8B, (uint8_t)(0x04 | reg << 3), (uint8_t)(0x85 | reg << 3)};
    /* clang-format on */
    if (x->kind == GO_TABLE) {
        memcpy(bytes + 8, &table, 4);
        give(&m->code, bytes, (const uint8_t[]){2, 3, 7}, 3);
        for (k = 0; k < TABLE; k++) nce_entry(&m->code, m->labels[x->number + k]);
    } else {
        give_one(&m->code, (const uint8_t[]){(uint8_t)(0xB8 | reg), 0, 0, 0, 0}, 5);
        nce_address(&m->code, m->labels[x->number]);
    }
    return reg;
}

static void give_transfer(Made *m, const Program *p, const Step *x, uint32_t over) {
    NceCode *c = &m->code;
    uint32_t label = x->kind == GO_PATCHED ? p->to[x->number] : x->number;
    switch (x->kind) {
    case GO: nce_jump(c, NCE_ALWAYS, m->labels[label]); break;
    case GO_IF:
        give_words(c, 0x39, 0xC0u | (uint32_t)numbers[x->b] << 3 | numbers[x->a], 0, 0, 0);
        nce_jump(c, x->op, m->labels[label]);
        break;
    case GO_PATCHED:
        nce_jump(c, NCE_ALWAYS, m->labels[label]);
        nce_far(c);
        m->patched[x->number] = nce_last(c);
        break;
    case GO_BY:
    case GO_TABLE: nce_jump_by(c, give_address(m, x)); break;
    case CALL: nce_call(c, m->labels[label]); break;
    case CALL_BY: nce_call_by(c, give_address(m, x)); break;
    case GO_OVER: nce_jump_to(c, NCE_ALWAYS, over); break;
    case CALL_OVER: nce_call_to(c, over); break;
    default: /* a return, unless nothing has been called */
        give_at(m, 0x3B, NCE_ESP, offsetof(State, stack));
        nce_jump(c, 4, m->out);
        nce_return(c, x->op & 1 ? NCE_EDI : NCE_ECX);
    }
}

/* Where C calls the chunk, and where it returns to C. */
static void give_ends(Made *m, uint32_t first) {
    NceCode *c = &m->code;
    uint32_t k;
    nce_bind(c, m->out);
    for (k = 0; k < REGISTERS; k++) give_at(m, 0x89, numbers[k], 4 * k);
    give_at(m, 0x8B, NCE_ESP, offsetof(State, stack));
    nce_raw(c, "\x5F\x5E\x5D\x5B", 4);
    nce_return(c, NCE_ECX);
    nce_entry(c, m->begin);
    nce_bind(c, m->begin);
    nce_raw(c, "\x53\x55\x56\x57", 4);
    give_at(m, 0x89, NCE_ESP, offsetof(State, stack));
    for (k = 0; k < REGISTERS; k++) give_at(m, 0x8B, numbers[k], 4 * k);
    nce_jump(c, NCE_ALWAYS, first);
}

void program_give(const Program *p, uint32_t chunk, Made *m, const uint32_t *bases) {
    NceCode *c = &m->code;
    const Step *x = p->steps + p->begins[chunk], *end = p->steps + p->begins[chunk + 1];
    uint32_t k;
    m->out = nce_label(c);
    m->begin = nce_label(c);
    for (k = p->labels[chunk]; k < p->labels[chunk + 1]; k++) m->labels[k] = nce_label(c);
    for (; x < end; x++) {
        if (x->kind == PLAIN) give_act(m, x);
        if (x->kind == ALIGN) nce_align(c);
        if (x->kind > END) give_transfer(m, p, x, bases[1 - chunk]);
        if (x->kind == BIND) {
            nce_bind(c, m->labels[x->number]);
            give_at(m, 0xFF, 1, offsetof(State, fuel)); /* dec */
            nce_jump(c, 8, m->out);
        }
    }
    give_ends(m, m->labels[p->labels[chunk]]);
}

void program_tables(const Program *p, uint32_t chunk, const Made *m, State *s, uint32_t base) {
    uint32_t k;
    for (k = p->labels[chunk]; k < p->labels[chunk + 1]; k++) s->table[k] = nce_label_address(&m->code, m->labels[k], base);
}
