/* The chunks' bytes. What is patched at 0d, 2e and 4f lies across a boundary of 16 bytes, where a processor may fetch it in two parts. */
#include "chunks.h"

#include "inner.h"

#include <string.h>

static void lay32(uint8_t *at, uint32_t value) {
    memcpy(at, &value, sizeof value);
}

uint32_t chunks_random(uint64_t *random) {
    *random ^= *random << 13;
    *random ^= *random >> 7;
    *random ^= *random << 17;
    return (uint32_t)(*random >> 16);
}

/* mov ecx, [esp + 4]; mov ebp, [esp + 8]; mov esi, [esp + 12]; mov edi, [esp + 16]; mov eax, [esp + 20]; and eax, -32; jmp eax */
void chunks_lay_entry(uint8_t code[NC_BUNDLE]) {
    static const uint8_t bytes[] = {0x8B, 0x4C, 0x24, 4,    0x8B, 0x6C, 0x24, 8,    0x8B, 0x74, 0x24, 12,  0x8B,
                                    0x7C, 0x24, 16,   0x8B, 0x44, 0x24, 20,   0x83, 0xE0, 0xE0, 0xFF, 0xE0};
    memset(code, 0x90, NC_BUNDLE);
    memcpy(code, bytes, sizeof bytes);
}

/* mov [RESULT_AT], ecx; mov [RESULT_AT + 4], ebx; mov dword [RESULT_AT + 8], way; jmp to the trampoline that returns */
void chunks_lay_end(uint8_t code[NC_BUNDLE], uint32_t base, uint32_t way) {
    static const uint8_t bytes[] = {0x89, 0x0D, 0, 0, 0, 0, 0x89, 0x1D, 0, 0, 0, 0, 0xC7, 0x05, 0, 0, 0, 0, 0, 0, 0, 0, 0xE9};
    memset(code, 0x90, NC_BUNDLE);
    memcpy(code, bytes, sizeof bytes);
    lay32(code + 2, RESULT_AT);
    lay32(code + 8, RESULT_AT + 4);
    lay32(code + 14, RESULT_AT + 8);
    lay32(code + 18, way);
    lay32(code + 23, OUT_RETURN * NC_BUNDLE - (base + 27));
}

void chunks_lay_patched(uint8_t code[PATCHED_LEN]) {
    static const struct {
        uint8_t at, len, bytes[6];
    } parts[] = {
        {0x0D, 5, {0xB8, 0xCC, 0xCC, 0xCC, 0xCC}},       /* mov eax, FIRST_NUMBER    patched to the second */
        {0x12, 2, {0xEB, 0x0C}},                         /* jmp 20 */
        {0x1B, 5, {0xE9, 0, 0, 0, 0}},                   /* jmp to BAD */
        {0x20, 5, {0x3D, 0xCC, 0xCC, 0xCC, 0xCC}},       /* cmp eax, FIRST_NUMBER */
        {0x25, 2, {0x74, 0x07}},                         /* je 2e */
        {0x27, 5, {0x3D, 0x0F, 0x0B, 0x0F, 0x0B}},       /* cmp eax, SECOND_NUMBER */
        {0x2C, 2, {0x75, 0xED}},                         /* jne 1b */
        {0x2E, 5, {0xE9, 0x0D, 0, 0, 0}},                /* jmp 40                   patched to the chunk aside */
        {0x4F, 2, {0xEB, 0x01}},                         /* jmp 52                   patched to 53 */
        {0x52, 3, {0x43, 0x42, 0x49}},                   /* inc ebx; inc edx; dec ecx */
        {0x55, 6, {0x0F, 0x85, 0xA5, 0xFF, 0xFF, 0xFF}}, /* jne 00 */
        {0x5B, 5, {0x83, 0xE6, 0xE0, 0xFF, 0xE6}},       /* and esi, -32; jmp esi    patched to call esi */
    };
    size_t i;
    memset(code, 0x90, PATCHED_LEN);
    for (i = 0; i < sizeof parts / sizeof *parts; i++) {
        memcpy(code + parts[i].at, parts[i].bytes, parts[i].len);
    }
    lay32(code + 0x1C, BAD - (PATCHED_AT + 0x20));
}

void chunks_lay_aside(uint8_t code[ASIDE_LEN]) {
    static const uint8_t bytes[] = {0x45, 0x49, 0x0F, 0x85, 0, 0, 0, 0, 0x83, 0xE6, 0xE0, 0xFF, 0xE6}; /* inc ebp; dec ecx; jne; as above */
    memset(code, 0x90, ASIDE_LEN);
    memcpy(code, bytes, sizeof bytes);
    lay32(code + 4, PATCHED_AT - (ASIDE_AT + 8));
}

Change chunks_change(uint64_t *random) {
    uint32_t r = chunks_random(random), other = r & 256;
    Change change = {PATCHED_AT + 0x0D, 5, {0xB8}};
    switch (r % 4) {
    case 0: lay32(change.bytes + 1, other ? FIRST_NUMBER : SECOND_NUMBER); break;
    case 1:
        change.at = PATCHED_AT + 0x2E;
        change.bytes[0] = 0xE9;
        lay32(change.bytes + 1, other ? 0x0D : ASIDE_AT - (PATCHED_AT + 0x33));
        break;
    case 2:
        change.at = PATCHED_AT + 0x4F;
        change.len = 2;
        change.bytes[0] = 0xEB;
        change.bytes[1] = other ? 1 : 2;
        break;
    default:
        change.at = PATCHED_AT + 0x5B;
        lay32(change.bytes, 0xFFE0E683);
        change.bytes[4] = other ? 0xE6 : 0xD6;
    }
    return change;
}

/* One operation on EAX and EDX, at a place with room for it: its length, with the same done to the version's numbers. */
typedef struct Operation {
    uint32_t kind, number;
} Operation;
enum { ADD, XOR_NUMBER, ROTATE, XOR, ADD_BACK, INCREASE, KINDS };
static const uint8_t LENGTHS[KINDS] = {5, 6, 3, 2, 2, 1};

static void lay_operation(uint8_t *at, const Operation *op) {
    static const uint8_t begins[KINDS][3] = {{0x05}, {0x81, 0xF2}, {0xC1, 0xC0, 7}, {0x31, 0xD0}, {0x01, 0xC2}, {0x40}};
    uint32_t numbers = op->kind == ADD || op->kind == XOR_NUMBER ? 4 : 0; /* bytes of its number, at its end */
    memcpy(at, begins[op->kind], LENGTHS[op->kind] - numbers);
    memcpy(at + LENGTHS[op->kind] - numbers, &op->number, numbers);
}

static void do_operation(Version *v, const Operation *op) {
    switch (op->kind) {
    case ADD: v->eax += op->number; break;
    case XOR_NUMBER: v->edx ^= op->number; break;
    case ROTATE: v->eax = v->eax << 7 | v->eax >> 25; break;
    case XOR: v->eax ^= v->edx; break;
    case ADD_BACK: v->edx += v->eax; break;
    default: v->eax++;
    }
}

/* Operations from the second bundle up to the last one; how many. */
static uint32_t lay_operations(Version *v, Operation *ops, uint64_t *random) {
    static const uint32_t numbers[] = {0xCCCCCCCC, 0x0B0F0B0F, 0xF1F1F1F1, 0xF4F4F4F4, 0xC3C3C3C3, 0x80CD80CD};
    uint32_t count = 0, at = NC_BUNDLE;
    while (at < v->len - NC_BUNDLE) {
        Operation op = {chunks_random(random) % KINDS, numbers[chunks_random(random) % 6]};
        if (at % NC_BUNDLE + LENGTHS[op.kind] > NC_BUNDLE) {
            at += NC_BUNDLE - at % NC_BUNDLE;
            continue;
        }
        lay_operation(v->code + at, &op);
        at += LENGTHS[op.kind];
        ops[count++] = op;
    }
    return count;
}

static void lay_mov(uint8_t *at, uint8_t opcode, uint32_t number) {
    at[0] = opcode;
    lay32(at + 1, number);
}

/* mov ebx, id; mov eax; mov edx; mov ebp, rounds. Then bundles of operations, and at the end: dec ebp; jne the second bundle; and edi, -32;
   jmp edi. */
void chunks_lay_version(Version *v, uint64_t *random) {
    static const uint8_t end[] = {0x4D, 0x0F, 0x85, 0, 0, 0, 0, 0x83, 0xE7, 0xE0, 0xFF, 0xE7};
    Operation ops[CHANGING_MAX];
    uint32_t bundles = 4 + chunks_random(random) % 12, rounds = 1 + chunks_random(random) % 300, count, r, k;
    uint8_t *last = v->code + (bundles - 1) * NC_BUNDLE;
    v->len = bundles * NC_BUNDLE;
    v->id++;
    v->eax = chunks_random(random);
    v->edx = chunks_random(random);
    memset(v->code, 0x90, sizeof v->code);
    lay_mov(v->code, 0xBB, v->id);
    lay_mov(v->code + 5, 0xB8, v->eax);
    lay_mov(v->code + 10, 0xBA, v->edx);
    lay_mov(v->code + 15, 0xBD, rounds);
    count = lay_operations(v, ops, random);
    memcpy(last, end, sizeof end);
    lay32(last + 3, (uint32_t)(v->code + NC_BUNDLE - (last + 7)));
    for (r = 0; r < rounds; r++) {
        for (k = 0; k < count; k++) {
            do_operation(v, &ops[k]);
        }
    }
}
