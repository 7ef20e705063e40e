/* A compiler for a machine with a stack. No instruction crosses the end of a bundle. nc_host refuses its mistakes. */
#include "compile.h"

#include <stdlib.h>
#include <string.h>

enum { BUNDLE = 32, NOP = 0x90, DEPTH_MAX = 50, PUSH = 0x68 };

static const uint8_t BEGIN[] = {0x8B, 0x54, 0x24, 4};                    /* mov edx, [esp + 4]: x stays there */
static const uint8_t X[] = {0x52};                                       /* push edx */
static const uint8_t ADD[] = {0x59, 0x58, 0x01, 0xC8, 0x50};             /* pop ecx; pop eax; add eax, ecx; push eax */
static const uint8_t SUB[] = {0x59, 0x58, 0x29, 0xC8, 0x50};             /* sub eax, ecx */
static const uint8_t MUL[] = {0x59, 0x58, 0x0F, 0xAF, 0xC1, 0x50};       /* imul eax, ecx */
static const uint8_t END[] = {0x58, 0x59, 0x83, 0xE1, 0xE0, 0xFF, 0xE1}; /* pop eax; pop ecx; and ecx, -32; jmp ecx */

typedef struct Compiler {
    Code *code;
    const char *at;
    unsigned depth;
    int wrong;
} Compiler;

/* Adds these instructions within one bundle. Where they are. */
static uint32_t emit(Compiler *c, const uint8_t *bytes, uint32_t len) {
    uint32_t room = BUNDLE - c->code->len % BUNDLE, at = c->code->len + (room < len ? room : 0);
    if (at + len > CODE_MAX) {
        c->wrong = 1;
        return 0;
    }
    memcpy(c->code->bytes + at, bytes, len);
    c->code->len = at + len;
    return at;
}

/* The next character that isn't a space. */
static char next(Compiler *c) {
    c->at += strspn(c->at, " ");
    return *c->at;
}

void compile_number(uint8_t to[NUMBER_LEN], uint32_t number) {
    to[0] = PUSH;
    memcpy(to + 1, &number, sizeof number);
}

static void number(Compiler *c) {
    char *end;
    uint8_t bytes[NUMBER_LEN];
    compile_number(bytes, (uint32_t)strtoul(c->at, &end, 10));
    c->at = end;
    if (c->code->number_count == NUMBERS_MAX) {
        c->wrong = 1;
        return;
    }
    c->code->numbers[c->code->number_count++] = emit(c, bytes, sizeof bytes);
}

static void sum(Compiler *c);

static void factor(Compiler *c) {
    char first = next(c);
    if (first >= '0' && first <= '9') {
        number(c);
    } else if (first == 'x') {
        c->at++;
        (void)emit(c, X, sizeof X);
    } else if (first == '(' && c->depth < DEPTH_MAX) {
        c->at++;
        c->depth++;
        sum(c);
        c->depth--;
        c->wrong |= next(c) != ')';
        c->at += *c->at == ')';
    } else {
        c->wrong = 1;
    }
}

static void product(Compiler *c) {
    factor(c);
    while (!c->wrong && next(c) == '*') {
        c->at++;
        factor(c);
        (void)emit(c, MUL, sizeof MUL);
    }
}

static void sum(Compiler *c) {
    product(c);
    while (!c->wrong && (next(c) == '+' || *c->at == '-')) {
        const uint8_t *instructions = *c->at++ == '+' ? ADD : SUB;
        product(c);
        (void)emit(c, instructions, sizeof ADD);
    }
}

int compile(Code *code, const char *formula) {
    Compiler c = {code, formula, 0, 0};
    code->len = code->number_count = 0;
    memset(code->bytes, NOP, sizeof code->bytes);
    (void)emit(&c, BEGIN, sizeof BEGIN);
    sum(&c);
    (void)emit(&c, END, sizeof END);
    code->len = (code->len + BUNDLE - 1) / BUNDLE * BUNDLE;
    return !c.wrong && next(&c) == 0;
}
