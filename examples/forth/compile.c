/* The compiler: a word becomes a chunk, in which each token is a few instructions, and a call of another word a call of its chunk. */
#define _GNU_SOURCE /* memmem */
#include "forth.h"

#include <nc_code.h>
#include <nc_emit.h>

#include <string.h>

typedef Cell *Enter(void *code, Cell *s);

#define RAW(code, text) nce_raw(code, text, sizeof(text) - 1)

static void *made(NceCode *code) {
    void *chunk = nc_code_new(code, NULL);
    nce_end(code);
    return chunk;
}

/* ---- From C to a word and back: an address and the stack, with its top in memory, on the stack of C */

static void *make_enter(void) {
    NceCode code;
    nce_begin(&code);
    RAW(&code, "\x55\x53\x56\x57");     /* push ebp; push ebx; push esi; push edi */
    RAW(&code, "\x8B\x4C\x24\x14");     /* mov ecx, [esp + 20] */
    RAW(&code, "\x8B\x74\x24\x18");     /* mov esi, [esp + 24] */
    RAW(&code, "\x8B\x06\x8D\x76\x04"); /* mov eax, [esi]; lea esi, [esi + 4] */
    nce_call_by(&code, NCE_ECX);
    RAW(&code, "\x8D\x76\xFC\x89\x06");     /* lea esi, [esi - 4]; mov [esi], eax */
    RAW(&code, "\x89\xF0\x5F\x5E\x5B\x5D"); /* mov eax, esi; pop edi; pop esi; pop ebx; pop ebp */
    nce_return(&code, NCE_ECX);
    return made(&code);
}

/* A word that does nothing, to which deferred words go at first. */
static void *make_nothing(void) {
    NceCode code;
    nce_begin(&code);
    nce_return(&code, NCE_ECX);
    return made(&code);
}

static void *enter, *nothing;

Cell *run_code(void *code, Cell *s) {
    return ((Enter *)enter)(code, s);
}

/* ---- Words */

static uint32_t address_of(const void *chunk) {
    return (uint32_t)(uintptr_t)chunk;
}

/* A primitive's instructions, with the address of the variables in place of its name. */
static void emit_primitive(NceCode *code, uint32_t number) {
#define AS_BYTES(number, name, statement, bytes) {bytes, sizeof(bytes) - 1},
    static const struct {
        const char *bytes;
        uint32_t len;
    } primitives[] = {PRIMITIVES(AS_BYTES)};
    const uint32_t at = address_of(cells);
    char bytes[32];
    char *place;
    memcpy(bytes, primitives[number].bytes, primitives[number].len);
    place = memmem(bytes, primitives[number].len, ADDRESS, sizeof at);
    if (place != NULL) {
        memcpy(place, &at, sizeof at);
    }
    nce_raw(code, bytes, primitives[number].len);
}

static void emit_literal(NceCode *code, Cell value) {
    unsigned char mov[5] = {0xB8}; /* mov eax, value */
    memcpy(mov + 1, &value, sizeof value);
    RAW(code, "\x8D\x76\xFC\x89\x06"); /* lea esi, [esi - 4]; mov [esi], eax */
    nce_instruction(code, mov, sizeof mov);
}

static void emit_c_word(NceCode *code, uint32_t number) {
    RAW(code, "\x8D\x76\xFC\x89\x06\x56"); /* lea esi, [esi - 4]; mov [esi], eax; push esi */
    nce_call_to(code, address_of((const void *)called_words[number].function));
    RAW(code, "\x59\x89\xC6\x8B\x06\x8D\x76\x04"); /* pop ecx; mov esi, eax; mov eax, [esi]; lea esi, [esi + 4] */
}

static void emit_token(NceCode *code, const Token *token, uint32_t first, uint32_t own) {
    const uint32_t value = (uint32_t)token->value;
    switch (token->kind) {
    case PRIMITIVE: emit_primitive(code, value); break;
    case C_WORD: emit_c_word(code, value); break;
    case LITERAL: emit_literal(code, token->value); break;
    case CALL:
        if (value == word_count) {
            nce_call(code, own);
        } else {
            nce_call_to(code, address_of(words[value].code));
        }
        break;
    case BRANCH: nce_jump(code, NCE_ALWAYS, first + value); break;
    case UNLESS:
        RAW(code, "\x85\xC0\x8B\x06\x8D\x76\x04"); /* test eax, eax; mov eax, [esi]; lea esi, [esi + 4] */
        nce_jump(code, 4, first + value);
        break;
    case DO: /* push ebx; push edi; mov edi, eax; mov ebx, [esi]; mov eax, [esi + 4]; lea esi, [esi + 8] */
        RAW(code, "\x53\x57\x89\xC7\x8B\x1E\x8B\x46\x04\x8D\x76\x08");
        break;
    case LOOP:
        RAW(code, "\x47\x39\xDF"); /* inc edi; cmp edi, ebx */
        nce_jump(code, 12, first + value);
        RAW(code, "\x5F\x5B"); /* pop edi; pop ebx */
        break;
    default: nce_return(code, NCE_ECX); break;
    }
}

/* Whether the words that it calls have chunks. */
static int can_compile(const Word *word, uint32_t end) {
    uint32_t at;
    for (at = word->from; at < end; at++) {
        if (tokens[at].kind == CALL && (uint32_t)tokens[at].value != word_count && words[tokens[at].value].code == NULL) {
            return 0;
        }
    }
    return enter != NULL && nothing != NULL;
}

static void *compile_deferred(void) {
    NceCode code;
    nce_begin(&code);
    nce_jump_to(&code, NCE_ALWAYS, address_of(nothing));
    nce_far(&code);
    return made(&code);
}

void *compile_word(const Word *word, uint32_t end) {
    NceCode code;
    uint32_t at, own;
    enter = enter != NULL ? enter : make_enter();
    nothing = nothing != NULL ? nothing : make_nothing();
    if (!can_compile(word, end)) {
        return NULL;
    }
    if (word->is_deferred) {
        return compile_deferred();
    }
    nce_begin(&code);
    own = nce_label(&code);
    nce_entry(&code, own);
    nce_bind(&code, own);
    for (at = word->from; at < end; at++) {
        (void)nce_label(&code); /* each token's label is behind the one before */
    }
    for (at = word->from; at < end; at++) {
        nce_bind(&code, own + 1 + at - word->from);
        emit_token(&code, &tokens[at], own + 1 - word->from, own);
    }
    return made(&code);
}

int redirect(Word *word) {
    const void *target = word->target != NONE ? words[word->target].code : nothing;
    uint32_t at = address_of(word->code);
    uint8_t jump[6];
    if (word->code == NULL) {
        return 1;
    }
    return target != NULL && nc_code_patch(at, jump, nce_transfer(jump, NCE_ALWAYS, at, address_of(target)), NULL);
}

void forget_code(Word *word) {
    if (word->code != NULL) {
        nc_code_free(word->code);
    }
}
