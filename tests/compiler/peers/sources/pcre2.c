/* PCRE2's interpreter: matches five patterns against the whole text, and compiles them. */
#define PCRE2_CODE_UNIT_WIDTH 8
#include "unit.h"

#include "pcre2.h"

enum { PATTERNS = 5, COMPILATIONS = 400, PLACES = 20 };
/* clang-format off */
static const char *const PATTERN[PATTERNS] = {
    "[A-Za-z_]+\\s*\\(",
    "(?i)box_\\w+_(?:text|blob|int)\\b",
    "^\\s*(?:static|extern)\\s+(\\w+)\\s+\\**(\\w+)",
    "(\\w)\\w*\\1\\s",
    "\"(?:[^\"\\\\]|\\\\.)*\"",
};
/* clang-format on */
static pcre2_code *compiled[PATTERNS];
static pcre2_match_data *data;

static pcre2_code *compile(const char *pattern, uint32_t options) {
    int fault;
    PCRE2_SIZE at;
    pcre2_code *code = pcre2_compile((PCRE2_SPTR)pattern, PCRE2_ZERO_TERMINATED, options, &fault, &at, NULL);
    need(code != NULL);
    return code;
}

/* A sum over the places of all matches. */
static uint32_t matches_of(const pcre2_code *code) {
    const PCRE2_SIZE *places = pcre2_get_ovector_pointer(data);
    uint32_t sum = 0;
    size_t at = 0;
    while (at < in_len && pcre2_match(code, in, in_len, at, 0, data, NULL) > 0) {
        sum = sum * 31 + (uint32_t)places[0] + (uint32_t)(places[1] << 8);
        at = places[1] + (places[1] == places[0]);
    }
    return sum;
}

static void match_all(void) {
    uint32_t sum = 0;
    int k;
    for (k = 0; k < PATTERNS; k++) {
        sum = sum * 31 + matches_of(compiled[k]);
    }
    made_number(sum);
}

static void compile_all(void) {
    int k;
    for (k = 0; k < COMPILATIONS * PATTERNS; k++) {
        pcre2_code_free(compile(PATTERN[k % PATTERNS], 0));
    }
    made_number(COMPILATIONS);
}

void unit_prepare(void) {
    int k;
    for (k = 0; k < PATTERNS; k++) {
        compiled[k] = compile(PATTERN[k], PCRE2_MULTILINE);
    }
    data = pcre2_match_data_create(PLACES, NULL);
    need(data != NULL);
}

UNIT_OPERATIONS(match_all, compile_all)
