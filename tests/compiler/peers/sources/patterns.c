/* PCRE2's interpreter: an operation matches a pattern against the whole text. The input has the patterns, as lines of a letter, a space and
   the pattern, then a byte 0, and the text. The letter is i, u or another one, as in patterns.txt of examples/ports/pcre2-jit. */
#define PCRE2_CODE_UNIT_WIDTH 8
#include "unit.h"

#include "pcre2.h"

enum { PATTERNS_MAX = 64 };
static pcre2_code *compiled[PATTERNS_MAX];
static pcre2_match_data *data[PATTERNS_MAX];
static PCRE2_SPTR text;
static size_t text_len;

/* Compiles the pattern of a line. */
static void add(uint32_t number, const unsigned char *line, size_t len) {
    uint32_t options = PCRE2_MULTILINE | (line[0] == 'i' ? PCRE2_CASELESS : line[0] == 'u' ? PCRE2_UTF : 0);
    int fault;
    PCRE2_SIZE at;
    need(number < PATTERNS_MAX && len > 2);
    compiled[number] = pcre2_compile(line + 2, len - 2, options, &fault, &at, NULL);
    need(compiled[number] != NULL);
    data[number] = pcre2_match_data_create_from_pattern(compiled[number], NULL);
    need(data[number] != NULL);
}

void unit_prepare(void) {
    const unsigned char *line = in, *end = memchr(in, 0, in_len);
    uint32_t count = 0;
    need(end != NULL);
    while (line < end) {
        const unsigned char *next = memchr(line, '\n', (size_t)(end - line));
        need(next != NULL);
        add(count++, line, (size_t)(next - line));
        line = next + 1;
    }
    text = end + 1;
    text_len = in_len - (size_t)(text - in);
}

void unit_run(uint32_t operation) {
    const PCRE2_SIZE *places = pcre2_get_ovector_pointer(data[operation]);
    PCRE2_SIZE at = 0;
    uint32_t sum = 0;
    while (at <= text_len && pcre2_match(compiled[operation], text, text_len, at, PCRE2_NO_UTF_CHECK, data[operation], NULL) > 0) {
        sum = sum * 31 + (uint32_t)places[0] * 7 + (uint32_t)places[1];
        at = places[1] + (places[1] == places[0]);
    }
    made_number(sum);
}
