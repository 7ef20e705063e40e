/* PCRE2: patterns with groups, look-behind, recursion and Unicode are matched by both matchers; text is substituted. */
#include <stdio.h>
#include <string.h>

#include "pcre2.h"
#include "port.h"

enum { COUNT = 20000, VECTOR = 500 };
static char text[COUNT + 1], out[2 * COUNT];
static int workspace[VECTOR];
static const struct {
    const char *pattern;
    unsigned options;
} PATTERNS[] = {
    {"(\\w+)\\s+\\1", PCRE2_CASELESS},
    {"(?<=a )(?<word>[b-w]+)(?=\\s|,)", 0},
    {"^(?:(.*?),){2}", PCRE2_MULTILINE},
    {"(a|b(?R)?c)+?[^aeiou]{2,4}", 0},
    {"\\p{L}+\\x{93}?\\b.", PCRE2_DOTALL},
    {"(?>lib|library)(?!\\d)", PCRE2_EXTENDED},
    {"\\d++[ ,]|(?|x(y)|s(t)r)", PCRE2_UNGREEDY},
};

/* How often a pattern is in the text, behind other sums, with the places of its groups. */
static unsigned work(unsigned sum, unsigned which) {
    int fault = 0, count = 0, groups;
    PCRE2_SIZE at = 0, length = sizeof out;
    PCRE2_SPTR pattern = (PCRE2_SPTR)PATTERNS[which].pattern;
    pcre2_code *code = pcre2_compile(pattern, PCRE2_ZERO_TERMINATED, PATTERNS[which].options, &fault, &at, NULL);
    pcre2_match_data *found = pcre2_match_data_create_from_pattern(code, NULL);
    PCRE2_SIZE *places = pcre2_get_ovector_pointer(found);
    for (at = 0; (groups = pcre2_match(code, (PCRE2_SPTR)text, COUNT, at, 0, found, NULL)) > 0; count++) {
        sum = sum_of(sum, places, 2 * sizeof *places * groups);
        at = places[1] + (places[1] == places[0]);
    }
    int other = pcre2_dfa_match(code, (PCRE2_SPTR)text, COUNT, 0, 0, found, NULL, workspace, VECTOR);
    int changed = pcre2_substitute(code, (PCRE2_SPTR)text, COUNT, 0, PCRE2_SUBSTITUTE_GLOBAL, found, NULL, (PCRE2_SPTR) "<$0>", 4,
                                   (PCRE2_UCHAR *)out, &length);
    sum = sum_of(sum, (int[]){count, other, changed}, 3 * sizeof(int));
    pcre2_match_data_free(found);
    pcre2_code_free(code);
    return changed > 0 ? sum_of(sum, out, length) : sum;
}

int main(int argc, char **argv) {
    unsigned sum = 0;
    int fault = 0;
    PCRE2_SIZE at = 0;
    fill(text, COUNT);
    for (int k = rounds_of(argc, argv); k > 0; k--) {
        for (unsigned which = 0; which < sizeof PATTERNS / sizeof *PATTERNS; which++) sum = work(sum, which);
    }
    pcre2_config(PCRE2_CONFIG_VERSION, out);
    printf("%s %08x", out, sum);
    printf(" %d", pcre2_compile((PCRE2_SPTR) "a(b[c)", PCRE2_ZERO_TERMINATED, PCRE2_UTF, &fault, &at, NULL) == NULL);
    pcre2_get_error_message(fault, (PCRE2_UCHAR *)out, sizeof out);
    printf(" at %u: %s\n", (unsigned)at, out);
    return 0;
}
