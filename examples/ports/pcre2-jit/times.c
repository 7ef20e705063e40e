/*
 * Times of PCRE2's interpreter and JIT, and what the JIT makes: times PATTERNS RUNS [INTERPRETED]
 *
 * For each pattern a line: the number of matches and a sum of their places, the least milliseconds of all matches by the interpreter (0 if
 * it has no runs) and by the JIT, the least microseconds of pcre2_jit_compile, the bytes of code, and the pattern. With 0 RUNS nothing is
 * matched.
 */
#include <stdio.h>
#include <stdlib.h>
#include <string.h>
#include <time.h>
#include "pcre2.h"

enum { TURNS = 20 };
static char *text;
static size_t len;

typedef struct Found {
    int count;
    unsigned sum;
    double best;
} Found;

static double now(void) {
    struct timespec t;
    clock_gettime(CLOCK_PROCESS_CPUTIME_ID, &t);
    return 1e3 * (double)t.tv_sec + 1e-6 * (double)t.tv_nsec;
}

static double least(double a, double b) {
    return a < b ? a : b;
}

static void read_text(const char *name) {
    FILE *file = fopen(name, "rb");
    if (file == NULL || fseek(file, 0, SEEK_END) != 0) {
        exit(2);
    }
    len = (size_t)ftell(file);
    rewind(file);
    free(text);
    text = malloc(len + 1);
    if (text == NULL || fread(text, 1, len, file) != len || fclose(file) != 0) {
        exit(2);
    }
}

/* Matches the whole text. */
static void match(const pcre2_code *code, pcre2_match_data *data, pcre2_match_context *context, int jit, Found *found) {
    PCRE2_SIZE *places = pcre2_get_ovector_pointer(data), at = 0;
    double start = now();
    found->count = 0;
    found->sum = 0;
    while (at <= len) {
        int got = jit ? pcre2_jit_match(code, (PCRE2_SPTR)text, len, at, 0, data, context)
                      : pcre2_match(code, (PCRE2_SPTR)text, len, at, PCRE2_NO_JIT | PCRE2_NO_UTF_CHECK, data, context);
        if (got <= 0) {
            break;
        }
        found->count++;
        found->sum = found->sum * 31 + (unsigned)places[0] * 7 + (unsigned)places[1];
        at = places[1] + (places[1] == places[0]);
    }
    found->best = least(found->best, now() - start);
}

static pcre2_code *compiled(const char *pattern, unsigned options) {
    int fault;
    PCRE2_SIZE at;
    pcre2_code *code = pcre2_compile((PCRE2_SPTR)pattern, PCRE2_ZERO_TERMINATED, options, &fault, &at, NULL);
    if (code == NULL) {
        exit(2);
    }
    return code;
}

/* The least microseconds in which the JIT makes the code. */
static double generate(const char *pattern, unsigned options, pcre2_code **made) {
    double best = 1e9;
    int turn;
    for (turn = 0; turn < TURNS; turn++) {
        pcre2_code *code = compiled(pattern, options);
        double start = now();
        if (pcre2_jit_compile(code, PCRE2_JIT_COMPLETE) != 0) {
            exit(3);
        }
        best = least(best, now() - start);
        if (turn != 0) {
            pcre2_code_free(*made);
        }
        *made = code;
    }
    return 1e3 * best;
}

static void measure(const char *pattern, unsigned options, int runs, int interpreted) {
    Found by[2] = {{.best = 1e9}, {.best = 1e9}};
    size_t size = 0;
    pcre2_code *code;
    double took = generate(pattern, options, &code);
    pcre2_match_data *data = pcre2_match_data_create_from_pattern(code, NULL);
    pcre2_match_context *context = pcre2_match_context_create(NULL);
    pcre2_jit_stack *stack = pcre2_jit_stack_create(32768, 1 << 20, NULL);
    pcre2_jit_stack_assign(context, NULL, stack);
    pcre2_pattern_info(code, PCRE2_INFO_JITSIZE, &size);
    for (int k = 0; k < interpreted; k++) {
        match(code, data, context, 0, &by[0]);
    }
    for (int k = 0; k < runs; k++) {
        match(code, data, context, 1, &by[1]);
    }
    if (interpreted != 0 && runs != 0 && (by[0].count != by[1].count || by[0].sum != by[1].sum)) {
        exit(4);
    }
    printf("%d %u %.3f %.3f %.2f %u %s\n", by[1].count, by[1].sum, interpreted ? by[0].best : 0, runs ? by[1].best : 0, took,
           (unsigned)size, pattern);
    pcre2_jit_stack_free(stack);
    pcre2_match_context_free(context);
    pcre2_match_data_free(data);
    pcre2_code_free(code);
}

int main(int argc, char **argv) {
    static char line[4096];
    FILE *patterns = argc > 2 ? fopen(argv[1], "r") : NULL;
    if (patterns == NULL) {
        return 2;
    }
    while (fgets(line, sizeof line, patterns)) {
        line[strcspn(line, "\n")] = 0;
        if (line[0] == '=') {
            read_text(line + 2);
        } else if (line[0] != '#' && line[0] != 0) {
            unsigned options = line[0] == 'i' ? PCRE2_CASELESS : line[0] == 'u' ? PCRE2_UTF : 0;
            measure(line + 2, PCRE2_MULTILINE | options, atoi(argv[2]), argc > 3 ? atoi(argv[3]) : 0);
        }
    }
    return 0;
}
