/* A program that asks the C library for what programs ask of one. Its first word says what. It prints the same natively and by nc-run. */

#include <assert.h>
#include <ctype.h>
#include <errno.h>
#include <fcntl.h>
#include <math.h>
#include <setjmp.h>
#include <stdint.h>
#include <stdio.h>
#include <stdlib.h>
#include <string.h>
#include <time.h>
#include <unistd.h>

enum { BLOCKS = 512, ROUNDS = 20000, MILLION = 1000000 };

static int words(int argc, char **argv) {
    for (int k = 1; k < argc; k++) printf("[%s]", argv[k]);
    printf("%d %d %d\n", argc, argv[argc] == NULL, getenv("HOME_THAT_NOBODY_SETS") == NULL);
    return argc;
}

static int formats(void) {
    char text[64];
    printf("%d %u %lld %llx %5s|%-5s|%c %.3f %g %e %%\n", -1, 4000000000u, -1234567890123LL, 0xfedcba9876543210ULL, "ab", "cd", 'x', 2.5,
           1e100, -0.001);
    printf("%d %s\n", snprintf(text, sizeof text, "%08.3f %+d %#o", 3.14159, 7, 8), text);
    printf("%lld %llu %g\n", strtoll("-9223372036854775808", NULL, 10), strtoull("ffffffffffffffff", NULL, 16), strtod("1.5e-3", NULL));
    int a = 0;
    double b = 0;
    printf("%d", sscanf("17 0.25 rest", "%d %lf %s", &a, &b, text));
    return printf(" %d %g %s %s\n", a, b, text, strerror(ENOENT)) > 0;
}

static int numbers(void) {
    volatile double two = 2, big = 1e15;
    volatile long long n = -1234567890123456789LL, d = 987654321;
    printf("%.15g %.10g %.10g %.10g %.10g\n", sqrt(two), sin(two), exp(two), pow(two, 0.1), log10(big));
    printf("%g %g %g %ld %d %d\n", floor(-2.5), ceil(2.1), fmod(big, 7), lround(2.5), isnan(NAN), isinf(1 / (two - 2)));
    printf("%lld %lld %llu %llu\n", n / d, n % d, (unsigned long long)n / (unsigned)d, (unsigned long long)n % 10);
    return (int)((float)two * 1.5f);
}

static int ascending(const void *a, const void *b) {
    return (*(const uint32_t *)a > *(const uint32_t *)b) - (*(const uint32_t *)a < *(const uint32_t *)b);
}

static int sorts(void) {
    static uint32_t words[10000];
    uint32_t seed = 1, sum = 0;
    for (size_t k = 0; k < 10000; k++) words[k] = seed = seed * 1664525 + 1013904223;
    qsort(words, 10000, sizeof *words, ascending);
    for (size_t k = 0; k < 10000; k++) sum = sum * 31 + words[k];
    printf("%u %d\n", sum, bsearch(&words[77], words, 10000, sizeof *words, ascending) == &words[77]);
    return 0;
}

/* Blocks of all sizes, filled with their own numbers, in random order taken, enlarged and freed. */
static int blocks(void) {
    static unsigned char *at[BLOCKS];
    static size_t lens[BLOCKS];
    uint32_t seed = 7;
    for (int round = 0; round < ROUNDS; round++) {
        seed = seed * 1664525 + 1013904223;
        size_t k = seed >> 8 & (BLOCKS - 1), len = seed >> 20 & 4095;
        for (size_t i = 0; i < lens[k]; i++) assert(at[k][i] == (unsigned char)k);
        unsigned how = seed >> 17 & 7, align = 1u << (how + 3);
        if (how < 2) at[k] = realloc(at[k], len + 1);
        else
            free(at[k]), at[k] = how < 4 ? malloc(len + 1) : how < 6 ? calloc(len + 1, 1) : aligned_alloc(align, (len / align + 1) * align);
        assert(at[k] && (uintptr_t)at[k] % 8 == 0 && (how < 6 || (uintptr_t)at[k] % align == 0));
        if (how == 4 || how == 5)
            for (size_t i = 0; i <= len; i++) assert(at[k][i] == 0);
        lens[k] = len + 1;
        memset(at[k], (int)k, len + 1);
    }
    puts("good");
    return 0;
}

/* All memory, given back and taken again. */
static int exhausts(void) {
    static void *at[1 << 14];
    int count = 0, again = 0;
    while (count < 1 << 14 && (at[count] = malloc(MILLION))) memset(at[count++], 1, MILLION);
    int error = errno;
    for (int k = 0; k < count; k++) free(at[k]);
    while (again < count && (at[again] = malloc(MILLION))) again++;
    printf("%d %d\n", count > 4 && error == ENOMEM, again == count);
    volatile size_t many = 1 << 20;
    void *volatile none = calloc(many, many);
    return none != NULL;
}

static jmp_buf back;
static int inner(int depth) {
    if (depth > 0) return 1 + inner(depth - 1);
    if (depth == 0) longjmp(back, 42);
    return 0;
}
static int jumps(void) {
    volatile int times = 0;
    int got = setjmp(back);
    times++;
    if (got == 0) inner(10);
    printf("%d %d\n", got, times);
    return got;
}

static int counts(void) {
    int byte, lines = 0, letters = 0, bytes = 0;
    while ((byte = getchar()) != EOF) bytes++, lines += byte == '\n', letters += isalpha(byte) != 0;
    printf("%d %d %d %d\n", bytes, lines, letters, ferror(stdin));
    return 0;
}

static int files(const char *name) {
    char text[16] = "";
    FILE *file = fopen(name, "rb");
    if (!file) return printf("%s\n", strerror(errno)), 1;
    printf("%d", fseek(file, -5, SEEK_END) == 0 && ftell(file) > 0);
    printf(" %d", (int)fread(text, 1, sizeof text - 1, file));
    printf(" %s %d", text, feof(file) != 0);
    return printf(" %d\n", fclose(file)) < 0;
}

static int clocks(void) {
    struct timespec a, b;
    time_t now = time(NULL);
    clock_t before = clock();
    int good = clock_gettime(CLOCK_MONOTONIC, &a) == 0;
    for (volatile int k = 0; k < MILLION; k++) {}
    good &=
        clock_gettime(CLOCK_MONOTONIC, &b) == 0 && (b.tv_sec - a.tv_sec) * 1e9 + (double)(b.tv_nsec - a.tv_nsec) > 0 && clock() > before;
    struct tm *day = gmtime(&now);
    printf("%d %d\n", good, day->tm_year >= 126 && day->tm_year < 400);
    return 0;
}

static void last(void) {
    puts("last");
}
static void first(void) {
    puts("first");
}
__attribute__((constructor)) static void begins(void) {
    setvbuf(stdout, NULL, _IOFBF, 3000);
}

static int ends(void) {
    atexit(last);
    atexit(first);
    fputs("an error\n", stderr);
    exit(300);
}

int main(int argc, char **argv) {
    const char *what = argc > 1 ? argv[1] : "";
    if (!strcmp(what, "formats")) return formats();
    if (!strcmp(what, "numbers")) return numbers();
    if (!strcmp(what, "sorts")) return sorts();
    if (!strcmp(what, "blocks")) return blocks();
    if (!strcmp(what, "exhausts")) return exhausts();
    if (!strcmp(what, "jumps")) return jumps();
    if (!strcmp(what, "counts")) return counts();
    if (!strcmp(what, "files")) return files(argv[2]);
    if (!strcmp(what, "clocks")) return clocks();
    if (!strcmp(what, "ends")) return ends();
    if (!strcmp(what, "aborts")) abort();
    return words(argc, argv);
}
