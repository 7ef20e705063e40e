/* What the targets share. */
#define _GNU_SOURCE
#include "fuzz.h"

#include "testing.h"

#include <fcntl.h>
#include <stdio.h>
#include <stdlib.h>
#include <string.h>
#include <unistd.h>

#define ERRORS_LEAST 200 /* the number of the file that wrong things are told to, out of the way of a target's own files */

static int errors = 2;

/* The fuzzer may close standard error later, so that no target's program writes there. */
int LLVMFuzzerInitialize(int *argc, char ***argv) {
    (void)argc;
    (void)argv;
    errors = fcntl(2, F_DUPFD_CLOEXEC, ERRORS_LEAST);
    MUST(errors >= 0);
    return 0;
}

void fuzz_must(int good, const char *what, const char *file, int line) {
    const char *slash = strrchr(file, '/');
    if (!good) {
        (void)dprintf(errors, "WRONG: %s, at %s:%d\n", what, slash != NULL ? slash + 1 : file, line);
        abort();
    }
}

void fuzz_skip(const char *why) {
    (void)dprintf(errors, "skipped: boxes: %s\n", why);
    _exit(SKIPPED);
}

uint8_t *fuzz_copy(const uint8_t *bytes, size_t len) {
    uint8_t *copy = malloc(len != 0 ? len : 1);
    MUST(copy != NULL);
    if (len != 0) {
        memcpy(copy, bytes, len);
    }
    return copy;
}

uint64_t fuzz_chance(uint32_t seed) {
    return 0x9E3779B97F4A7C15ull * (2ull * seed + 1);
}

uint32_t fuzz_draw(uint64_t *random, uint32_t below) {
    *random ^= *random << 13;
    *random ^= *random >> 7;
    *random ^= *random << 17;
    return (uint32_t)((*random >> 20) % below);
}

uint8_t fuzz_byte(Input *input) {
    uint8_t byte = input->len != 0 ? *input->bytes : 0;
    input->bytes += input->len != 0;
    input->len -= input->len != 0;
    return byte;
}

void fuzz_bytes(Input *input, uint8_t *to, size_t len) {
    size_t k;
    for (k = 0; k < len; k++) {
        to[k] = fuzz_byte(input);
    }
}
