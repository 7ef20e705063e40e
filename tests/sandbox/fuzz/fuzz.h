/* What the targets share. A target is one function, LLVMFuzzerTestOneInput, which a fuzzer calls with one input after the other. libFuzzer
   links such a function with a main of its own, and so does AFL++ (afl-clang-fast -fsanitize=fuzzer). tests/sandbox/fuzz builds them. */
#ifndef FUZZ_H
#define FUZZ_H

#include <stddef.h>
#include <stdint.h>

int LLVMFuzzerInitialize(int *argc, char ***argv);
int LLVMFuzzerTestOneInput(const uint8_t *bytes, size_t len);

/* Ends the process with a line on standard error that says what is wrong, if something is. The fuzzer then keeps the input. */
#define MUST(good) fuzz_must((good) != 0, #good, __FILE__, __LINE__)
void fuzz_must(int good, const char *what, const char *file, int line);

/* Ends the process with SKIPPED of testing.h, and a line that says why there are no boxes. */
void fuzz_skip(const char *why);

/* A copy in a block of its own, so that a sanitizer sees each access behind its end. */
uint8_t *fuzz_copy(const uint8_t *bytes, size_t len);

/* A state of chance, made from any number, and a number that is drawn from it, below another one that isn't 0. */
uint64_t fuzz_chance(uint32_t seed);
uint32_t fuzz_draw(uint64_t *random, uint32_t below);

/* What is left of an input. Behind its end are zeros. */
typedef struct Input {
    const uint8_t *bytes;
    size_t len;
} Input;
uint8_t fuzz_byte(Input *input);
void fuzz_bytes(Input *input, uint8_t *to, size_t len);

#endif
