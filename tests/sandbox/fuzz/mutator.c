/* The mutator of ELF files for libFuzzer, in the targets that get such files. */
#include "fields.h"
#include "fuzz.h"

size_t LLVMFuzzerMutate(uint8_t *bytes, size_t len, size_t most);
size_t LLVMFuzzerCustomMutator(uint8_t *bytes, size_t len, size_t most, unsigned seed);

#define OWN_EACH 4u /* one in so many changes is libFuzzer's own, which also takes pieces from other inputs */

size_t LLVMFuzzerCustomMutator(uint8_t *bytes, size_t len, size_t most, unsigned seed) {
    uint64_t random = fuzz_chance(seed);
    if (fuzz_draw(&random, OWN_EACH) == 0) {
        return LLVMFuzzerMutate(bytes, len, most);
    }
    return fields_change(bytes, len, most, random);
}
