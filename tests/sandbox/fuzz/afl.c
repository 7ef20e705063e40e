/* The mutator of ELF files for AFL++, as a library that it loads (AFL_CUSTOM_MUTATOR_LIBRARY). AFL++ makes changes of its own besides. */
#include "fields.h"
#include "fuzz.h"

#include <stdlib.h>
#include <string.h>

typedef struct Mutator {
    uint64_t random;
    uint8_t *bytes; /* of the last input, in a block of `room` */
    size_t room;
} Mutator;

/* What AFL++ looks for. */
void *afl_custom_init(void *afl, unsigned seed);
size_t afl_custom_fuzz(void *data, uint8_t *bytes, size_t len, uint8_t **to, uint8_t *other, size_t other_len, size_t most);
void afl_custom_deinit(void *data);

void *afl_custom_init(void *afl, unsigned seed) {
    Mutator *m = calloc(1, sizeof *m);
    (void)afl;
    MUST(m != NULL);
    m->random = fuzz_chance(seed);
    return m;
}

size_t afl_custom_fuzz(void *data, uint8_t *bytes, size_t len, uint8_t **to, uint8_t *other, size_t other_len, size_t most) {
    Mutator *m = data;
    (void)other;
    (void)other_len;
    if (m->room < most) {
        m->bytes = realloc(m->bytes, most);
        MUST(m->bytes != NULL);
        m->room = most;
    }
    len = len < most ? len : most;
    memcpy(m->bytes, bytes, len);
    *to = m->bytes;
    return fields_change(m->bytes, len, most, fuzz_chance(fuzz_draw(&m->random, UINT32_MAX)));
}

void afl_custom_deinit(void *data) {
    Mutator *m = data;
    free(m->bytes);
    free(m);
}
