/* The patterns of effects, and the effects of a pattern. */
#include "patterns.h"

#define OLDER 0u
#define NEWER 1u
#define STOPS 2u

static unsigned modulus_at(unsigned place) {
    return place == 0 ? REGISTERS : VERSIONS;
}

static unsigned digit(unsigned pattern, unsigned place) {
    for (; place < LENGTH - 1; place++) {
        pattern /= 3;
    }
    return pattern % 3;
}

/* The effect that has this pattern and this older version. */
static Effect effect_of_pattern(unsigned pattern, unsigned older) {
    Effect effect = {.kind = RAN};
    unsigned place;
    for (place = 0; place < LENGTH; place++) {
        unsigned d = digit(pattern, place);
        effect.bytes[place] = d == STOPS ? STOP_BYTE : (int)((older + d) % modulus_at(place));
    }
    return effect;
}

static int same(const Effect *one, const Effect *other) {
    unsigned place;
    for (place = 0; place < LENGTH; place++) {
        if (one->bytes[place] != other->bytes[place]) {
            return 0;
        }
    }
    return 1;
}

/* The least pattern that fits. It is 0 for an effect of one version only. */
unsigned pattern_of(const Effect *effect) {
    unsigned pattern, older;
    for (pattern = 0; pattern < PATTERNS; pattern++) {
        for (older = 0; older < VERSIONS; older++) {
            Effect e = effect_of_pattern(pattern, older);
            if (same(&e, effect)) {
                return pattern;
            }
        }
    }
    return PATTERNS - 1; /* only stops, which no effect has */
}

unsigned mixtures_in(const Views *views) {
    const uint64_t change = VERSIONS;
    const uint64_t first = change * views->period;
    unsigned pattern, older, count = 0;
    for (pattern = 1; pattern < PATTERNS; pattern++) {
        int is_in = 0;
        for (older = VERSIONS - 1; older <= VERSIONS; older++) { /* the version that the change replaces, and the one before it */
            Effect e = effect_of_pattern(pattern, older);
            is_in |= digit(pattern, 0) != STOPS && have(views, &e, first, first + views->period - 1) && pattern_of(&e) == pattern;
        }
        count += (unsigned)is_in;
    }
    return count;
}

void pattern_letters(unsigned pattern, char letters[LENGTH + 1]) {
    unsigned place;
    for (place = 0; place < LENGTH; place++) {
        letters[place] = "ons"[digit(pattern, place)];
    }
    letters[LENGTH] = 0;
}
