/* A set of bytes is a word of bits. While it is computed, its bits stand for the stop and for versions 0 to 3. In a table they stand for
   the stop, the version before the one that the change replaces, the replaced one, and the next one. */
#include "views.h"

#include <stdlib.h>
#include <string.h>

#define STOP_BIT 1u
#define CHANGES 3u /* all changes after the second are alike */

static unsigned version_bit(unsigned version) {
    return 2u << version;
}

/* The byte at each place, and all bytes that were there since the last serialization. */
typedef struct State {
    unsigned text[LENGTH], seen[LENGTH];
} State;

static void serialize(State *state) {
    memcpy(state->seen, state->text, sizeof state->seen);
}

static void act(State *state, const Act *act, unsigned change, unsigned made) {
    if (act->kind == SERIALIZE) {
        if (made >> act->number & 1) {
            serialize(state);
        }
        return;
    }
    state->text[act->number] = act->kind == PUT_STOP ? STOP_BIT : version_bit(change + 1);
    state->seen[act->number] |= state->text[act->number];
}

/* The change that the table shows replaces version 2. A set that still has version 0 would grow without end. */
static unsigned relative(unsigned set) {
    if (set & version_bit(0)) {
        abort();
    }
    return (set & STOP_BIT) | (set & ~STOP_BIT) >> 1;
}

/* With `always`, each act is followed by a serialization. */
static Views table(const Acts *acts, unsigned made, int always) {
    Views views = {.period = acts->count};
    State state;
    unsigned change, place;
    size_t i;
    for (place = 0; place < LENGTH; place++) {
        state.text[place] = version_bit(0);
    }
    serialize(&state);
    for (change = 0; change < CHANGES; change++) {
        for (i = 0; i < acts->count; i++) {
            for (place = 0; place < LENGTH && change == CHANGES - 1; place++) {
                views.sets[i][place] = relative(state.seen[place]);
            }
            act(&state, &acts->all[i], change, made);
            if (always) {
                serialize(&state);
            }
        }
    }
    return views;
}

Views views_of(const Acts *acts, unsigned made) {
    return table(acts, made, 0);
}

Views text_of(const Acts *acts) {
    return table(acts, 0, 1);
}

Views without_stops(Views views) {
    size_t i;
    for (i = 0; i < views.period; i++) {
        views.sets[i][0] &= ~STOP_BIT;
    }
    return views;
}

static int has(unsigned set, int byte, uint64_t change, unsigned modulus) {
    if (byte == STOP_BYTE) {
        return (set & STOP_BIT) != 0;
    }
    switch (((unsigned)byte + modulus - change % modulus) % modulus) {
    case 0: return (set & version_bit(1)) != 0;
    case 1: return (set & version_bit(2)) != 0;
    default: return (unsigned)byte == (change + modulus - 1) % modulus && (set & version_bit(0)) != 0;
    }
}

static int has_at(const Views *views, const Effect *effect, uint64_t moment) {
    const unsigned *sets = views->sets[moment % views->period];
    uint64_t change = moment / views->period;
    unsigned place;
    if (effect->kind != RAN) {
        return effect->kind == STOPPED && (sets[0] & STOP_BIT) != 0;
    }
    for (place = 0; place < LENGTH; place++) {
        if (!has(sets[place], effect->bytes[place], change, place == 0 ? REGISTERS : VERSIONS)) {
            return 0;
        }
    }
    return 1;
}

int have(const Views *views, const Effect *effect, uint64_t first, uint64_t last) {
    uint64_t most = first + VERSIONS * views->period; /* from here on the effects repeat */
    uint64_t moment;
    for (moment = first; moment <= last && moment < most; moment++) {
        if (has_at(views, effect, moment)) {
            return 1;
        }
    }
    return 0;
}
