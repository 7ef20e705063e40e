/* The host's ways into a box's memory. Each address is judged, and nothing is read twice. TRUSTED, NOT PROVED. [14] */
#include "inner.h"

#include <string.h>

void *ncs_at(NcsBox *b, NcsAt at, uint32_t len) {
    return ncs_box_has(b, at.at, len) ? ncs_box_data(b, at.at) : NULL;
}

int ncs_set(NcsBox *b, NcsAt at, const void *from, uint32_t len) {
    if (!ncs_box_has(b, at.at, len)) {
        return 0;
    }
    if (len != 0) {
        memmove(ncs_box_data(b, at.at), from, len);
    }
    return 1;
}

int ncs_get(NcsBox *b, void *to, NcsAt at, uint32_t len) {
    if (!ncs_box_has(b, at.at, len)) {
        return 0;
    }
    if (len != 0) {
        memmove(to, ncs_box_data(b, at.at), len);
    }
    return 1;
}

long ncs_text(NcsBox *b, char *to, size_t room, NcsAt at) {
    size_t k;
    if (room == 0) {
        return -1;
    }
    for (k = 0; k + 1 < room; k++) {
        if (!ncs_box_has(b, (uint64_t)at.at + k, 1)) {
            to[k] = 0;
            return -1;
        }
        to[k] = (char)__atomic_load_n(ncs_box_data(b, at.at + (uint32_t)k), __ATOMIC_RELAXED);
        if (to[k] == 0) {
            return (long)k;
        }
    }
    to[k] = 0;
    return (long)k;
}

NcsAt ncs_take(NcsBox *b, uint32_t len) {
    NcsAt at = {__atomic_load_n(&b->memory->heap, __ATOMIC_SEQ_CST)};
    uint64_t end;
    do {
        end = ((uint64_t)at.at + len + 15) & ~15ull;
        if (!ncs_box_has(b, at.at, len) || end > b->limits.memory) {
            at.at = 0;
        }
    } while (at.at != 0 && !__atomic_compare_exchange_n(&b->memory->heap, &at.at, (uint32_t)end, 0, __ATOMIC_SEQ_CST, __ATOMIC_SEQ_CST));
    return at;
}

NcsAt ncs_put(NcsBox *b, const void *from, uint32_t len) {
    NcsAt at = ncs_take(b, len);
    if (at.at != 0 && !ncs_set(b, at, from, len)) {
        at.at = 0;
    }
    return at;
}
