/* Where code goes; nc_code.h describes it. The host knows what is free, so only the rest of the last hole is kept here. */
#include "nc_code.h"

#include <nc_run.h>
#include <stdlib.h>
#include <string.h>

enum { FAULTS = 256, OCCUPIED = 40, MOST_ATTEMPTS = 4 }; /* numbers from FAULTS on have a fault: OCCUPIED by somebody else meanwhile */

NcCodeWhy nc_code_why;
static struct nc_hole hole;

static int why(int kind) {
    nc_code_why.kind = kind;
    return kind == NC_CODE_MADE;
}

/* Notes the result of a call of the host. */
static int told(long long result) {
    int number = -(int)(uint32_t)result;
    int fault = number < FAULTS ? 0 : number - FAULTS;
    nc_code_why = (NcCodeWhy){0, fault, number < FAULTS ? number : 0, (uint32_t)((uint64_t)result >> 32), 0};
    return why(number == 0 ? NC_CODE_MADE : NC_CODE_REFUSED);
}

/* Finds a hole of so many bytes from an address on. */
static int find(uint32_t from, uint32_t len) {
    nc_code_why = (NcCodeWhy){NC_CODE_MADE, 0, 0, 0, 0};
    while (nc_hole(from, &hole) == 0 && (hole.len != 0 || hole.at > from)) {
        nc_code_why.held += hole.held;
        if (hole.len >= len) return 1;
        from = hole.at + hole.len;
    }
    nc_code_why.held += hole.held;
    hole = (struct nc_hole){0, 0, 0};
    return why(nc_code_why.held != 0 ? NC_CODE_HELD : NC_CODE_FULL);
}

uint32_t nc_code_span(uint32_t len) {
    uint32_t from = hole.at + hole.len, rounded = (len + NCE_BUNDLE - 1) & ~(NCE_BUNDLE - 1);
    if (len == 0 || rounded == 0) return (uint32_t)why(NC_CODE_NO_LAYOUT);
    if (hole.len < rounded && (from == 0 || !find(from, rounded)) && !find(0, rounded)) return 0;
    hole.at += rounded;
    hole.len -= rounded;
    return hole.at - rounded;
}

void *nc_code_put(uint32_t span, const void *bytes, uint32_t len) {
    if (told(nc_create(span, bytes, len))) return (void *)(uintptr_t)span;
    if (nc_code_why.fault == OCCUPIED) {
        hole.len = 0;
    } else if (hole.at == span + len) { /* it is still there */
        hole.at = span;
        hole.len += len;
    }
    return NULL;
}

void *nc_code_new(NceCode *code, void *room) {
    uint32_t size = nce_layout(code), attempts = 0, span;
    void *to = size != 0 && room == NULL ? malloc(size) : room, *made = NULL;
    if (size == 0 || to == NULL) {
        (void)why(size == 0 ? NC_CODE_NO_LAYOUT : NC_CODE_NO_MEMORY);
        return NULL;
    }
    do {
        span = nc_code_span(size);
        made = span != 0 && nce_write(code, span, to) ? nc_code_put(span, to, size) : NULL;
    } while (made == NULL && span != 0 && nc_code_why.fault == OCCUPIED && ++attempts < MOST_ATTEMPTS);
    if (room == NULL) free(to);
    return made;
}

int nc_code_patch(uint32_t at, const void *bytes, uint32_t len, void *copy) {
    int made = told(nc_patch(at, bytes, len));
    if (made && copy != NULL) memcpy(copy, bytes, len);
    return made;
}

void nc_code_free(void *code) {
    if (code != NULL) (void)told(nc_delete((uint32_t)(uintptr_t)code));
}
