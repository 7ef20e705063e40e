/* A plain judge of code: one bundle after the other, then the targets. */
#include "judge.h"

#include <string.h>

typedef struct Judged {
    uint32_t base, limit;
    const uint8_t *code;
    size_t len;
    uint8_t *marks;
} Judged;

static NcVerdict verdict(uint32_t fault, uint32_t at) {
    NcVerdict found = {fault, at};
    return found;
}

/* The fault of an instruction, NC_OK if it has none. `masked` is the mark of the mask directly before it, or 0. */
static uint32_t judge_one(const NcInstruction *says, uint32_t masked) {
    int is_indirect = says->flow == NC_FLOW_INDIRECT_JUMP || says->flow == NC_FLOW_INDIRECT_CALL;
    return says->fault == NC_CUT_SHORT                   ? NC_CROSSES /* only its beginning is in the bundle */
         : says->fault != NC_OK                          ? NC_NOT_PERMITTED
         : is_indirect && masked != NC_MASKED(says->reg) ? NC_BARE
                                                         : NC_OK;
}

/* The first fault of a bundle's instructions but for their targets, and their marks. */
static NcVerdict judge_bundle(const Judged *j, size_t from) {
    uint32_t masked = 0;
    size_t at = from;
    while (at < from + NC_BUNDLE) {
        NcInstruction says = nc_host_decode(j->code + at, from + NC_BUNDLE - at);
        uint32_t fault = judge_one(&says, masked);
        if (fault != NC_OK) {
            return verdict(fault, j->base + (uint32_t)at);
        }
        j->marks[at] = (uint8_t)(says.flow == NC_FLOW_INDIRECT_JUMP || says.flow == NC_FLOW_INDIRECT_CALL ? masked : NC_PLAIN);
        masked = says.masks;
        at += says.length;
    }
    return verdict(NC_OK, 0);
}

/* Whether a direct transfer may go there. */
static int is_target(const Judged *j, uint32_t to) {
    if (to - j->base < j->len) {
        return j->marks[to - j->base] == NC_PLAIN;
    }
    return to % NC_BUNDLE == 0 && to < j->limit;
}

/* The first direct transfer of a chunk without other faults that goes where it may not. */
static NcVerdict judge_targets(const Judged *j) {
    size_t at;
    for (at = 0; at < j->len; at++) {
        NcInstruction says = nc_host_decode(j->code + at, j->len - at);
        int is_direct = says.flow == NC_FLOW_BRANCH || says.flow == NC_FLOW_JUMP || says.flow == NC_FLOW_CALL;
        if (j->marks[at] != NC_UNMARKED && is_direct && !is_target(j, j->base + (uint32_t)at + says.length + (uint32_t)says.rel)) {
            return verdict(NC_BAD_TARGET, j->base + (uint32_t)at);
        }
    }
    return verdict(NC_OK, 0);
}

/* A limit of a region is that of 2 to NC_MAX_BUNDLES bundles. */
static uint32_t judge_span(const Judged *j) {
    int is_limit = j->limit % NC_BUNDLE == 0 && j->limit >= NC_LIMIT(NC_MIN_BUNDLES) && j->limit <= NC_LIMIT(NC_MAX_BUNDLES);
    return j->base % NC_BUNDLE != 0 || j->base < NC_START       ? NC_BAD_BASE
         : j->len == 0 || j->len % NC_BUNDLE != 0               ? NC_BAD_LENGTH
         : !is_limit || j->base + j->len > j->limit - NC_BUNDLE ? NC_OUT_OF_RANGE
                                                                : NC_OK;
}

NcVerdict judge_code(uint32_t base, uint32_t limit, const uint8_t *code, size_t len, uint8_t *marks) {
    Judged j = {base, limit, code, len, marks};
    NcVerdict found = verdict(judge_span(&j), 0);
    size_t from;
    memset(marks, NC_UNMARKED, len);
    for (from = 0; from < len && found.fault == NC_OK; from += NC_BUNDLE) {
        found = judge_bundle(&j, from);
    }
    return found.fault == NC_OK ? judge_targets(&j) : found;
}
