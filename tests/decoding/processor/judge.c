/* Each beginning with several numbers, registers and flags, once with its last byte behind the end of the page and then whole. */
#include "judge.h"

#include "inside.h"
#include "numbers.h"

#include <string.h>

#define USUAL 0x202u
#define ARITHMETIC 0x8D5u /* CF PF AF ZF SF OF */
#define DIRECTION 0x400u
#define IDENTIFY 0x200000u
#define RESUME 0x10000u
#define SHOWN 20

/* In reach of the data segment, whatever an operand adds; the third set is far out of it, for divisions and for faults. */
static const uint32_t REGISTERS[][8] = {
    {0x150, 0x340, 0x10, 0x560, 0x6000, 0x780, 0x9A0, 0xBC0},
    {0x210, 0x650, 0x310, 0x990, 0x5000, 0x770, 0xB30, 0x450},
    {0xF000FFF0, 0x80000001, 0xFFFFFFFF, 0xFFFFFF01, 0xA000, 0x1230, 0x7FFFFFFF, 0xDEADBEEF},
    {0x04, 0x00, 0x00, 0x08, 0x7010, 0x24, 0x0C, 0x10},
};
#define SETS (sizeof REGISTERS / sizeof *REGISTERS)

typedef struct Judge {
    Counts n;
    FILE *to;
    Beginning *about;
    uint8_t bytes[LONGEST];
    NcInstruction says; /* of these bytes: the list's length, flow and register, the decoder's displacement and mask */
    int completed, divided, taken, passed;
} Judge;

static void differs(Judge *j, const char *what, const Before *before, const After *after) {
    size_t i;
    j->n.wrong++;
    j->about->wrong = 1;
    if (j->to == NULL || j->n.wrong > SHOWN) {
        return;
    }
    fprintf(j->to, "DIFFERS:");
    for (i = 0; i < j->says.length; i++) {
        fprintf(j->to, " %02x", j->bytes[i]);
    }
    fprintf(j->to, ": %s; length %u flow %u", what, (unsigned)j->says.length, (unsigned)j->says.flow);
    if (before != NULL) {
        fprintf(j->to, "; began at %08x, ended at %08x by exception %u, error %x, address %08x", (unsigned)before->place,
                (unsigned)after->place, (unsigned)after->trap, (unsigned)after->error, (unsigned)after->address);
    }
    fputc('\n', j->to);
}

static void run(Judge *j, const Before *before, After *after) {
    const uint32_t ours = ~(ARITHMETIC | DIRECTION | RESUME);
    inside_run(before, after);
    j->n.runs++;
    if (!after->segments_stay) {
        differs(j, "a segment register changed", before, after);
    }
    if (!after->floats_stay) {
        differs(j, "x87 or SSE state changed", before, after);
    }
    if ((after->flags & ours) != (before->flags & ours)) {
        differs(j, "a system flag changed", before, after);
    }
}

/* Without its last byte it has to fault where that would be fetched. */
static void judge_cut(Judge *j, const Before *given) {
    Before before = *given;
    After after;
    before.place = inside_put(j->bytes, j->says.length - 1u);
    run(j, &before, &after);
    j->n.cut++;
    if (!inside_cut(&after) || after.place != before.place) {
        differs(j, "it is complete without its last byte", &before, &after);
    }
}

static void judge_branch(Judge *j, const Before *before, const After *after, uint32_t next, uint32_t target) {
    if (after->place == target && target != next) {
        j->taken = 1;
        j->n.branches_taken++;
    } else if (after->place == next) {
        j->passed = 1;
        j->n.branches_passed++;
    } else {
        differs(j, "a branch went elsewhere", before, after);
    }
}

static void judge_mask(Judge *j, const Before *before, const After *after) {
    unsigned masked = j->says.masks - 16, r;
    j->n.masks++;
    for (r = 0; r < 8; r++) {
        if (after->reg[r] != (r == masked ? before->reg[r] & ~31u : before->reg[r])) {
            differs(j, "a mask left another value", before, after);
        }
    }
}

static void judge_call(Judge *j, const Before *before, const After *after, uint32_t next) {
    j->n.calls++;
    if (after->reg[4] != before->reg[4] - 4 || inside_data(after->reg[4]) != next) {
        differs(j, "a call left another return address", before, after);
    }
}

/* Where control went, after an instruction that was completed. */
static void judge_flow(Judge *j, const Before *before, const After *after) {
    uint32_t next = before->place + j->says.length, target = next + (uint32_t)j->says.rel, flow = j->says.flow;
    uint32_t wanted = flow == NC_FLOW_JUMP || flow == NC_FLOW_CALL ? target : next;
    if (flow == NC_FLOW_INDIRECT_JUMP || flow == NC_FLOW_INDIRECT_CALL) {
        wanted = before->reg[j->says.reg];
    }
    if (flow == NC_FLOW_STOP) {
        differs(j, "it doesn't stop", before, after);
    } else if (flow == NC_FLOW_BRANCH) {
        judge_branch(j, before, after, next, target);
    } else if (after->place != wanted) {
        differs(j, "control went elsewhere", before, after);
    }
    if (flow == NC_FLOW_CALL || flow == NC_FLOW_INDIRECT_CALL) {
        judge_call(j, before, after, next);
    }
    if (j->says.masks != 0) {
        judge_mask(j, before, after);
    }
}

static void judge_fault(Judge *j, const Before *before, const After *after) {
    j->n.faulted++;
    if (after->place != before->place) {
        differs(j, "it faulted at another place", before, after);
    } else if (j->says.flow == NC_FLOW_STOP) {
        int undefined = after->trap == TRAP_UNDEFINED && j->bytes[0] == 0x0F && j->bytes[1] == 0x0B;
        int privileged = after->trap == TRAP_GENERAL && j->bytes[0] == 0xF4;
        j->n.undefined += (uint64_t)undefined;
        j->n.privileged += (uint64_t)privileged;
        if (!undefined && !privileged) {
            differs(j, "it stops otherwise", before, after);
        }
    } else if (inside_cut(after)) {
        differs(j, "it isn't complete with its last byte", before, after);
    } else if (after->trap == TRAP_DIVIDE) {
        j->divided = 1;
    } else if (after->trap != TRAP_STACK && after->trap != TRAP_GENERAL && after->trap != TRAP_PAGE) {
        differs(j, "no fault of data", before, after);
    }
}

/* The whole instruction. One that is repeated traps after each round at its own place. */
static void judge_whole(Judge *j, const Before *given) {
    int repeated = j->bytes[0] == 0xF2 || j->bytes[0] == 0xF3, rounds = 0;
    Before before = *given;
    After after;
    before.place = inside_put(j->bytes, j->says.length);
    run(j, &before, &after);
    while (repeated && rounds++ < 4 && after.trap == TRAP_STEP && after.place == before.place && after.reg[1] == before.reg[1] - 1) {
        memcpy(before.reg, after.reg, sizeof before.reg);
        run(j, &before, &after);
    }
    if (after.trap == TRAP_STEP) {
        j->n.completed++;
        j->completed = 1;
        judge_flow(j, &before, &after);
    } else {
        judge_fault(j, &before, &after);
    }
}

/* Each setting of the flags that conditions read, with several counts. */
static void judge_settings(Judge *j, const Before *given, unsigned step) {
    static const uint32_t counts[] = {0, 1, 2, 0x80000000};
    Before before = *given;
    unsigned k, c;
    for (k = 0; k < 64; k += step) {
        before.flags = USUAL | FLAG_TRAP | (k & 1) | (k & 2) << 1 | (k & 4) << 2 | (k & 8) << 3 | (k & 16) << 3 | (k & 32) << 6;
        for (c = 0; c < sizeof counts / sizeof *counts; c++) {
            before.reg[1] = counts[c];
            judge_whole(j, &before);
        }
    }
}

/* The instruction with these numbers, over all registers and flags. */
static void judge_instruction(Judge *j, unsigned step) {
    const Beginning *b = j->about;
    Before before;
    size_t set;
    j->says = nc_host_decode(j->bytes, LONGEST);
    j->says.length = b->length;
    j->says.flow = b->flow;
    j->says.reg = b->reg;
    j->n.instructions++;
    for (set = 0; set < SETS; set++) {
        memcpy(before.reg, REGISTERS[set], sizeof before.reg);
        before.flags = USUAL | FLAG_TRAP | (set % 2 ? ARITHMETIC | DIRECTION : 0) | (set / 2 ? IDENTIFY : 0);
        if (b->bytes[0] == 0xF2 || b->bytes[0] == 0xF3) {
            before.reg[1] = (uint32_t)set;
        }
        if (set == 0) {
            judge_cut(j, &before);
        }
        judge_whole(j, &before);
    }
    if (b->flow == NC_FLOW_BRANCH) {
        memcpy(before.reg, REGISTERS[0], sizeof before.reg);
        judge_settings(j, &before, step);
    }
}

/* Divisions whose quotient is too large whatever the registers hold: by AH, by EDX and by DX. */
static int never_divides(const Beginning *b) {
    /* clang-format off */
    static const struct {
        uint8_t count, bytes[3];
    } known[] = {{2, {0xF6, 0xF4}}, {2, {0xF7, 0xF2}}, {3, {0x66, 0xF7, 0xF2}}};
    /* clang-format on */
    size_t i;
    for (i = 0; i < sizeof known / sizeof *known; i++) {
        if (b->count == known[i].count && memcmp(b->bytes, known[i].bytes, b->count) == 0) {
            return 1;
        }
    }
    return 0;
}

static void judge_beginning(Judge *j, Beginning *b, unsigned step) {
    size_t i;
    j->about = b;
    j->completed = j->divided = j->taken = j->passed = 0;
    j->n.beginnings++;
    inside_fill(0x7F);
    for (i = 0; numbers_fill(b, i, j->bytes); i++) {
        judge_instruction(j, step);
    }
    if (b->flow != NC_FLOW_STOP && !j->completed) {
        if (j->divided && never_divides(b)) {
            j->n.never++;
        } else {
            differs(j, "no run of it was completed", NULL, NULL);
        }
    }
    if (b->flow == NC_FLOW_BRANCH && !(j->taken && j->passed)) {
        differs(j, "a branch always goes one way", NULL, NULL);
    }
}

Counts judge(List *list, unsigned slice, FILE *to) {
    Judge j;
    size_t i;
    memset(&j, 0, sizeof j);
    j.to = to;
    for (i = 0; i < list->count; i++) {
        if (!list->all[i].sib || i % slice == 0) {
            judge_beginning(&j, &list->all[i], slice == 1 ? 1 : 9);
        }
    }
    return j.n;
}
