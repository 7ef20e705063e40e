/* Hostile chunks, each with the end that it has to have in every host. */
#include "kit.h"

#include <stdio.h>
#include <stdlib.h>
#include <string.h>
#include <sys/mman.h>

/* A number that depends on the host: a place or an address, and what is added to it. */
enum { NUMBER, CASE, CASE_END, TEXT_END, DATA, DATA_END, CALL, WAY_OUT };
typedef struct Number {
    uint32_t of, plus;
} Number;

typedef struct Case {
    const char *name;
    size_t len, more_len;
    uint8_t code[NC_BUNDLE], more[NC_BUNDLE]; /* two bundles, filled with nops, and nothing behind them */
    Number eax, edx;                          /* with which it begins */
    uint32_t how, trap;
    Number place;     /* of a stop or a fault */
    int below;        /* where the lowest addresses are a hole, it is a page fault there instead */
    int data_is_kept; /* the box's own data doesn't change either */
} Case;

#define CODE(...) .len = sizeof((uint8_t[]){__VA_ARGS__}), .code = {__VA_ARGS__}
#define THEN(...) .more_len = sizeof((uint8_t[]){__VA_ARGS__}), .more = {__VA_ARGS__}
#define EAX(of, plus) .eax = {of, plus}
#define EDX(of, plus) .edx = {of, plus}
#define COMES_OUT .how = KIT_CAME_OUT
#define STOPS(of, plus) .how = KIT_STOPPED, .trap = KIT_GENERAL_PROTECTION, .place = {of, plus}
#define FAULTS(interrupt, at) .how = KIT_FAULTED, .trap = interrupt, .place = {CASE, at}
#define IS_LATE .how = KIT_LATE
#define IS_REFUSED .how = KIT_REFUSED
#define JMP_EAX 0x83, 0xE0, 0xE0, 0xFF, 0xE0 /* and eax, -32; jmp eax */
#define CALL_EAX 0x83, 0xE0, 0xE0, 0xFF, 0xD0
#define RETURN_TO_EDX 0x89, 0x14, 0x24 /* mov [esp], edx */
#define ESP_IS_EDX 0x89, 0xD4
#define ESP_IS_0 0x31, 0xE4

static const Case CASES[] = {
    /* Ends */
    {"a way out", CODE(JMP_EAX), EAX(WAY_OUT, 0), COMES_OUT},
    {"a stop", CODE(NC_STOP), STOPS(CASE, 0)},
    {"code that runs on behind its end", CODE(0x90), STOPS(CASE_END, 0)},
    {"an undefined opcode", CODE(0x0F, 0x0B), FAULTS(KIT_INVALID_OPCODE, 0)},
    {"a division by zero", CODE(0x31, 0xC9, 0xF7, 0xF1), FAULTS(KIT_DIVISION_ERROR, 2)},
    {"a quotient that is too large", CODE(0x99, 0x83, 0xC9, 0xFF, 0xF7, 0xF9), EAX(NUMBER, 0x80000000), FAULTS(KIT_DIVISION_ERROR, 4)},
    {"a loop without end", CODE(0xEB, 0xFE), IS_LATE},
    {"a loop, the direction flag set and no stack", CODE(0xFD, 0x83, 0xCC, 0xFF, 0xEB, 0xFE), IS_LATE},
    /* Data and stack [8] */
    {"a push at 0", CODE(ESP_IS_0, 0x50), FAULTS(KIT_STACK_FAULT, 2), .data_is_kept = 1},
    {"a push across 0", CODE(ESP_IS_EDX, 0x50), EDX(NUMBER, 2), FAULTS(KIT_STACK_FAULT, 2), .data_is_kept = 1},
    {"a push across 2 GiB", CODE(ESP_IS_EDX, 0x50), EDX(NUMBER, 0x80000002), FAULTS(KIT_STACK_FAULT, 2), .data_is_kept = 1},
    {"pushes without end", CODE(0x50, 0xEB, 0xFD), FAULTS(KIT_STACK_FAULT, 0), .below = 1, .data_is_kept = 1},
    {"a string store over everything", CODE(0x89, 0xC7, 0x83, 0xC9, 0xFF, 0xF3, 0xAA), EAX(DATA, 0), FAULTS(KIT_GENERAL_PROTECTION, 5)},
    {"a string store downwards", CODE(0xFD, 0x89, 0xC7, 0x83, 0xC9, 0xFF, 0xF3, 0xAA), EAX(DATA, 15), FAULTS(KIT_GENERAL_PROTECTION, 6),
     .below = 1},
    {"a string load from beyond", CODE(0x89, 0xC6, 0x89, 0xD7, 0x83, 0xC9, 0xFF, 0xF3, 0xA4), EAX(NUMBER, 0x7FFFFFFF), EDX(DATA, 0),
     FAULTS(KIT_GENERAL_PROTECTION, 7), .data_is_kept = 1},
    {"a bit far above its address", CODE(0x0F, 0xAB, 0x02), EAX(NUMBER, 0x7FFFFFFF), EDX(DATA, 0), FAULTS(KIT_GENERAL_PROTECTION, 0),
     .data_is_kept = 1},
    {"a bit far below its address", CODE(0x0F, 0xAB, 0x02), EAX(NUMBER, 0x80000000), EDX(DATA, 0), FAULTS(KIT_GENERAL_PROTECTION, 0),
     .data_is_kept = 1},
    /* Code [7] */
    {"a jump to the limit of the code", CODE(JMP_EAX), EAX(TEXT_END, 0), FAULTS(KIT_GENERAL_PROTECTION, 3), .data_is_kept = 1},
    {"a jump a page behind it", CODE(JMP_EAX), EAX(TEXT_END, KIT_PAGE), FAULTS(KIT_GENERAL_PROTECTION, 3), .data_is_kept = 1},
    {"a jump to the end of all addresses", CODE(JMP_EAX), EAX(NUMBER, 0xFFFFFFE0), FAULTS(KIT_GENERAL_PROTECTION, 3), .data_is_kept = 1},
    {"a call beyond the limit of the code", CODE(CALL_EAX), EAX(NUMBER, 0x7FFFFFE0), FAULTS(KIT_GENERAL_PROTECTION, 3), .data_is_kept = 1},
    {"a jump to the guard", CODE(JMP_EAX), EAX(TEXT_END, -NC_BUNDLE), STOPS(TEXT_END, -NC_BUNDLE), .data_is_kept = 1},
    /* Ways in and out [9 to 14] */
    {"a way out, the direction flag set", CODE(0xFD, JMP_EAX), EAX(WAY_OUT, 0), COMES_OUT},
    {"a stop, the direction flag set", CODE(0xFD, NC_STOP), STOPS(CASE, 1)},
    {"a call of the host", CODE(RETURN_TO_EDX, JMP_EAX), THEN(NC_STOP), EAX(CALL, 0), EDX(CASE, 32), STOPS(CASE, 32)},
    {"a call, the direction flag set", CODE(0xFD, RETURN_TO_EDX, JMP_EAX), THEN(NC_STOP), EAX(CALL, 0), EDX(CASE, 32), STOPS(CASE, 32)},
    {"a call, its stack at 0", CODE(ESP_IS_0, JMP_EAX), EAX(CALL, 0), IS_REFUSED, .data_is_kept = 1},
    {"a call, its stack across the end of all addresses", CODE(ESP_IS_EDX, JMP_EAX), EAX(CALL, 0), EDX(NUMBER, 0xFFFFFFFC), IS_REFUSED,
     .data_is_kept = 1},
    {"a call, its stack across the limit", CODE(ESP_IS_EDX, JMP_EAX), EAX(CALL, 0), EDX(DATA_END, -4), IS_REFUSED, .data_is_kept = 1},
    {"a call that returns to the zone", CODE(RETURN_TO_EDX, JMP_EAX), EAX(CALL, 0), EDX(WAY_OUT, 0), IS_REFUSED},
    {"a call that returns to the limit of the code", CODE(RETURN_TO_EDX, JMP_EAX), EAX(CALL, 0), EDX(TEXT_END, 0), IS_REFUSED},
    {"a call that returns into a bundle", CODE(RETURN_TO_EDX, JMP_EAX), THEN(NC_STOP), EAX(CALL, 0), EDX(CASE, 37), STOPS(CASE, 32)},
    {"a call that returns to the end of all addresses", CODE(RETURN_TO_EDX, JMP_EAX), EAX(CALL, 0), EDX(NUMBER, 0xFFFFFFFF), IS_REFUSED},
    /* Its first bundle keeps EAX, EDX and ESP, and its second one calls: and esi, -32; mov esp, ebp; mov [esp], edi; jmp esi */
    {"a loop of calls", CODE(0x89, 0xC6, 0x89, 0xD7, 0x89, 0xE5), THEN(0x89, 0xEC, 0x89, 0x3C, 0x24, 0x83, 0xE6, 0xE0, 0xFF, 0xE6),
     EAX(CALL, 0), EDX(CASE, 32), IS_LATE},
};

static uint32_t number(const KitBox *box, Number n) {
    /* clang-format off */
    uint32_t of[] = {[NUMBER] = 0, [CASE] = box->code_at, [CASE_END] = box->code_at + box->code_len, [TEXT_END] = box->code_limit,
                     [DATA] = box->data_at, [DATA_END] = box->data_limit, [CALL] = kit_host.call_count != 0 ? kit_host.calls[0] : 0,
                     [WAY_OUT] = kit_host.way_out};
    /* clang-format on */
    return of[n.of] + n.plus;
}

static void lay(uint8_t code[2 * NC_BUNDLE], const Case *c) {
    kit_lay(code, NC_BUNDLE, c->code, c->len);
    kit_lay(code + NC_BUNDLE, NC_BUNDLE, c->more, c->more_len);
}

/* Where a late end was isn't known beforehand. */
static const char *judge(const Case *c, const KitBox *box, KitEnd end) {
    int stands = end.how == KIT_STOPPED || end.how == KIT_FAULTED;
    uint32_t trap = c->below && box->data_first != 0 ? KIT_PAGE_FAULT : c->trap;
    return end.how != c->how                            ? "ANOTHER END"
         : stands && end.trap != trap                   ? "ANOTHER INTERRUPT"
         : stands && end.place != number(box, c->place) ? "ANOTHER PLACE"
         : kit_missed_limit(box, end)                   ? "A PAGE FAULT BEYOND A LIMIT"
                                                        : NULL;
}

static void show(const char *name, KitEnd end) {
    printf("%s: %s", name, kit_how(end.how));
    if (end.how == KIT_STOPPED || end.how == KIT_FAULTED) {
        printf(" by interrupt %u at %08x", (unsigned)end.trap, (unsigned)end.place);
    }
}

static void try_case(const Case *c) {
    uint8_t code[2 * NC_BUNDLE], *was;
    size_t len;
    const char *wrong;
    KitBox box;
    KitEnd end;
    lay(code, c);
    if (!kit_load(&box, code, sizeof code, PROT_READ | PROT_WRITE)) {
        return;
    }
    len = box.data_limit - box.data_at;
    was = malloc(len);
    if (was == NULL) {
        abort();
    }
    memcpy(was, (uint8_t *)(uintptr_t)(box.data_base + box.data_at), len);
    end = kit_run(&box, box.code_at, number(&box, c->eax), number(&box, c->edx));
    show(c->name, end);
    wrong = judge(c, &box, end);
    if (wrong == NULL && c->data_is_kept && memcmp(was, (uint8_t *)(uintptr_t)(box.data_base + box.data_at), len) != 0) {
        wrong = "ITS DATA HAS CHANGED";
    }
    kit_end_line(wrong);
    free(was);
    kit_drop(&box);
}

void kit_try_cases(void) {
    size_t k;
    for (k = 0; k < sizeof CASES / sizeof *CASES; k++) {
        if (CASES[k].eax.of != CALL || kit_host.call_count != 0) {
            try_case(&CASES[k]);
        }
    }
}

/* Code that no host may accept: docs/EMBEDDING.md, "Segments and entry on x86-64". */
void kit_try_refused(void) {
    static const Case cases[] = {{"a return instruction", CODE(0xC3)},
                                 {"a system call", CODE(0xCD, 0x80)},
                                 {"a far jump", CODE(0xEA, 0, 0, 0, 0, 0x33, 0)},
                                 {"another segment", CODE(0x65, 0xA1, 0, 0, 0, 0)},
                                 {"a segment register", CODE(0x8E, 0xD8)},
                                 {"a jump that isn't masked", CODE(0xFF, 0xE0)},
                                 {"a jump into the second half of a pair", CODE(0xEB, 3, JMP_EAX)}};
    size_t k;
    for (k = 0; k < sizeof cases / sizeof *cases; k++) {
        uint8_t code[2 * NC_BUNDLE];
        int accepted;
        KitBox box;
        lay(code, &cases[k]);
        accepted = kit_host.load(&box, code, sizeof code);
        printf("%s: %s", cases[k].name, accepted ? "accepted" : "refused");
        kit_end_line(accepted ? "ACCEPTED" : NULL);
        if (accepted) {
            kit_host.drop(&box);
        }
    }
}
