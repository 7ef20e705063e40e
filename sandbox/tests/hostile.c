/* Hostile code that tries what only this library has, case by case: how each call ends, and where. What every host has to keep is tried by
   sandbox/conformance. */
#include "testing.h"

#include <stdio.h>
#include <string.h>

typedef struct Case {
    const char *name;
    size_t len, more_len;
    uint8_t code[32], more[32]; /* at CASE_AT, and in the bundle behind it */
} Case;

#define BYTES(...) .len = sizeof((uint8_t[]){__VA_ARGS__}), .code = {__VA_ARGS__}
#define THEN(...) .more_len = sizeof((uint8_t[]){__VA_ARGS__}), .more = {__VA_ARGS__}
#define WORD(x) (x) & 255, (uint32_t)(x) >> 8 & 255, (uint32_t)(x) >> 16 & 255, (uint32_t)(x) >> 24
#define MOV_EAX(x) 0xB8, WORD(x)
#define MOV_ESP(x) 0xBC, WORD(x)
#define AT_ESP(x) 0xC7, 0x04, 0x24, WORD(x)            /* mov dword [esp], x */
#define AT_ESP_PLUS(n, x) 0xC7, 0x44, 0x24, n, WORD(x) /* mov dword [esp + n], x */
#define JMP_EAX 0x83, 0xE0, 0xE0, 0xFF, 0xE0           /* and eax, -32; jmp eax */
#define PLAIN NCS_CALLBACK(0)
#define NESTED NCS_CALLBACK(1)
#define NO_CALLBACK NCS_CALLBACK(2)
#define STOP 0xF4

/* clang-format off */
static const Case CASES[] = {
    {"a return", BYTES(0x59, 0x83, 0xE1, 0xE0, 0xFF, 0xE1)},
    {"a store at 0", BYTES(0xA3, WORD(0))},
    {"a store below the data", BYTES(0xA3, WORD(0xFFFC))},
    {"pushes without end", BYTES(0x50, 0xEB, 0xFD)},
    {"a call-back that isn't there", BYTES(MOV_EAX(NO_CALLBACK), JMP_EAX)},
    {"a call-back, its stack at 0", BYTES(0x31, 0xE4, MOV_EAX(PLAIN), JMP_EAX)},
    {"a call-back that returns to the zone", BYTES(MOV_ESP(MEMORY - 8), AT_ESP(0x20), MOV_EAX(PLAIN), JMP_EAX)},
    {"a call-back that returns to the end of all addresses", BYTES(AT_ESP(0xFFFFFFFF), MOV_EAX(PLAIN), JMP_EAX)},
    {"an exit", BYTES(AT_ESP_PLUS(4, 7), MOV_EAX(NCS_EXIT), JMP_EAX)},
    {"an exit, its stack beyond the limit", BYTES(MOV_ESP(MEMORY), MOV_EAX(NCS_EXIT), JMP_EAX)},
    {"a nested call of no function", BYTES(AT_ESP(CASE_AT + 32), AT_ESP_PLUS(4, 0x33333333), MOV_EAX(NESTED), JMP_EAX), THEN(STOP)},
    {"a nested call of a stop", BYTES(AT_ESP(CASE_AT + 32), AT_ESP_PLUS(4, CASE_AT + 32), MOV_EAX(NESTED), JMP_EAX), THEN(STOP)},
    {"a nested call, its stack just above nothing", BYTES(MOV_ESP(0x10000), AT_ESP_PLUS(4, CODE_AT), MOV_EAX(NESTED), JMP_EAX)},
    {"nested calls without end",
     BYTES(MOV_ESP(0x2FF00), AT_ESP(CASE_AT), AT_ESP_PLUS(4, CASE_AT), MOV_EAX(NESTED), JMP_EAX)},
};
/* clang-format on */

static unsigned nested_now, nested_most;

/* The first bundle returns, and nops are behind each part of the case. */
static void lay(uint8_t to[CODE_LEN], const Case *c) {
    static const uint8_t returns[] = {0x59, 0x83, 0xE1, 0xE0, 0xFF, 0xE1}; /* pop ecx; and ecx, -32; jmp ecx */
    memset(to, 0x90, CODE_LEN);
    memcpy(to, returns, sizeof returns);
    memcpy(to + 32, c->code, c->len);
    memcpy(to + 64, c->more, c->more_len);
}

static uint64_t plain(NcsBox *box, void *user, const uint32_t *args) {
    (void)box;
    (void)user;
    return args[0] + 1;
}

static uint64_t nested(NcsBox *box, void *user, const uint32_t *args) {
    NcsAt function = {args[0]};
    NcsEnd end;
    (void)user;
    nested_now++;
    nested_most = nested_now > nested_most ? nested_now : nested_most;
    end = ncs_call(box, function, NCS_ARGS(1, 2, 3));
    nested_now--;
    return end.result;
}

/* Where a call out of time ended isn't known. */
static void show(const char *name, NcsEnd end) {
    printf("%s: %s", name, ncs_how(end.how));
    if (end.trap != 0) {
        printf(" by interrupt %u", (unsigned)end.trap);
    }
    if (end.how != NCS_RETURNED && end.how != NCS_LATE) {
        printf(" at %08x", (unsigned)end.place);
    }
    if (end.trap == 14) {
        printf(", data %08x", (unsigned)end.data);
    }
    if (end.how == NCS_EXITED) {
        printf(", status %u", (unsigned)end.status);
    }
    printf("\n");
    fflush(stdout);
}

/* Whatever happened, the box is as new after a reset. */
static void try_case(const Case *c) {
    uint8_t code[CODE_LEN];
    NcsAt at = {CASE_AT}, start = {CODE_AT};
    NcsModule *module;
    NcsBox *box;
    NcsEnd end;
    lay(code, c);
    module = testing_module(code);
    box = testing_box(module);
    ncs_callback(box, plain, NULL, 1);
    ncs_callback(box, nested, NULL, 1);
    end = ncs_call(box, at, NCS_ARGS(1, 2, 3));
    show(c->name, end);
    CHECK(ncs_call(box, start, NCS_NO_ARGS).how == (end.how == NCS_RETURNED ? NCS_RETURNED : NCS_DEAD));
    CHECK(ncs_reset(box) && ncs_call(box, start, NCS_NO_ARGS).how == NCS_RETURNED);
    CHECK(ncs_free(box));
    ncs_module_free(module);
}

/* What is told of code that nc_host refuses. */
static void try_refused(void) {
    /* clang-format off */
    static const Case cases[] = {{"a return instruction", BYTES(0xC3)},
                                 {"a system call", BYTES(0xCD, 0x80)},
                                 {"a far jump", BYTES(0xEA, WORD(0), 0x33, 0)},
                                 {"another segment", BYTES(0x65, 0xA1, WORD(0))},
                                 {"a jump that isn't masked", BYTES(0xFF, 0xE0)},
                                 {"a jump into the second half of a pair", BYTES(0xEB, 3, JMP_EAX)}};
    /* clang-format on */
    size_t k;
    for (k = 0; k < sizeof cases / sizeof *cases; k++) {
        uint8_t code[CODE_LEN];
        NcsRefusal why;
        lay(code, &cases[k]);
        CHECK(ncs_module_code(code, CODE_LEN, &why) == NULL && why.kind == NCS_BAD_CODE);
        printf("%s: refused, fault %u at %08x\n", cases[k].name, (unsigned)why.fault, (unsigned)why.at);
    }
}

int main(void) {
    size_t k;
    try_refused();
    for (k = 0; k < sizeof CASES / sizeof *CASES; k++) {
        try_case(&CASES[k]);
    }
    printf("calls within calls: %u at most\n", nested_most);
    printf("%u wrong\n", testing_wrong);
    return testing_wrong != 0;
}
