#define _GNU_SOURCE
#include "asides.h"

#include "inner.h"

#include <stdio.h>
#include <stdlib.h>
#include <string.h>
#include <sys/wait.h>
#include <unistd.h>

/* clang-format off */
static const struct {
    uint32_t at;
    uint8_t len, code[27];
} PARTS[] = {
    {RETURNS, 6, {0x59, 0x83, 0xE1, 0xE0, 0xFF, 0xE1}},                  /* pop ecx; and ecx, -32; jmp ecx */
    {LOOPS, 8, {0x8B, 0x44, 0x24, 0x04, 0x89, 0xC4, 0xEB, 0xFE}},        /* mov eax, [esp + 4]; mov esp, eax; jmp to itself */
    {CALLS + 27, 5, {0xE8, 0xA0, 0x00, 0xFF, 0xFF}},                     /* call 00000100, which returns to the next bundle */
    {CALLS + 32, 6, {0x59, 0x83, 0xE1, 0xE0, 0xFF, 0xE1}},
    {FAULTS, 5, {0xA1, 0, 0, 0, 0}},                                     /* mov eax, [0] */
    {COUNTS, 27, {0xF9, 0x73, 0x17, 0xF9, 0x73, 0x14, 0xF9, 0x73, 0x11, 0xF9, 0x73, 0x0E, 0xF9, 0x73, 0x0B, 0xF9, 0x73, 0x08,
                  0xFF, 0x05, 0x00, 0x00, 0x11, 0x00, 0xEB, 0xE6, 0xF4}}, /* stc; jnc to the stop, six times; inc dword [COUNT]; jmp */
    {STOPS, 1, {0xF4}},
};
/* clang-format on */

void asides_lay(uint8_t code[ASIDES_LEN]) {
    size_t k;
    memset(code, 0x90, ASIDES_LEN);
    for (k = 0; k < sizeof PARTS / sizeof *PARTS; k++) {
        memcpy(code + PARTS[k].at - CODE_AT, PARTS[k].code, PARTS[k].len);
    }
}

NcsModule *asides_module(void) {
    uint8_t code[ASIDES_LEN];
    NcsRefusal why;
    NcsModule *module;
    asides_lay(code);
    module = ncs_module_code(code, sizeof code, &why);
    if (module == NULL) {
        printf("%s: boxes: %s\n", why.kind == NCS_BAD_SYSTEM ? "skipped" : "refused", why.sentence);
        exit(why.kind == NCS_BAD_SYSTEM ? SKIPPED : 2);
    }
    return module;
}

NcsBox *asides_box(NcsModule *module, uint32_t milliseconds) {
    NcsLimits limits = {.memory = ASIDES_MEMORY, .depth = 8, .milliseconds = milliseconds};
    NcsRefusal why;
    NcsBox *box = ncs_box_new(module, &limits, &why);
    if (box == NULL) {
        printf("no box: %s\n", why.sentence);
        exit(2);
    }
    return box;
}

NcsEnd asides_call(NcsBox *box, uint32_t function, uint32_t argument) {
    return ncs_call(box, (NcsAt){function}, NCS_ARGS(argument));
}

static void *run(void *one) {
    Aside *a = one;
    CHECK(ncs_signals(a->how, NULL));
    a->end = asides_call(a->box, a->function, a->argument);
    return NULL;
}

/* A thread has an owner's mark on its box from before its way in, and the code needs no time until it loops. */
void asides_begin(Aside *a) {
    if (pthread_create(&a->thread, NULL, run, a) != 0) {
        abort();
    }
    while (__atomic_load_n(&a->box->owner, __ATOMIC_SEQ_CST) == NULL) {
        (void)usleep(1000);
    }
    (void)usleep(20000);
}

NcsEnd asides_end(Aside *a) {
    ncs_kill(a->box);
    CHECK(pthread_join(a->thread, NULL) == 0);
    return a->end;
}

uint32_t asides_flat(NcsBox *box, uint32_t at) {
    return (uint32_t)(uintptr_t)ncs_box_data(box, at);
}

unsigned asides_touched(NcsBox *box) {
    unsigned touched = 0;
    uint32_t at;
    for (at = COUNT + 4096; at < ASIDES_MEMORY; at++) {
        touched += *ncs_box_data(box, at) != 0;
    }
    return touched;
}

int asides_child(int (*row)(void)) {
    int status = -1;
    pid_t child;
    fflush(stdout);
    child = fork();
    if (child == 0) {
        int result;
        testing_wrong = 0;
        result = row();
        fflush(stdout);
        _exit(result);
    }
    CHECK(child > 0 && waitpid(child, &status, 0) == child);
    return WIFSIGNALED(status) ? 1000 + WTERMSIG(status) : WEXITSTATUS(status);
}

int asides_children(const Child *rows, size_t count) {
    size_t k;
    for (k = 0; k < count && testing_wrong == 0; k++) {
        int ended = asides_child(rows[k].row);
        if (ended == SKIPPED) {
            return 0;
        }
        if (ended != rows[k].ends) {
            printf("WRONG: ended with %d\n", ended);
            testing_wrong++;
        }
        puts(rows[k].name);
    }
    return 1;
}
