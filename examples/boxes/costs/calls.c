/* What a call of a box and a call-back cost, by each way to treat the host's signals (ncs_signals). It needs no library but nc_host. From the
   top of the repository:

       make -C sandbox && kit=$(dirname "$(rt doc)")
       gcc -std=gnu11 -O2 -pthread -Iinclude -Isandbox examples/boxes/costs/calls.c out/sandbox/libnc_sandbox.a \
           crates/nc_host/out/libnc_host.a "$kit/c/liblibc_c.a" -o out/calls && out/calls

   It prints the least processor time of 25 turns, in nanoseconds. In the last two columns the host makes a system call each time. */
#define _GNU_SOURCE
#include "nc_sandbox.h"

#include <stdio.h>
#include <stdlib.h>
#include <string.h>
#include <sys/syscall.h>
#include <time.h>
#include <unistd.h>

enum { BUNDLE = 32, BEGIN = 0x10000, RETURNS = 0x10000, CALLS_BACK = 0x10020, COUNT = 20000, TURNS = 25 };

/* The bundles of the code, each filled up with `nop`. The second one ends with a call of call-back 0. */
static const struct {
    uint32_t at;
    uint8_t len, code[9];
} PARTS[] = {
    {RETURNS, 6, {0x59, 0x83, 0xE1, 0xE0, 0xFF, 0xE1}},                                   /* pop ecx; and ecx, -32; jmp ecx */
    {CALLS_BACK, 4, {0x8B, 0x5C, 0x24, 0x04}},                                            /* mov ebx, [esp + 4] */
    {CALLS_BACK + 2 * BUNDLE - 5, 5, {0xE8, 0xA0, 0x00, 0xFF, 0xFF}},                     /* call 00000100 */
    {CALLS_BACK + 2 * BUNDLE, 9, {0x4B, 0x75, 0xDD, 0x59, 0x83, 0xE1, 0xE0, 0xFF, 0xE1}}, /* dec ebx; jnz back; and as above */
};

static NcsBox *box;
static int with_system_call;

static void need(int holds, const char *what) {
    if (!holds) {
        fprintf(stderr, "calls: %s\n", what);
        exit(2);
    }
}

static void act(void) {
    if (with_system_call) {
        (void)syscall(SYS_getppid);
    }
}

static uint64_t nothing(NcsBox *of, void *user, const uint32_t *args) {
    (void)of, (void)user, (void)args;
    act();
    return 0;
}

static void call_often(void) {
    unsigned k;
    for (k = 0; k < COUNT; k++) {
        need(ncs_call(box, (NcsAt){RETURNS}, NCS_NO_ARGS).how == NCS_RETURNED, "no call");
        act();
    }
}

static void call_back_often(void) {
    need(ncs_call(box, (NcsAt){CALLS_BACK}, NCS_ARGS(COUNT)).how == NCS_RETURNED, "no call-backs");
}

static double now(void) {
    struct timespec t;
    need(clock_gettime(CLOCK_THREAD_CPUTIME_ID, &t) == 0, "no clock");
    return (double)t.tv_sec * 1e9 + (double)t.tv_nsec;
}

static double least(void (*often)(void), int calls) {
    double best = 1e18;
    unsigned k;
    with_system_call = calls;
    for (k = 0; k < TURNS; k++) {
        double begun = now(), took;
        often();
        took = (now() - begun) / COUNT;
        best = took < best ? took : best;
    }
    return best;
}

static void make_box(void) {
    static const NcsLimits limits = {.memory = 4u << 20, .depth = 1, .milliseconds = UINT32_MAX};
    uint8_t code[CALLS_BACK + 3 * BUNDLE - BEGIN];
    NcsRefusal why;
    NcsModule *module;
    size_t k;
    memset(code, 0x90, sizeof code);
    for (k = 0; k < sizeof PARTS / sizeof *PARTS; k++) {
        memcpy(code + PARTS[k].at - BEGIN, PARTS[k].code, PARTS[k].len);
    }
    module = ncs_module_code(code, sizeof code, &why);
    need(module != NULL, why.sentence);
    box = ncs_box_new(module, &limits, &why);
    need(box != NULL && ncs_callback(box, nothing, NULL, 0).at == NCS_CALLBACK(0), why.sentence);
}

int main(void) {
    static const char *const ways[] = {[NCS_SIGNALS_BLOCKED] = "blocked", [NCS_SIGNALS_HELD] = "held", [NCS_SIGNALS_PROMISED] = "promised"};
    uint32_t way;
    make_box();
    puts("signals   an empty call   a call-back   with a system call: a call   a call-back");
    for (way = 0; way < sizeof ways / sizeof *ways; way++) {
        need(ncs_signals(way, NULL), "no such way");
        printf("%-9s %13.0f", ways[way], least(call_often, 0));
        printf(" %13.0f", least(call_back_often, 0));
        printf(" %28.0f", least(call_often, 1));
        printf(" %13.0f\n", least(call_back_often, 1));
    }
    return 0;
}
