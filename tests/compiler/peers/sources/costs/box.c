/* The costs of boxes. */
#include "costs.h"
#include "host.h"
#include "nc_sandbox.h"

static const NcsLimits LIMITS = {.memory = 64u << 20, .depth = 1, .milliseconds = 600000};
static NcsModule *module;
static NcsBox *box;
static NcsAt nothing, call_back, write_all, told;

static void call(NcsAt at, uint32_t first, uint32_t second) {
    host_need(ncs_call(box, at, NCS_ARGS(first, second)).how == NCS_RETURNED, "a call doesn't return");
}

static uint64_t on_told(NcsBox *of, void *user, const uint32_t *args) {
    (void)of, (void)user, (void)args;
    return 0;
}

void costs_open(const char *file) {
    NcsRefusal why = {0};
    uint32_t len;
    uint8_t *bytes = host_bytes(file, &len);
    module = ncs_module_elf(bytes, len, &why);
    host_need(module != NULL, why.sentence);
    box = ncs_box_new(module, &LIMITS, &why);
    host_need(box != NULL, why.sentence);
    nothing = ncs_symbol(module, "nothing");
    call_back = ncs_symbol(module, "call_back");
    write_all = ncs_symbol(module, "write_all");
    told = ncs_callback(box, on_told, NULL, 0);
    host_need(nothing.at != 0 && call_back.at != 0 && write_all.at != 0 && told.at != 0, "a name isn't there");
}

static void call_often(unsigned count) {
    for (; count != 0; count--) {
        host_need(ncs_call(box, nothing, NCS_NO_ARGS).how == NCS_RETURNED, "a call doesn't return");
    }
}

static void call_back_often(unsigned count) {
    call(call_back, count, told.at);
}

static void make_often(unsigned count) {
    for (; count != 0; count--) {
        NcsRefusal why = {0};
        NcsBox *made = ncs_box_new(module, &LIMITS, &why);
        host_need(made != NULL, why.sentence);
        host_need(ncs_free(made), "a box isn't freed");
    }
}

static void reset_often(unsigned count) {
    for (; count != 0; count--) {
        host_need(ncs_reset(box), "no reset");
    }
}

static void write_often(unsigned count) {
    for (; count != 0; count--) {
        call(write_all, count, 0);
        host_need(ncs_reset(box), "no reset");
    }
}

const Cost costs[] = {
    {"empty call", call_often, 100000},
    {"call-back", call_back_often, 100000},
    {"new instance and its end", make_often, 200},
    {"reset of an untouched one", reset_often, 1000},
    {"1 MiB written, and reset", write_often, 20},
    {0},
};
