/* The costs of what wasm2c makes. */
#include "costs.h"
#include "host.h"
#include "unit-wasm.h"

struct Z_host_instance_t {
    unsigned told;
};
static struct Z_host_instance_t host;
static Z_unit_instance_t unit;
static void (*volatile nothing)(Z_unit_instance_t *) = Z_unitZ_nothing;

void Z_hostZ_told(struct Z_host_instance_t *of) {
    of->told++;
}

void costs_open(const char *file) {
    (void)file;
    wasm_rt_init();
    Z_unit_init_module();
    Z_unit_instantiate(&unit, &host);
}

static void call_often(unsigned count) {
    for (; count != 0; count--) {
        nothing(&unit);
    }
}

static void call_back_often(unsigned count) {
    Z_unitZ_call_back(&unit, count);
}

static void make_often(unsigned count) {
    for (; count != 0; count--) {
        Z_unit_instance_t made;
        Z_unit_instantiate(&made, &host);
        Z_unit_free(&made);
    }
}

static void write_often(unsigned count) {
    for (; count != 0; count--) {
        Z_unit_instance_t made;
        Z_unit_instantiate(&made, &host);
        Z_unitZ_write_all(&made, count);
        Z_unit_free(&made);
    }
}

const Cost costs[] = {
    {"empty call", call_often, 100000},
    {"call-back", call_back_often, 100000},
    {"new instance and its end", make_often, 100},
    {"1 MiB written, and reset", write_often, 20},
    {0},
};
