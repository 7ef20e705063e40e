/* The way of wasm2c: the unit is its C, whose header is unit-wasm.h. */
#include "host.h"
#include "unit-wasm.h"

static Z_unit_instance_t unit;

void host_open(const char *file) {
    (void)file;
    wasm_rt_init();
    Z_unit_init_module();
    Z_unit_instantiate(&unit);
    Z_unitZ__initialize(&unit);
}

void host_put(const uint8_t *bytes, uint32_t len) {
    u32 at = Z_unitZ_unit_room(&unit, len);
    host_need(at != 0 && (uint64_t)at + len <= Z_unitZ_memory(&unit)->size, "no room for the input");
    memcpy(Z_unitZ_memory(&unit)->data + at, bytes, len);
}

uint32_t host_call(HostCall call, uint32_t operation) {
    switch (call) {
    case HOST_PREPARE: Z_unitZ_unit_prepare(&unit); return 0;
    case HOST_RUN: Z_unitZ_unit_run(&unit, operation); return 0;
    case HOST_SUM: return Z_unitZ_unit_sum(&unit);
    }
    return 0;
}
