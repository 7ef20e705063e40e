/* The way of native code: the unit is a part of the program. */
#include "host.h"
#include "unit.h"

void host_open(const char *file) {
    (void)file;
}

void host_put(const uint8_t *bytes, uint32_t len) {
    memcpy(unit_room(len), bytes, len);
}

uint32_t host_call(HostCall call, uint32_t operation) {
    switch (call) {
    case HOST_PREPARE: unit_prepare(); return 0;
    case HOST_RUN: unit_run(operation); return 0;
    case HOST_SUM: return unit_sum();
    }
    return 0;
}
