/* The way of boxes: the unit is an ELF file for one, with the C library. */
#include "host.h"
#include "nc_sandbox.h"

#include <stdio.h>
#include <stdlib.h>

enum { MEMORY = 512u << 20, HEAP = 400u << 20, MILLISECONDS = 600000 };
static const char *const NAMES[] = {[HOST_PREPARE] = "unit_prepare", [HOST_RUN] = "unit_run", [HOST_SUM] = "unit_sum"};
static NcsModule *module;
static NcsBox *box;
static NcsAt places[sizeof NAMES / sizeof *NAMES];

static uint32_t result_of(NcsEnd end) {
    if (end.how != NCS_RETURNED) {
        fprintf(stderr, "%s at %08x, trap %u\n", ncs_how(end.how), (unsigned)end.place, (unsigned)end.trap);
        exit(3);
    }
    return end.result;
}

void host_open(const char *file) {
    static const NcsLimits limits = {.memory = MEMORY, .depth = 1, .milliseconds = MILLISECONDS};
    NcsRefusal why = {0};
    NcsAt heap;
    uint32_t len;
    uint8_t *bytes = host_bytes(file, &len);
    size_t k;
    module = ncs_module_elf(bytes, len, &why);
    host_need(module != NULL, why.sentence);
    free(bytes);
    box = ncs_box_new(module, &limits, &why);
    host_need(box != NULL, why.sentence);
    heap = ncs_take(box, HEAP);
    host_need(heap.at != 0, "no room for a heap");
    (void)result_of(ncs_call(box, ncs_symbol(module, "begin"), NCS_ARGS(heap.at, heap.at + HEAP)));
    for (k = 0; k < sizeof NAMES / sizeof *NAMES; k++) {
        places[k] = ncs_symbol(module, NAMES[k]);
        host_need(places[k].at != 0, NAMES[k]);
    }
}

void host_put(const uint8_t *bytes, uint32_t len) {
    NcsAt to = {result_of(ncs_call(box, ncs_symbol(module, "unit_room"), NCS_ARGS(len)))};
    host_need(ncs_set(box, to, bytes, len), "no room for the input");
}

uint32_t host_call(HostCall call, uint32_t operation) {
    return result_of(ncs_call(box, places[call], NCS_ARGS(operation)));
}
