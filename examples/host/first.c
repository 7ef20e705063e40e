/*
 * A first host in C. It creates, patches and deletes a chunk, and uses its span again, while memory follows by the acts.
 *
 * It executes nothing, and has no thread but its own. tests/nc_host/host compares its output with first.txt.
 */
#define NC_FAULT_NAMES
#include "nc_host.h"

#include <stdio.h>
#include <string.h>

#define BUNDLES 4u
#define ROOM (NC_BUNDLE + 2) /* enough to create or delete a chunk of one bundle, or to patch up to 11 bytes */

static uint8_t memory[BUNDLES * NC_BUNDLE]; /* what threads would execute */
static NcAct acts[ROOM];

/* Makes the acts of a change, one after the other. */
static void make(const char *name, NcChange change) {
    size_t i;
    for (i = 0; i < change.count && change.fault == NC_OK; i++) {
        if (acts[i].kind == NC_PUT) {
            __atomic_store_n(&memory[acts[i].at - NC_START], (uint8_t)acts[i].value, __ATOMIC_SEQ_CST);
        } else if (acts[i].kind == NC_SERIALIZE) {
            /* Here each processor that runs a thread of the host would serialize: membarrier, on Linux. */
        }
    }
    printf("%s: %s; memory begins %02x %02x\n", name, nc_fault_sentence(change.fault), memory[0], memory[1]);
}

int main(void) {
    /* mov eax, 5; a jump to the bundle start below the region, where a way out would stand; nops up to the bundle's end. */
    uint8_t code[NC_BUNDLE] = {0xB8, 5, 0, 0, 0, 0xE9};
    const uint32_t behind_jump = NC_START + 10, out = NC_START - NC_BUNDLE, rel = out - behind_jump;
    static const uint8_t other[] = {0xB8, 7, 0, 0, 0}; /* mov eax, 7: the whole instruction, not only its number */
    NcRegion region = {0};
    NcSeat seat = {0};
    memcpy(code + 6, &rel, 4);
    memset(code + 10, 0x90, sizeof code - 10);
    memset(memory, NC_STOP, sizeof memory);
    if (nc_region_new(BUNDLES, 1, &region) != NC_OK || nc_region_seat(&region, &seat) != NC_OK) {
        return 1;
    }
    make("create", nc_region_create(&region, NC_START, code, sizeof code, acts, ROOM));
    make("patch", nc_region_patch(&region, NC_START, other, sizeof other, acts, ROOM));
    make("delete", nc_region_begin_delete(&region, NC_START, acts, ROOM)); /* first the stops, */
    nc_region_end_delete(&region);                                         /* then the stamp */
    printf("reclaimed: %u\n", (unsigned)nc_region_reclaim(&region).count);
    nc_seat_check_in(&seat); /* by the seat's thread, once it is outside */
    printf("reclaimed: %u\n", (unsigned)nc_region_reclaim(&region).count);
    make("create again", nc_region_create(&region, NC_START, code, sizeof code, acts, ROOM));
    nc_seat_leave(&seat);
    nc_region_free(&region);
    return 0;
}
