/* Runs a unit: HOST INPUT ROUNDS OPERATIONS [UNIT]. For each operation it prints the least milliseconds of the processor and, in
   hexadecimal, the sum over what was made, which no clock counts. */
#include "host.h"

#include <stdio.h>
#include <stdlib.h>

static double least(uint32_t operation, int rounds) {
    double best = 1e18;
    int k;
    for (k = 0; k < rounds; k++) {
        double begun = host_milliseconds(), took;
        (void)host_call(HOST_RUN, operation);
        took = host_milliseconds() - begun;
        best = took < best ? took : best;
    }
    return best;
}

int main(int argc, char **argv) {
    uint8_t *bytes;
    uint32_t len, operations, k;
    host_need(argc > 3, "usage: HOST INPUT ROUNDS OPERATIONS [UNIT]");
    operations = (uint32_t)atoi(argv[3]);
    host_open(argv[4]);
    bytes = host_bytes(argv[1], &len);
    host_put(bytes, len);
    free(bytes);
    (void)host_call(HOST_PREPARE, 0);
    for (k = 0; k < operations; k++) {
        double took = least(k, atoi(argv[2]));
        printf("%.4f %08x\n", took, (unsigned)host_call(HOST_SUM, 0));
    }
    return 0;
}
