/* What the hosts and the programs for latencies share. */
#include "host.h"

#include <stdio.h>
#include <stdlib.h>
#include <time.h>

void host_need(int holds, const char *what) {
    if (!holds) {
        fprintf(stderr, "%s\n", what);
        exit(2);
    }
}

uint8_t *host_bytes(const char *name, uint32_t *len) {
    FILE *file = fopen(name, "rb");
    uint8_t *bytes;
    host_need(file != NULL && fseek(file, 0, SEEK_END) == 0, name);
    *len = (uint32_t)ftell(file);
    rewind(file);
    bytes = malloc(*len + 1);
    host_need(bytes != NULL && fread(bytes, 1, *len, file) == *len && fclose(file) == 0, name);
    return bytes;
}

double host_milliseconds(void) {
    struct timespec t;
    host_need(clock_gettime(CLOCK_THREAD_CPUTIME_ID, &t) == 0, "no clock");
    return 1e3 * (double)t.tv_sec + 1e-6 * (double)t.tv_nsec;
}
