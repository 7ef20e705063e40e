/* The functions that the programs of this folder share. */
#include "costs.h"

#include <stdio.h>
#include <stdlib.h>
#include <string.h>
#include <time.h>

void need(int holds, const char *what) {
    if (!holds) {
        fprintf(stderr, "costs: %s\n", what);
        exit(2);
    }
}

uint64_t time_by(int clock) {
    struct timespec now;
    need(clock_gettime(clock, &now) == 0, "no clock");
    return (uint64_t)now.tv_sec * 1000000000 + (uint64_t)now.tv_nsec;
}

uint64_t processor_time(void) {
    return time_by(CLOCK_THREAD_CPUTIME_ID);
}

void add_name(Made *made, const char *name) {
    made->count++;
    made->sum = made->sum * 31 + (uint32_t)strlen(name);
}

void add_pixels(Made *made, const uint8_t *pixels, uint32_t count) {
    uint32_t k;
    for (k = 0; k < count; k++) {
        made->sum = made->sum * 31 + pixels[k];
    }
    made->count = count;
}

Job job_of_file(const char *title, const char *file, uint32_t kind) {
    uint8_t *bytes = malloc(FILE_MAX);
    FILE *in = fopen(file, "rb");
    Job job = {title, file, kind, 0, bytes};
    need(bytes != NULL && in != NULL, "a file can't be read");
    job.len = (uint32_t)fread(bytes, 1, FILE_MAX, in);
    need(!ferror(in) && fgetc(in) == EOF && fclose(in) == 0, "a file can't be read, or is too long");
    return job;
}
