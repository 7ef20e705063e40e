/* native32: for each line KIND FILE of its input it does the job, and prints the processor time in ns and the result. */
#include "costs.h"

#include <stdio.h>
#include <stdlib.h>

int main(void) {
    static uint8_t pixels[PIXELS_MAX];
    char file[256];
    unsigned kind;
    while (scanf("%u %255s", &kind, file) == 2) {
        Job job = job_of_file("", file, kind);
        Made made;
        uint64_t took = native_do(&job, pixels, &made);
        printf("%llu %u %u\n", (unsigned long long)took, (unsigned)made.count, (unsigned)made.sum);
        fflush(stdout);
        free((void *)job.bytes);
    }
    return 0;
}
