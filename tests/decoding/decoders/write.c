/* The instructions that `run` compares, in a file, one after the other: write FILE [SLICE]. tests/decoding/names compiles it. */
#include "../processor/list.h"
#include "../processor/numbers.h"

#include <stdio.h>
#include <stdlib.h>

int main(int argc, char **argv) {
    unsigned of_so_many = argc > 2 ? (unsigned)atoi(argv[2]) : 1;
    FILE *file = argc > 1 ? fopen(argv[1], "wb") : NULL;
    List list = list_beginnings();
    uint8_t bytes[LONGEST];
    size_t i, k;
    if (file == NULL) {
        return 2;
    }
    for (i = 0; i < list.count; i++) {
        for (k = 0; (!list.all[i].sib || i % of_so_many == 0) && numbers_fill(&list.all[i], k, bytes); k++) {
            fwrite(bytes, 1, nc_host_decode(bytes, LONGEST).length, file);
        }
    }
    return fclose(file) == 0 ? 0 : 2;
}
