/* What calls and instances cost: PROGRAM [GUEST]. For each cost it prints the least nanoseconds of the processor, and its title. */
#include "costs.h"
#include "host.h"

#include <stdio.h>

enum { TURNS = 25 };

static double least(const Cost *cost) {
    double best = 1e18;
    int k;
    for (k = 0; k < TURNS; k++) {
        double begun = host_milliseconds(), took;
        cost->often(cost->count);
        took = (host_milliseconds() - begun) * 1e6 / cost->count;
        best = took < best ? took : best;
    }
    return best;
}

int main(int argc, char **argv) {
    const Cost *cost;
    costs_open(argc > 1 ? argv[1] : NULL);
    for (cost = costs; cost->title != NULL; cost++) {
        printf("%.1f %s\n", least(cost), cost->title);
    }
    return 0;
}
