/* What is debugged in a box and natively. start's word says what it does. */
#include <nc_run.h>

struct point {
    int x, y;
};

static int total;
static const char *const names[] = {"none", "area", "loop"};

static int area(struct point a, int scale) {
    int product = a.x * a.y;
    product *= scale;
    return product;
}

static int sum(int n) {
    int made = 0, k;
    for (k = 1; k <= n; k++) {
        struct point p = {k, k + 1};
        made += area(p, 10);
        total = made;
    }
    return made;
}

static int down(int depth, volatile int *at) {
    return depth == 0 ? *at : down(depth - 1, at) + 1;
}

static void spin(void) {
    for (;;) {}
}

int start(int argc, char **argv) {
    const char *name = names[argc % 3];
    int got = sum(3);
    nc_write(1, "done\n", 5);
    if (argv[argc - 1][0] == 'c') return down(3, (volatile int *)16);
    if (argv[argc - 1][0] == 's') spin();
    return got == 200 && name[0] == 'l' ? 7 : got;
}
