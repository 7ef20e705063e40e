/* Cools a rod and solves a system of equations by heat.f90, in a box: nc-cc heat.c heat.f90 -o heat && nc-run heat */
#include <stdio.h>

void cool(double *rod, int n, int steps);
int solve(double *a, double *b, int n);

int main(void) {
    double rod[9] = {0, 0, 0, 0, 100, 0, 0, 0, 0}, a[9] = {2, 4, -2, 1, -6, 7, 1, 0, 2}, b[3] = {5, -2, 9}, none[4] = {1, 2, 2, 4};
    int k;
    cool(rod, 9, 8);
    for (k = 0; k < 9; k++) printf("%7.3f%s", rod[k], k < 8 ? "" : "\n");
    printf("%d: ", solve(a, b, 3));
    for (k = 0; k < 3; k++) printf("%.3f%s", b[k], k < 2 ? " " : "\n");
    printf("%d\n", solve(none, b, 2));
    return 0;
}
