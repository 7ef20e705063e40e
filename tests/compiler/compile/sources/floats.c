/* Software floating point: conversions to whole numbers of each length and back, `long double`, and doubles through `...`. */

#include <stdarg.h>

volatile double half = 0.5, large = 6000000000.25, below = -3.75;
volatile float third = 1.0f / 3;
volatile long long whole = -5000000000;
volatile unsigned long long top = 0xFFFFFFFFFFFFFFFF;
volatile long double twelve = 12;

__attribute__((noinline)) static double sum(int count, ...) {
    va_list rest;
    double all = 0;
    va_start(rest, count);
    while (count-- > 0) all += va_arg(rest, double);
    va_end(rest);
    return all;
}

__attribute__((noinline)) static long double halved(long double number) {
    return number / 2;
}

int wrong(void) {
    int failed =
        (long long)large != 6000000000 || (unsigned long long)(large * 2) != 12000000000 || (int)below != -3 || (unsigned)(half * 9) != 4;
    failed += (double)whole != -5e9 || (float)top != 18446744073709551616.0f || (long long)below != -3;
    failed += third * 3 != 1.0f || half + third == half || !(below < third) || -below != 3.75;
    failed += sizeof twelve != sizeof half || halved(twelve) != 6 || (long long)(twelve * 1e9L) != 12000000000;
    return failed + (sum(3, half, 2.25, below) != -1.0);
}
