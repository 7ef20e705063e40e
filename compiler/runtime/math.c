/* Functions of <math.h> in place of musl's, which are slow in software: musl rounds to whole numbers by sums with 2^52, and finds a remainder
   bit by bit. There are no flags that could tell that a result is inexact. */

typedef unsigned int u32;
typedef unsigned long long u64;

#define SIGN 0x8000000000000000ull
#define INFINITE 0x7FF0000000000000ull
#define ONE 0x3FF0000000000000ull
#define HALF 0x3FE0000000000000ull
#define FIRST 0x0010000000000000ull /* the first bit of a significand, which normal numbers don't store */

enum Way { DOWN, UP, TOWARDS_ZERO, NEAREST_EVEN, NEAREST_FAR };
union Double {
    double value;
    u64 bits;
};

static inline u64 bits_of(double value) {
    union Double all = {value};
    return all.bits;
}
static inline double number_of(u64 bits) {
    union Double all = {.bits = bits};
    return all.value;
}

/* Whether a number that is less than one becomes one. */
static inline int becomes_one(u64 size, u64 sign, enum Way way) {
    if (way == NEAREST_EVEN) return size > HALF;
    if (way == NEAREST_FAR) return size >= HALF;
    return size != 0 && way == (sign ? DOWN : UP);
}

/* A carry out of the fraction makes the exponent larger by one. */
static inline __attribute__((always_inline)) double whole(double value, enum Way way) {
    u64 bits = bits_of(value), sign = bits & SIGN, size = bits - sign, below, more = 0;
    int exponent = (int)(size >> 52) - 1023;
    if (exponent >= 52) return value;
    if (exponent < 0) return number_of(sign | (becomes_one(size, sign, way) ? ONE : 0));
    below = (FIRST - 1) >> exponent;
    if (way == NEAREST_EVEN) more = (below >> 1) + (bits >> (52 - exponent) & 1);
    if (way == NEAREST_FAR) more = (below >> 1) + 1;
    if (way == (sign ? DOWN : UP)) more = below;
    return number_of((bits + more) & ~below);
}

double floor(double x) { return whole(x, DOWN); }
double ceil(double x) { return whole(x, UP); }
double trunc(double x) { return whole(x, TOWARDS_ZERO); }
double rint(double x) { return whole(x, NEAREST_EVEN); }
double nearbyint(double x) { return whole(x, NEAREST_EVEN); }
double round(double x) { return whole(x, NEAREST_FAR); }
float rintf(float x) { return (float)whole(x, NEAREST_EVEN); }
float nearbyintf(float x) { return (float)whole(x, NEAREST_EVEN); }
float roundf(float x) { return (float)whole(x, NEAREST_FAR); }
long lrint(double x) { return (long)whole(x, NEAREST_EVEN); }
long long llrint(double x) { return (long long)whole(x, NEAREST_EVEN); }
long lround(double x) { return (long)whole(x, NEAREST_FAR); }
long long llround(double x) { return (long long)whole(x, NEAREST_FAR); }

static inline int zeros_before(u64 bits) { return bits >> 32 ? __builtin_clz((u32)(bits >> 32)) : 32 + __builtin_clz((u32)bits); }

/* The significand of a finite number that isn't zero, from FIRST on, and its exponent, where that of a subnormal number is less than 1. */
static inline u64 significand_of(u64 size, int *exponent) {
    *exponent = (int)(size >> 52);
    if (*exponent) return (size & (FIRST - 1)) | FIRST;
    int by = zeros_before(size) - 11;
    *exponent = 1 - by;
    return size << by;
}

/* x is infinite or y zero, or one of them isn't a number. */
static double no_remainder(double x, double y) { return (x * y) / (x * y); }

double fmod(double x, double y) {
    u64 sign = bits_of(x) & SIGN, a = bits_of(x) - sign, b = bits_of(y) & ~SIGN;
    int exponent, least, by;
    if (a >= INFINITE || b > INFINITE || b == 0) return no_remainder(x, y);
    if (a < b) return x;
    a = significand_of(a, &exponent);
    b = significand_of(b, &least);
    if (a >= b) a -= b;
    /* Each step takes up to 16 bits of the quotient, of which this divisor finds all but a few units of the last. */
    u32 divisor = (u32)(b >> 37) + 1;
    for (; exponent > least && a; exponent -= by) {
        by = exponent - least < 16 ? exponent - least : 16;
        a = (a << by) - (u64)((u32)(a >> (37 - by)) / divisor) * b;
        while (a >= b) a -= b;
    }
    if (a == 0) return number_of(sign);
    by = zeros_before(a) - 11;
    if (by >= least) return number_of(sign | (least > 0 ? a << (least - 1) : a >> (1 - least)));
    return number_of(sign + ((u64)(u32)(least - by - 1) << 52) + (a << by));
}
