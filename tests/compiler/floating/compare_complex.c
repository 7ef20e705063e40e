/* Compares compiler/runtime/complex.c with gcc's own library for x86-64, bit by bit: all fours of boundary values, then random ones, as many
   as the first argument says, from the seed that the second one gives. It prints where each function first differs. A third argument names a
   function at whose first difference it ends.

   As 32-bit code that library rounds otherwise. The same source by instructions of SSE2, which 64-bit code compares with it, stands for it. */
#include "floats.h"

typedef float _Complex cfloat;
typedef double _Complex cdouble;

#ifdef __i386__
#define __mulsc3 right_mulsc3
#define __divsc3 right_divsc3
#define __muldc3 right_muldc3
#define __divdc3 right_divdc3
#define __powisf2 right_powisf2
#define __powidf2 right_powidf2
#include "complex.c"
#else
cfloat __mulsc3(float, float, float, float), __divsc3(float, float, float, float);
cdouble __muldc3(double, double, double, double), __divdc3(double, double, double, double);
float __powisf2(float, int);
double __powidf2(double, int);
#endif
/* Numbers of 32-bit code without x87 and SSE2 are passed by their bits, and complex ones by those of their parts. */
#ifdef __i386__
typedef u32 f32;
typedef u64 f64;
typedef u64 c32;
typedef struct {
    u64 real, imaginary;
} c64;
#define F32(bits) (bits)
#define F64(bits) (bits)
#else
typedef float f32;
typedef double f64;
typedef cfloat c32;
typedef cdouble c64;
#define F32(bits) number_s(bits)
#define F64(bits) number(bits)
#endif
c32 own___mulsc3(f32, f32, f32, f32), own___divsc3(f32, f32, f32, f32);
c64 own___muldc3(f64, f64, f64, f64), own___divdc3(f64, f64, f64, f64);
f32 own___powisf2(f32, int);
f64 own___powidf2(f64, int);

/* One bit pattern stands for each that isn't a number. */
static u64 told(u64 bits) {
    return (bits & ~(1ull << 63)) > 0x7ffull << 52 ? 0x7ffull << 52 | 1 : bits;
}
static u64 told_s(u32 bits) {
    return (bits & 0x7fffffff) > 0x7f800000 ? 0x7f800001 : bits;
}

#define PARTS(name, a, b, made, right, tell) \
    do { \
        SAME(name, (a)[0], (b)[0], tell((made)[0]), tell((right)[0])); \
        SAME(name, (a)[1], (b)[1], tell((made)[1]), tell((right)[1])); \
    } while (0)

#define TRY_FLOAT(name, own, a, b) \
    do { \
        c32 got = own(F32(a[0]), F32(a[1]), F32(b[0]), F32(b[1])); \
        cfloat wanted = name(number_s(a[0]), number_s(a[1]), number_s(b[0]), number_s(b[1])); \
        u32 made[2], right[2]; \
        memcpy(made, &got, 8), memcpy(right, &wanted, 8); \
        PARTS(#name, a, b, made, right, told_s); \
    } while (0)

#define TRY_DOUBLE(name, own, a, b) \
    do { \
        c64 got = own(F64(a[0]), F64(a[1]), F64(b[0]), F64(b[1])); \
        cdouble wanted = name(number(a[0]), number(a[1]), number(b[0]), number(b[1])); \
        u64 made[2], right[2]; \
        memcpy(made, &got, 16), memcpy(right, &wanted, 16); \
        PARTS(#name, a, b, made, right, told); \
    } while (0)

static void try_floats(const u32 *a, const u32 *b) {
    TRY_FLOAT(__mulsc3, own___mulsc3, a, b);
    TRY_FLOAT(__divsc3, own___divsc3, a, b);
}

static void try_doubles(const u64 *a, const u64 *b) {
    TRY_DOUBLE(__muldc3, own___muldc3, a, b);
    TRY_DOUBLE(__divdc3, own___divdc3, a, b);
}

static void try_power(u64 a, u32 b, int exponent) {
    float made_s, right_s = __powisf2(number_s(b), exponent);
    double made, right = __powidf2(number(a), exponent);
    f32 got_s = own___powisf2(F32(b), exponent);
    f64 got = own___powidf2(F64(a), exponent);
    memcpy(&made_s, &got_s, 4), memcpy(&made, &got, 8);
    SAME("__powisf2", b, (u32)exponent, told_s(bits_of_s(made_s)), told_s(bits_of_s(right_s)));
    SAME("__powidf2", a, (u32)exponent, told(bits_of(made)), told(bits_of(right)));
}

/* Zero, the least and the largest of each kind, the limits at which a quotient is scaled, infinity, and no number; of both signs. */
static const double edges[] = {0,
                               0x1p-1074,
                               0x1.fp-1023,
                               0x1p-1022,
                               0x1p-53,
                               0x1p-52,
                               1,
                               3,
                               0x1p511,
                               0x1p970,
                               0x1p971,
                               0x1p1023,
                               0x1.fffffffffffffp1023,
                               __builtin_inf(),
                               __builtin_nan("")};
static const float edges_s[] = {0,        0x1p-149f,       0x1.fp-127f,      0x1p-126f,         1, 3, 0x1p63f,
                                0x1p127f, 0x1.fffffep127f, __builtin_inff(), __builtin_nanf("")};
enum { EDGES = sizeof edges / sizeof *edges, EDGES_S = sizeof edges_s / sizeof *edges_s };

static u64 edge(u64 k) {
    return bits_of(edges[k / 2 % EDGES]) | (k % 2) << 63;
}
static u32 edge_s(u64 k) {
    return bits_of_s(edges_s[k / 2 % EDGES_S]) | (u32)(k % 2) << 31;
}

static void try_edges(void) {
    const u64 of = 2 * EDGES, of_s = 2 * EDGES_S;
    for (u64 k = 0; k < of * of * of * of; k++) {
        const u64 a[2] = {edge(k), edge(k / of)}, b[2] = {edge(k / of / of), edge(k / of / of / of)};
        try_doubles(a, b);
    }
    for (u64 k = 0; k < of_s * of_s * of_s * of_s; k++) {
        const u32 a[2] = {edge_s(k), edge_s(k / of_s)}, b[2] = {edge_s(k / of_s / of_s), edge_s(k / of_s / of_s / of_s)};
        try_floats(a, b);
    }
    for (u64 k = 0; k < of * of_s; k++)
        for (int exponent = -70; exponent <= 70; exponent++) try_power(edge(k), edge_s(k), exponent);
}

/* Random numbers, of which every other one is near the one before. */
static void try_random(void) {
    u64 a[2], b[2];
    u32 c[2], d[2];
    a[0] = random_number(64, 52), a[1] = random_other(a[0], 64, 52), b[0] = random_other(a[1], 64, 52), b[1] = random_other(b[0], 64, 52);
    c[0] = (u32)random_number(32, 23), c[1] = (u32)random_other(c[0], 32, 23), d[0] = (u32)random_other(c[1], 32, 23);
    d[1] = (u32)random_other(d[0], 32, 23);
    try_doubles(a, b);
    try_floats(c, d);
    try_power(a[0], c[0], (int)(chance() >> chance() % 64));
}

int main(int count, char **words) {
    u64 rounds = count > 2 ? strtoull(words[1], 0, 10) : 0;
    state = 88172645463325252ull + (count > 2 ? strtoull(words[2], 0, 10) * 0x9E3779B97F4A7C15ull : 0);
    if (count > 3) ending = words[3];
    try_edges();
    for (u64 tried = 0; tried < rounds; tried++) try_random();
    printf("%llu random fours, %lu wrong\n", (unsigned long long)rounds, wrong);
    return wrong || rounds == 0;
}
