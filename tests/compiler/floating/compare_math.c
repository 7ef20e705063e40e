/* Compares compiler/runtime/math.c with the system's libm, as compare_floats.c compares floating.c. The functions of math.c have names with
   `own_`, and take and return numbers as their bits. All not-a-numbers count as one result. */
#include "floats.h"
#include <math.h>

#define OF_DOUBLE(f) f(floor) f(ceil) f(trunc) f(rint) f(nearbyint) f(round)
#define OF_FLOAT(f) f(rintf) f(nearbyintf) f(roundf)
#define TO_LONG(f) f(lrint) f(lround)
#define TO_LONG_LONG(f) f(llrint) f(llround)

#define DECLARE_DOUBLE(name) u64 own_##name(u64);
#define DECLARE_FLOAT(name) u32 own_##name(u32);
#define DECLARE_LONG(name) long own_##name(u64);
#define DECLARE_LONG_LONG(name) long long own_##name(u64);
OF_DOUBLE(DECLARE_DOUBLE)
OF_FLOAT(DECLARE_FLOAT)
TO_LONG(DECLARE_LONG)
TO_LONG_LONG(DECLARE_LONG_LONG)
u64 own_fmod(u64, u64);

static u64 as_one(double made) {
    return made != made ? bits_of((double)NAN) : bits_of(made);
}

#define TRY_DOUBLE(name) SAME(#name, a, 0, as_one(number(own_##name(a))), as_one(name(x)));
#define TRY_FLOAT(name) SAME(#name, a, 0, as_one(number_s(own_##name(bits_of_s((float)x)))), as_one(name((float)x)));
/* clang-format off */
#define TRY_LONG(name) if (fabs(x) < 0x1p31 - 1) SAME(#name, a, 0, own_##name(a), name(x));
#define TRY_LONG_LONG(name) if (fabs(x) < 0x1p63) SAME(#name, a, 0, own_##name(a), name(x));
/* clang-format on */

static void try_one(u64 a) {
    double x = number(a);
    OF_DOUBLE(TRY_DOUBLE)
    OF_FLOAT(TRY_FLOAT)
    TO_LONG(TRY_LONG)
    TO_LONG_LONG(TRY_LONG_LONG)
}

static void try_two(u64 a, u64 b) {
    SAME("fmod", a, b, as_one(number(own_fmod(a, b))), as_one(fmod(number(a), number(b))));
}

int main(int count, char **words) {
    static u64 made[MOST];
    u64 rounds = count > 2 ? strtoull(words[1], 0, 10) : 0;
    state = 88172645463325252ull + (count > 2 ? strtoull(words[2], 0, 10) * 0x9E3779B97F4A7C15ull : 0);
    if (count > 3) ending = words[3];
    int found = boundaries(made, 52, 2047);
    for (int k = 0; k < found; k++) {
        try_one(made[k]);
        for (int m = k % 16; m < found; m += 16) try_two(made[k], made[m]);
    }
    for (u64 tried = 0; tried < rounds; tried++) {
        u64 x = random_number(64, 52), whole = bits_of((double)(i64)(chance() >> chance() % 64) + (double)(chance() % 8) / 4);
        try_one(x);
        try_one(whole);
        try_two(x, random_other(x, 64, 52));
    }
    printf("%llu random pairs, %lu wrong\n", (unsigned long long)rounds, wrong);
    return wrong || rounds == 0;
}
