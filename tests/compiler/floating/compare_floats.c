/* Compares compiler/runtime/floating.c with the processor's instructions, bit by bit: all pairs of boundary values, then random pairs, as
   many as the first argument says, from the seed that the second one gives. It prints where each function first differs. A third argument
   names a function at whose first difference it ends. `all` instead tries each float, with the functions of one float.

   It is for x86-64, and for i386 with SSE2. Numbers are passed as their bits, so none goes through an x87 register. */
#include "floats.h"

#define DECLARE(bits, mode) \
    bits __add##mode##3(bits, bits), __sub##mode##3(bits, bits), __mul##mode##3(bits, bits), __div##mode##3(bits, bits); \
    bits __neg##mode##2(bits); \
    int __eq##mode##2(bits, bits), __ne##mode##2(bits, bits), __lt##mode##2(bits, bits), __le##mode##2(bits, bits); \
    int __gt##mode##2(bits, bits), __ge##mode##2(bits, bits), __unord##mode##2(bits, bits); \
    i32 __fix##mode##si(bits); \
    i64 __fix##mode##di(bits); \
    u32 __fixuns##mode##si(bits); \
    u64 __fixuns##mode##di(bits); \
    bits __floatsi##mode(i32), __floatdi##mode(i64), __floatunsi##mode(u32), __floatundi##mode(u64);
DECLARE(u64, df)
DECLARE(u32, sf)
u64 __extendsfdf2(u32);
u32 __truncdfsf2(u64);

/* The first operand is the destination, as in the order of a compiler that doesn't exchange them. */
#define INSTRUCTION(name, instruction, type, bits, of, to) \
    static bits name(bits a, bits b) { \
        type made = of(a), other = of(b); \
        __asm__(instruction " %1, %0" : "+x"(made) : "x"(other)); \
        return to(made); \
    }
INSTRUCTION(add_df, "addsd", double, u64, number, bits_of)
INSTRUCTION(sub_df, "subsd", double, u64, number, bits_of)
INSTRUCTION(mul_df, "mulsd", double, u64, number, bits_of)
INSTRUCTION(div_df, "divsd", double, u64, number, bits_of)
INSTRUCTION(add_sf, "addss", float, u32, number_s, bits_of_s)
INSTRUCTION(sub_sf, "subss", float, u32, number_s, bits_of_s)
INSTRUCTION(mul_sf, "mulss", float, u32, number_s, bits_of_s)
INSTRUCTION(div_sf, "divss", float, u32, number_s, bits_of_s)

static u64 extended(u32 a) {
    double made;
    float other = number_s(a);
    __asm__("cvtss2sd %1, %0" : "=x"(made) : "x"(other));
    return bits_of(made);
}

static u32 truncated(u64 a) {
    float made;
    double other = number(a);
    __asm__("cvtsd2ss %1, %0" : "=x"(made) : "x"(other));
    return bits_of_s(made);
}

/* Within the range of the whole number these are the processor's conversions, and beyond it what floating.c promises. */
static i32 to_i32(double a) {
    return a != a || a >= 0x1p31 ? INT32_MAX : a <= -0x1p31 ? INT32_MIN : (i32)a;
}
static i64 to_i64(double a) {
    return a != a || a >= 0x1p63 ? INT64_MAX : a <= -0x1p63 ? INT64_MIN : (i64)a;
}

static u32 to_u32(double a) {
    if (a != a || a >= 0x1p32) return UINT32_MAX;
    return a <= 0 ? 0 : a < 0x1p31 ? (u32)(i32)a : (u32)(i32)(a - 0x1p31) + (1u << 31);
}

static u64 to_u64(double a) {
    if (a != a || a >= 0x1p64) return UINT64_MAX;
    return a <= 0 ? 0 : a < 0x1p63 ? (u64)(i64)a : (u64)(i64)(a - 0x1p63) + (1ull << 63);
}

static int sign_of(int answer) {
    return (answer > 0) - (answer < 0);
}

/* What floating.c gives for one number and for two, by their bits `a` and `b`, beside the numbers `x` and `y`. */
#define ONE(mode, a, x, sign) \
    do { \
        SAME("__neg" #mode "2", a, 0, __neg##mode##2(a), (a) ^ (sign)); \
        SAME("__fix" #mode "si", a, 0, (u32)__fix##mode##si(a), (u32)to_i32(x)); \
        SAME("__fix" #mode "di", a, 0, __fix##mode##di(a), to_i64(x)); \
        SAME("__fixuns" #mode "si", a, 0, __fixuns##mode##si(a), to_u32(x)); \
        SAME("__fixuns" #mode "di", a, 0, __fixuns##mode##di(a), to_u64(x)); \
    } while (0)

#define TWO(mode, a, b, x, y) \
    do { \
        int none = x != x || y != y, order = x < y ? -1 : x > y; \
        SAME("__add" #mode "3", a, b, __add##mode##3(a, b), add_##mode(a, b)); \
        SAME("__sub" #mode "3", a, b, __sub##mode##3(a, b), sub_##mode(a, b)); \
        SAME("__mul" #mode "3", a, b, __mul##mode##3(a, b), mul_##mode(a, b)); \
        SAME("__div" #mode "3", a, b, __div##mode##3(a, b), div_##mode(a, b)); \
        SAME("__eq" #mode "2", a, b, __eq##mode##2(a, b) == 0, x == y); \
        SAME("__ne" #mode "2", a, b, __ne##mode##2(a, b) != 0, x != y); \
        SAME("__lt" #mode "2", a, b, sign_of(__lt##mode##2(a, b)), none ? 1 : order); \
        SAME("__le" #mode "2", a, b, sign_of(__le##mode##2(a, b)), none ? 1 : order); \
        SAME("__gt" #mode "2", a, b, sign_of(__gt##mode##2(a, b)), none ? -1 : order); \
        SAME("__ge" #mode "2", a, b, sign_of(__ge##mode##2(a, b)), none ? -1 : order); \
        SAME("__unord" #mode "2", a, b, __unord##mode##2(a, b) != 0, none); \
    } while (0)

#define OF_WHOLE(mode, whole, type, to) \
    do { \
        SAME("__floatsi" #mode, whole, 0, __floatsi##mode((i32)(whole)), to((type)(i32)(whole))); \
        SAME("__floatunsi" #mode, whole, 0, __floatunsi##mode((u32)(whole)), to((type)(u32)(whole))); \
        SAME("__floatdi" #mode, whole, 0, __floatdi##mode((i64)(whole)), to((type)(i64)(whole))); \
        SAME("__floatundi" #mode, whole, 0, __floatundi##mode(whole), to((type)(whole))); \
    } while (0)

static void try_one(u64 a) {
    ONE(df, a, number(a), 1ull << 63);
    SAME("__truncdfsf2", a, 0, __truncdfsf2(a), truncated(a));
}

static void try_one_s(u32 a) {
    ONE(sf, a, number_s(a), 1u << 31);
    SAME("__extendsfdf2", a, 0, __extendsfdf2(a), extended(a));
}

static void try_two(u64 a, u64 b) {
    double x = number(a), y = number(b);
    TWO(df, a, b, x, y);
}

static void try_two_s(u32 a, u32 b) {
    float x = number_s(a), y = number_s(b);
    TWO(sf, a, b, x, y);
}

static void try_whole(u64 whole) {
    OF_WHOLE(df, whole, double, bits_of);
    OF_WHOLE(sf, whole, float, bits_of_s);
}

static void try_boundaries(void) {
    static u64 made[MOST], made_s[MOST];
    int count = boundaries(made, 52, 2047), count_s = boundaries(made_s, 23, 255);
    for (int k = 0; k < count; k++) {
        try_one(made[k]);
        for (int m = 0; m < count; m++) try_two(made[k], made[m]);
    }
    for (int k = 0; k < count_s; k++) {
        try_one_s((u32)made_s[k]);
        for (int m = 0; m < count_s; m++) try_two_s((u32)made_s[k], (u32)made_s[m]);
    }
    for (int first = 0; first < 64; first++)
        for (int half = 0; half < 64; half++)
            for (u64 more = 0; more < 12; more++) {
                u64 whole = (1ull << first) + (more < 6 ? 1ull << half : 0) + (more % 3 ? 1ull << (half + more % 3) % 64 : 0) - (more & 1);
                try_whole(whole);
                try_whole(-whole);
            }
}

int main(int count, char **words) {
    u64 rounds = count > 2 ? strtoull(words[1], 0, 10) : 0, tried = 0;
    state = 88172645463325252ull + (count > 2 ? strtoull(words[2], 0, 10) * 0x9E3779B97F4A7C15ull : 0);
    if (count > 3) ending = words[3];
    if (count == 2 && strcmp(words[1], "all") == 0) {
        for (tried = 1ull << 32; tried-- > 0;) try_one_s((u32)tried);
        printf("each float, %lu wrong\n", wrong);
        return wrong != 0;
    }
    try_boundaries();
    for (; tried < rounds; tried++) {
        u64 x = random_number(64, 52), p = random_number(32, 23);
        try_one(x);
        try_two(x, random_other(x, 64, 52));
        try_one_s((u32)p);
        try_two_s((u32)p, (u32)random_other(p, 32, 23));
        try_whole(chance() >> chance() % 64);
    }
    printf("%llu random pairs, %lu wrong\n", (unsigned long long)tried, wrong);
    return wrong || rounds == 0;
}
