/* Compares compiler/runtime/division.c with gcc's own library, and with what its words mean: all pairs of boundary values, then random pairs,
   as many as the first argument says, from the seed that the second one gives. It prints where each function first differs. A third argument
   names a function at whose first difference it ends. */
#include "floats.h"
#include <setjmp.h>
#include <signal.h>

typedef struct {
    u64 low, high;
} u128;

#define ONE_WORD(f) f(popcountsi2) f(paritysi2) f(clzsi2) f(ctzsi2) f(ffssi2) f(clrsbsi2)
#define ONE_LONG(f) f(popcountdi2) f(paritydi2) f(clzdi2) f(ctzdi2) f(ffsdi2) f(clrsbdi2)
#define DECLARE_WORD(name) int own___##name(u32);
#define DECLARE_LONG(name) int own___##name(u64);
ONE_WORD(DECLARE_WORD)
ONE_LONG(DECLARE_LONG)
u64 own___udivdi3(u64, u64), own___umoddi3(u64, u64), own___udivmoddi4(u64, u64, u64 *), own___bswapdi2(u64);
i64 own___divdi3(i64, i64), own___moddi3(i64, i64), own___divmoddi4(i64, i64, i64 *);
u128 own___udivti3(u128, u128), own___umodti3(u128, u128), own___divti3(u128, u128), own___modti3(u128, u128);
u32 own___bswapsi2(u32);
int own___cmpdi2(i64, i64), own___ucmpdi2(u64, u64);
i32 own___addvsi3(i32, i32), own___subvsi3(i32, i32), own___mulvsi3(i32, i32), own___negvsi2(i32), own___absvsi2(i32);
i64 own___addvdi3(i64, i64), own___subvdi3(i64, i64), own___mulvdi3(i64, i64), own___negvdi2(i64), own___absvdi2(i64);

/* ---- Bits, by counting them one by one */

static int ones(u64 bits) {
    int count = 0;
    for (int at = 0; at < 64; at++) count += bits >> at & 1;
    return count;
}

static int zeros_before(u64 bits, int wide) {
    int count = 0;
    while (count < wide && !(bits >> (wide - 1 - count) & 1)) count++;
    return count;
}

static int zeros_behind(u64 bits) {
    int count = 0;
    while (!(bits >> count & 1)) count++;
    return count;
}

static u64 turned(u64 number, int bytes) {
    u64 made = 0;
    for (int at = 0; at < bytes; at++) made |= (number >> (8 * at) & 255) << (8 * (bytes - 1 - at));
    return made;
}

static void try_bits(u64 a) {
    const u32 b = (u32)a;
    SAME("__popcountdi2", a, 0, own___popcountdi2(a), ones(a));
    SAME("__popcountsi2", b, 0, own___popcountsi2(b), ones(b));
    SAME("__paritydi2", a, 0, own___paritydi2(a), ones(a) % 2);
    SAME("__paritysi2", b, 0, own___paritysi2(b), ones(b) % 2);
    if (a) SAME("__clzdi2", a, 0, own___clzdi2(a), zeros_before(a, 64));
    if (b) SAME("__clzsi2", b, 0, own___clzsi2(b), zeros_before(b, 32));
    if (a) SAME("__ctzdi2", a, 0, own___ctzdi2(a), zeros_behind(a));
    if (b) SAME("__ctzsi2", b, 0, own___ctzsi2(b), zeros_behind(b));
    SAME("__ffsdi2", a, 0, own___ffsdi2(a), a ? zeros_behind(a) + 1 : 0);
    SAME("__ffssi2", b, 0, own___ffssi2(b), b ? zeros_behind(b) + 1 : 0);
    SAME("__clrsbdi2", a, 0, own___clrsbdi2(a), zeros_before((i64)a < 0 ? ~a : a, 64) - 1);
    SAME("__clrsbsi2", b, 0, own___clrsbsi2(b), zeros_before((i32)b < 0 ? ~b : b, 32) - 1);
    SAME("__bswapdi2", a, 0, own___bswapdi2(a), turned(a, 8));
    SAME("__bswapsi2", b, 0, own___bswapsi2(b), turned(b, 4));
}

/* ---- Numbers that end the program where there is no room */

static sigjmp_buf back;

static void on_trap(int number) {
    (void)number;
    siglongjmp(back, 1);
}

/* A call that ends the program gives `trapped`, a number that no call gives here. */
static const i64 trapped = 0x5eed5eed5eed5eed;
#define TWO(name, type) \
    __attribute__((noinline)) static i64 caught_##name(type a, type b) { \
        return sigsetjmp(back, 0) ? trapped : own_##name(a, b); \
    }
#define ONE(name, type) \
    __attribute__((noinline)) static i64 caught_##name(type a) { \
        return sigsetjmp(back, 0) ? trapped : own_##name(a); \
    }
TWO(__addvsi3, i32)
TWO(__addvdi3, i64)
TWO(__subvsi3, i32)
TWO(__subvdi3, i64)
TWO(__mulvsi3, i32)
TWO(__mulvdi3, i64)
ONE(__negvsi2, i32)
ONE(__negvdi2, i64)
ONE(__absvsi2, i32)
ONE(__absvdi2, i64)

#define TRAPS(name, type, calculated, a, b) \
    do { \
        type room; \
        i64 right = calculated((type)(a), (type)(b), &room) ? trapped : room; \
        SAME(#name, a, b, caught_##name((type)(a), (type)(b)), right); \
    } while (0)
#define TRAPS_ONE(name, type, a, is_changed) \
    do { \
        type room, number = (type)(a); \
        i64 right = !(is_changed) ? number : __builtin_sub_overflow((type)0, number, &room) ? trapped : room; \
        SAME(#name, a, 0, caught_##name(number), right); \
    } while (0)

static void try_traps(u64 a, u64 b) {
    TRAPS(__addvsi3, i32, __builtin_add_overflow, a, b);
    TRAPS(__addvdi3, i64, __builtin_add_overflow, a, b);
    TRAPS(__subvsi3, i32, __builtin_sub_overflow, a, b);
    TRAPS(__subvdi3, i64, __builtin_sub_overflow, a, b);
    TRAPS(__mulvsi3, i32, __builtin_mul_overflow, a, b);
    TRAPS(__mulvdi3, i64, __builtin_mul_overflow, a, b);
    TRAPS_ONE(__negvsi2, i32, a, 1);
    TRAPS_ONE(__negvdi2, i64, a, 1);
    TRAPS_ONE(__absvsi2, i32, a, (i32)a < 0);
    TRAPS_ONE(__absvdi2, i64, a, (i64)a < 0);
}

/* ---- Division, by gcc's library, and for 128 bits by what it means: quotient * divisor + rest is the number, and the rest is less */

static void try_division(u64 a, u64 b) {
    u64 rest = 0;
    i64 left = 0;
    SAME("__cmpdi2", a, b, own___cmpdi2((i64)a, (i64)b), (i64)a < (i64)b ? 0 : a == b ? 1 : 2);
    SAME("__ucmpdi2", a, b, own___ucmpdi2(a, b), a < b ? 0 : a == b ? 1 : 2);
    if (b == 0) return;
    SAME("__udivdi3", a, b, own___udivdi3(a, b), a / b);
    SAME("__umoddi3", a, b, own___umoddi3(a, b), a % b);
    SAME("__udivmoddi4", a, b, own___udivmoddi4(a, b, &rest), a / b);
    SAME("__udivmoddi4", a, b, rest, a % b);
    if (a == 1ull << 63 && b == -1ull) return;
    SAME("__divdi3", a, b, own___divdi3((i64)a, (i64)b), (i64)a / (i64)b);
    SAME("__moddi3", a, b, own___moddi3((i64)a, (i64)b), (i64)a % (i64)b);
    SAME("__divmoddi4", a, b, own___divmoddi4((i64)a, (i64)b, &left), (i64)a / (i64)b);
    SAME("__divmoddi4", a, b, left, (i64)a % (i64)b);
}

static u128 sum(u128 a, u128 b) {
    u128 made = {a.low + b.low, a.high + b.high};
    made.high += made.low < a.low;
    return made;
}

static u128 negated(u128 a) {
    return (u128){-a.low, ~a.high + !a.low};
}

static u128 size_of(u128 a) {
    return a.high >> 63 ? negated(a) : a;
}

static int is_less(u128 a, u128 b) {
    return a.high != b.high ? a.high < b.high : a.low < b.low;
}

/* The lower 128 bits of a product, by its bits. */
static u128 product(u128 a, u128 b) {
    u128 made = {0, 0};
    for (int at = 0; at < 128; at++) {
        if ((at < 64 ? b.low >> at : b.high >> (at - 64)) & 1) made = sum(made, a);
        a = sum(a, a);
    }
    return made;
}

#define TRY_WIDE(division, remainder, sized, is_signed, own_division, own_remainder, a, b) \
    do { \
        u128 quotient = own_division(a, b), rest = own_remainder(a, b), all = sum(product(quotient, b), rest); \
        int has_sign = !is_signed || !(rest.low | rest.high) || rest.high >> 63 == a.high >> 63; \
        SAME(division, a.low, b.low, all.low, a.low); \
        SAME(division, a.high, b.high, all.high, a.high); \
        SAME(remainder, a.high, b.high, has_sign &&is_less(sized(rest), sized(b)), 1); \
    } while (0)
#define ITSELF(number) (number)

static void try_wide(u128 a, u128 b) {
    if (!(b.low | b.high)) return;
    TRY_WIDE("__udivti3", "__umodti3", ITSELF, 0, own___udivti3, own___umodti3, a, b);
    TRY_WIDE("__divti3", "__modti3", size_of, 1, own___divti3, own___modti3, a, b);
#ifdef __SIZEOF_INT128__
    unsigned __int128 x, y, right;
    u128 made = own___udivti3(a, b);
    memcpy(&x, &a, 16), memcpy(&y, &b, 16);
    right = x / y;
    SAME("__udivti3", a.low, b.low, made.low, right);
    SAME("__udivti3", a.high, b.high, made.high, right >> 64);
    made = own___modti3(a, b);
    right = (unsigned __int128)((__int128)x % (__int128)y);
    SAME("__modti3", a.low, b.low, made.low, right);
    SAME("__modti3", a.high, b.high, made.high, right >> 64);
#endif
}

/* ---- Numbers to try: near powers of 2, and random ones of each length */

static u64 edge(int k) {
    return (k / 10 < 64 ? 1ull << k / 10 : 0) + (u64)(k % 5 - 2);
}
enum { EDGES = 650 };

static u64 any(void) {
    return chance() >> chance() % 64;
}

static void try_edges(void) {
    for (int k = 0; k < EDGES; k++) {
        try_bits(edge(k));
        for (int m = 0; m < EDGES; m++) {
            try_division(edge(k), edge(m));
            try_traps(edge(k), edge(m));
        }
    }
    for (int k = 0; k < EDGES; k += 3)
        for (int m = 0; m < EDGES; m += 7)
            try_wide((u128){edge(k), edge(m)}, (u128){edge((k + 5 * m) % EDGES), k % 2 ? edge((7 * k + m) % EDGES) : 0});
}

int main(int count, char **words) {
    u64 rounds = count > 2 ? strtoull(words[1], 0, 10) : 0;
    state = 88172645463325252ull + (count > 2 ? strtoull(words[2], 0, 10) * 0x9E3779B97F4A7C15ull : 0);
    if (count > 3) ending = words[3];
    struct sigaction action = {.sa_handler = on_trap, .sa_flags = SA_NODEFER};
    sigaction(SIGILL, &action, NULL);
    try_edges();
    for (u64 tried = 0; tried < rounds; tried++) {
        u64 a = any(), b = any();
        try_bits(a);
        try_division(a, b);
        try_traps(a, b);
        try_wide((u128){chance(), tried % 3 ? a : 0}, (u128){tried % 5 ? chance() : b, tried % 2 ? b : 0});
    }
    printf("%llu random pairs, %lu wrong\n", (unsigned long long)rounds, wrong);
    return wrong || rounds == 0;
}
