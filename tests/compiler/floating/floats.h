/* What the comparisons of floating point share: numbers to try, and how a difference is told. */
#include <stdint.h>
#include <stdio.h>
#include <stdlib.h>
#include <string.h>

typedef uint32_t u32;
typedef uint64_t u64;
typedef int32_t i32;
typedef int64_t i64;

static u64 state;
static unsigned long wrong;
static const char *ending = "";

static u64 chance(void) {
    state ^= state << 13;
    state ^= state >> 7;
    return state ^= state << 17;
}

static void report(const char *name, u64 a, u64 b, u64 made, u64 right) {
    static const char *told[64];
    int k = 0;
    wrong++;
    while (told[k] && strcmp(told[k], name)) k++;
    if (told[k]) return;
    told[k] = name;
    printf("%s of %016llx and %016llx: %016llx, and not %016llx\n", name, (unsigned long long)a, (unsigned long long)b,
           (unsigned long long)made, (unsigned long long)right);
    if (strcmp(name, ending) == 0) exit(1);
}

#define SAME(name, a, b, made, right) \
    do { \
        u64 made_ = (u64)(made), right_ = (u64)(right); \
        if (__builtin_expect(made_ != right_, 0)) report(name, a, b, made_, right_); \
    } while (0)

static inline double number(u64 bits) {
    double made;
    memcpy(&made, &bits, 8);
    return made;
}

static inline float number_s(u32 bits) {
    float made;
    memcpy(&made, &bits, 4);
    return made;
}

static inline u64 bits_of(double made) {
    u64 bits;
    memcpy(&bits, &made, 8);
    return bits;
}

static inline u32 bits_of_s(float made) {
    u32 bits;
    memcpy(&bits, &made, 4);
    return bits;
}

enum { MOST = 2000 };

/* Numbers of a format with `digits` in its fraction and `top` as the largest field. Fields are near the ends, the sizes of whole numbers,
   those of floats, and the distances at which a sum's smaller operand goes out. Fractions are near the ends and the middle, a tie of
   floats, and any. */
static inline int boundaries(u64 *made, int digits, int top) {
    static const int from_middle[] = {-151, -150, -149, -148, -127, -126, -125, -2, -1, 0,  1,  2,  22, 23, 24, 25,  26,  29,
                                      30,   31,   32,   33,   51,   52,   53,   54, 55, 56, 61, 62, 63, 64, 65, 126, 127, 128};
    static const int from_ends[] = {0, 1, 2, 3, 22, 23, 24, 25, 26, 51, 52, 53, 54, 55, 56};
    const u64 one = 1ull << digits, half = one / 2, tie = digits > 23 ? 3ull << (digits - 24) : 3;
    const u64 fractions[] = {0, 1, 2, half - 1, half, half + 1, one - 2, one - 1, half / 2, tie, chance() % one};
    int fields[100], count = 0, found = 0;
    for (unsigned k = 0; k < sizeof from_middle / sizeof *from_middle; k++) fields[count++] = top / 2 + from_middle[k];
    for (unsigned k = 0; k < sizeof from_ends / sizeof *from_ends; k++) {
        fields[count++] = from_ends[k];
        fields[count++] = top - from_ends[k];
    }
    for (int k = 0; k < count; k++)
        for (unsigned f = 0; f < sizeof fractions / sizeof *fractions; f++)
            for (u64 sign = 0; sign < 2 && fields[k] >= 0 && fields[k] <= top; sign++)
                made[found++] = (sign * (top + 1ull) + (u64)fields[k]) * one + fractions[f];
    return found;
}

/* Bits of a number of `wide` bits with `digits` in its fraction: any, near 1, subnormal, with few bits set, near the ends, or whole. */
static inline u64 random_number(int wide, int digits) {
    u64 bits = chance() >> (64 - wide), fraction = (1ull << digits) - 1, top = (1ull << (wide - 1 - digits)) - 1, sign = 1ull << (wide - 1);
    switch (chance() % 8) {
    case 0: return bits;
    case 1: return (bits & (sign | fraction)) | (top / 2 - 3 + chance() % 7) << digits;
    case 2: return (bits & sign) | (bits & fraction) >> chance() % (u64)digits;
    case 3: return bits & ~fraction;
    case 4: return (bits & (sign | fraction)) | (chance() % 2 ? top - chance() % 3 : chance() % ((u64)digits + 8)) << digits;
    case 5: return bits & chance() & chance();
    case 6: return bits | (fraction & chance() & chance());
    default: return (bits & sign) | (top / 2 + chance() % 70 % (top / 2)) << digits | (chance() & chance() & fraction);
    }
}

/* Another number: any, or with an exponent that is less by as much as a fraction has digits, or the same number but for a bit or two. */
static inline u64 random_other(u64 first, int wide, int digits) {
    const u64 sign = 1ull << (wide - 1), one = 1ull << digits, other = random_number(wide, digits);
    u64 field = first & (sign - one), distance = chance() % ((u64)digits + 6) * one, few = chance() % 3;
    switch (chance() % 8) {
    case 0: return first ^ few ^ chance() % 2 * sign;
    case 1:
    case 2:
    case 3: return (other & (sign | (one - 1))) | (field > distance && few ? field - distance : field);
    case 4: return (other & sign) | (field > distance ? field - distance : field) | (chance() % 2 ? few : one - 1 - few);
    default: return other;
    }
}
