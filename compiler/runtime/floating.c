/* Software floating point, as compilers call it with -msoft-float: rounds to the nearest number, and of two such to the even one.

   Numbers are passed as their bits, for without a floating-point unit they are on the stack and in general registers. What isn't a number
   comes out as of SSE2's instructions: the first operand that isn't one, made quiet, or NOTHING if both are numbers. A conversion beyond
   the range of a whole number gives the nearest one in the range, and for what isn't a number the largest.

   A result is made in place, as field and fraction, beside `rest`, the 32 bits after the fraction. The last bit of `rest` also stands for
   all that follow it, so each result is rounded once. A carry out of the fraction makes the field larger by one and the fraction zero,
   which is right, up to infinity.

   Common cases work on words, since compilers put 64-bit numbers on the stack, and with few jumps, which would depend on the numbers. */

typedef unsigned int u32;
typedef unsigned long long u64;
typedef int i32;
typedef long long i64;

/* Parts of a double's upper word, and of a float. FIRST is the first bit of a significand, which normal numbers don't store. */
#define SIGN 0x80000000u
#define INFINITE 0x7FF00000u
#define FIRST 0x00100000u
#define QUIET 0x00080000u
#define NOTHING (SIGN | INFINITE | QUIET)
#define INFINITE_S 0x7F800000u
#define FIRST_S 0x00800000u
#define QUIET_S 0x00400000u
#define NOTHING_S (SIGN | INFINITE_S | QUIET_S)
#define HALF 0x80000000u /* of the last bit of the fraction, as `rest` */

#define RARE(condition) __builtin_expect(!!(condition), 0)
#define INLINE static inline __attribute__((always_inline))
#define APART static __attribute__((noinline))

INLINE u32 upper(u64 bits) { return (u32)(bits >> 32); }
INLINE u64 joined(u32 high, u32 low) { return (u64)high << 32 | low; }
INLINE u64 size_of(u64 number) { return number & ~joined(SIGN, 0); }
INLINE u32 field_of(u32 high) { return high / FIRST & 0x7FF; }
INLINE u32 field_of_s(u32 number) { return number / FIRST_S & 0xFF; }
INLINE u32 zeros_before(u64 bits) { return upper(bits) ? (u32)__builtin_clz(upper(bits)) : 32 + (u32)__builtin_clz((u32)bits); }
INLINE int is_normal(u32 field) { return field - 1 < 2046; }
INLINE int is_normal_s(u32 field) { return field - 1 < 254; }

/* A word of two that are shifted by `by` modulo 32. Compilers would also provide for larger distances. */
INLINE u32 right(u32 high, u32 low, u32 by) {
    __asm__("shrdl %%cl, %1, %0" : "+r"(low) : "r"(high), "c"(by) : "cc");
    return low;
}
INLINE u32 left(u32 high, u32 low, u32 by) {
    __asm__("shldl %%cl, %1, %0" : "+r"(high) : "r"(low), "c"(by) : "cc");
    return high;
}

/* What goes out is kept in bit 0. */
INLINE u64 kept_right(u64 bits, u32 by) { return by > 63 ? bits != 0 : bits >> by | ((bits & ((1ull << by) - 1)) != 0); }

/* The carry of the first sum is 1 if `rest` is more than half, or half after an odd number. */
INLINE u64 rounded(u32 high, u32 low, u32 rest) {
    rest |= low & 1;
    __asm__("addl $0x7fffffff, %2\n\tadcl $0, %1\n\tadcl $0, %0" : "+r"(high), "+r"(low), "+r"(rest) : : "cc");
    return joined(high, low);
}
INLINE u32 rounded_s(u32 number, u32 rest) { return number + ((rest | (number & 1)) > HALF); }

/* ---- double: the uncommon cases */

INLINE int is_none(u64 number) { return size_of(number) > joined(INFINITE, 0); }
INLINE int is_special(u64 number) { return size_of(number) - 1 >= joined(INFINITE, 0) - 1; }
APART u64 none(u64 a, u64 b) { return (is_none(a) ? a : b) | joined(QUIET, 0); }

/* A result whose field isn't that of a normal number. */
APART u64 beyond(u32 sign, i32 field, u64 bits, u32 rest) {
    if (field > 0) return joined(sign | INFINITE, 0);
    bits = kept_right(bits << 11 | rest >> 21 | (rest << 11 != 0), (u32)(1 - field));
    return rounded(sign | upper(bits >> 11), (u32)(bits >> 11), (u32)bits << 21);
}

/* The significand of a number that isn't zero; a subnormal one gets a field of at most 0. */
INLINE u64 significand_of(u64 number, i32 *field) {
    u64 bits = number & (joined(FIRST, 0) - 1);
    *field = (i32)field_of(upper(number));
    if (*field) return bits | joined(FIRST, 0);
    u32 by = zeros_before(bits) - 11;
    *field = 1 - (i32)by;
    return bits << by;
}

/* ---- double: sums */

/* high:low and a number with its sign and exponent. */
INLINE u64 total(u32 high, u32 low, u32 more, u32 after, u32 rest) {
    u32 old = high;
    __asm__("addl %3, %1\n\tadcl %2, %0" : "+r"(high), "+&r"(low) : "rm"(more), "rm"(after) : "cc");
    if ((high ^ old) & 3 * FIRST) {
        /* The sum of significands is twice FIRST or more. So the field is larger by one, and what exceeds its least number is halved. */
        u32 least = (old & ~(FIRST - 1)) + FIRST, above = high - least;
        if (RARE((least & INFINITE) == INFINITE)) return joined(least, 0);
        rest = low << 31 | rest >> 1 | (rest & 1);
        low = above << 31 | low >> 1;
        high = least + (above >> 1);
    }
    return rounded(high, low, rest);
}

/* A difference that has lost its first bit. If it has lost more, the exponents differed by at most one, and the result is exact. */
INLINE u64 renewed(u32 high, u32 low, u32 rest) {
    u32 field = field_of(high), sign = high & SIGN;
    u64 bits = joined((high << 1 & (2 * FIRST - 1)) | low >> 31, low << 1 | rest >> 31);
    if (bits == 0) return 0;
    u32 by = zeros_before(bits) - 11;
    if (RARE(by >= field)) return joined(sign, 0) | (field ? bits << (field - 1) : bits >> 1);
    bits <<= by;
    return rounded(sign + (field - 1 - by) * FIRST + upper(bits), (u32)bits, rest << 1);
}

INLINE u64 difference(u32 high, u32 low, u32 less, u32 after, u32 rest) {
    u32 old = high;
    __asm__("negl %2\n\tsbbl %4, %1\n\tsbbl %3, %0" : "+r"(high), "+&r"(low), "+&r"(rest) : "rm"(less), "rm"(after) : "cc");
    return (high ^ old) & FIRST ? renewed(high, low, rest) : rounded(high, low, rest);
}

/* Of a normal number and the significand of one that isn't larger, with an exponent less by `by`. `sign` has SIGN if the signs differ. */
INLINE u64 sum(u64 large, u64 small, u32 by, u32 sign) {
    u32 high = upper(small), low = (u32)small, rest = right(low, 0, by);
    low = right(high, low, by);
    high >>= by & 31;
    if (by > 31) {
        if (by > 54) return large;
        rest = low | (rest != 0);
        low = high;
        high = 0;
    }
    if (sign & SIGN) return difference(upper(large), (u32)large, high, low, rest);
    return total(upper(large), (u32)large, high, low, rest);
}

/* Where the larger one is infinite or not a number, or the smaller one is subnormal or zero. */
APART u64 rare_sum(u64 a, u64 b) {
    u64 large = size_of(a) < size_of(b) ? b : a, x = size_of(large), small = large == a ? b : a, y = size_of(small);
    u32 field = field_of(upper(large));
    if (x > joined(INFINITE, 0)) return none(a, b);
    if (x == joined(INFINITE, 0)) return x == y && a != b ? joined(NOTHING, 0) : large;
    if (y == 0) return x ? large : a & b;
    /* y is subnormal, with the exponent of the field 1. */
    if (field) return sum(large, y, field - 1, upper(a) ^ upper(b));
    /* Both are subnormal, so the sum is exact. A carry makes a normal number. */
    return ((upper(a) ^ upper(b)) & SIGN) == 0 ? large + y : x == y ? 0 : large - y;
}

APART u64 rare_difference(u64 a, u64 b) { return is_none(b) ? none(a, b) : rare_sum(a, b ^ joined(SIGN, 0)); }

/* Of a and b, or of a and -b. */
INLINE u64 sum_with(u64 a, u64 b, u32 change) {
    u32 ah = upper(a), al = (u32)a, bh = upper(b) ^ change, bl = (u32)b, sign = ah ^ bh;
    /* They change places without a jump. */
    u32 swap = -(u32)(size_of(a) < size_of(b)), high = sign & swap, low = (al ^ bl) & swap;
    ah ^= high, bh ^= high;
    al ^= low, bl ^= low;
    u32 field = field_of(ah), other = field_of(bh);
    if (RARE(other == 0 || field == 0x7FF)) return change ? rare_difference(a, b) : rare_sum(a, b);
    return sum(joined(ah, al), joined((bh & (FIRST - 1)) | FIRST, bl), field - other, sign);
}

u64 __adddf3(u64 a, u64 b) { return sum_with(a, b, 0); }
u64 __subdf3(u64 a, u64 b) { return sum_with(a, b, SIGN); }
u64 __negdf2(u64 a) { return a ^ joined(SIGN, 0); }

/* ---- double: products and quotients */

INLINE u64 packed(u32 sign, i32 field, u32 high, u32 low, u32 rest) {
    if (RARE(!is_normal((u32)field))) return beyond(sign & SIGN, field, joined(high, low), rest);
    return rounded((sign & SIGN) + (u32)(field - 1) * FIRST + high, low, rest);
}

/* Of significands x and y / 2^11. */
INLINE u64 product(u32 sign, i32 field, u32 xh, u32 xl, u32 yh, u32 yl) {
    u64 last = (u64)xl * yl, middle = (u64)xh * yl + upper(last), later = (u64)xl * yh + (u32)middle;
    u64 bits = (u64)xh * yh + upper(middle) + upper(later);
    /* The first of these 128 bits is where FIRST is in the upper half, or the next one. */
    u32 by = upper(bits) / FIRST ^ 1, rest = (u32)later | ((u32)last != 0);
    return packed(sign, field - (i32)by, left(upper(bits), (u32)bits, by), left((u32)bits, rest, by), rest << (by & 31));
}

/* high:low by a word that is larger than `high`. */
INLINE u32 divided(u32 high, u32 low, u32 by, u32 *rest) {
    u32 made;
    __asm__("divl %4" : "=a"(made), "=d"(*rest) : "a"(low), "d"(high), "r"(by) : "cc");
    return made;
}

/* The quotient of the words high:low:0 by y, of at most 27 bits; y is from 2^62 to 2^63, and `yl` its lower word. The quotient by the upper
   word alone is too large by at most one, and rarely. */
INLINE u32 digit(u32 high, u32 low, u64 y, u32 yl, u64 *rest) {
    u32 over, made = divided(high, low, upper(y), &over);
    *rest = joined(over, 0) - (u64)made * yl;
    if (RARE(upper(*rest) & SIGN)) made--, *rest += y;
    return made;
}

/* Of significands. Its 53 bits are found by two divisions. */
INLINE u64 quotient(u32 sign, i32 field, u64 x, u64 y) {
    u32 by = x < y, yl = (u32)y << 10, first, second;
    u64 rest;
    y <<= 10;
    first = digit(left(upper(x), (u32)x, 4 + by), (u32)x << (4 + by), y, yl, &rest);
    second = digit(upper(rest) >> 6, (u32)(rest >> 6), y, yl, &rest);
    /* No rest is half of y, whose factors of two are too few. */
    return packed(sign, field - (i32)by, first >> 6, first << 26 | second, (rest + rest > y ? HALF : 0) | (rest != 0));
}

/* Where a number is infinite, none, zero or subnormal. To divide by zero or infinity is to multiply by the other one. */
APART u64 rare_product(u64 a, u64 b, int divides) {
    u64 x = size_of(a), y = size_of(b), infinite = joined(INFINITE, 0);
    u32 sign = upper(a) ^ upper(b);
    if (is_none(a) || is_none(b)) return none(a, b);
    if (is_special(a) || is_special(b)) {
        if (divides) y = y == 0 ? infinite : y == infinite ? 0 : y;
        if (x != infinite && y != infinite) return joined(sign & SIGN, 0);
        return x && y ? joined((sign & SIGN) | INFINITE, 0) : joined(NOTHING, 0);
    }
    i32 field, other;
    x = significand_of(a, &field), y = significand_of(b, &other);
    if (divides) return quotient(sign, field - other + 1023, x, y);
    return product(sign, field + other - 1022, upper(x), (u32)x, upper(y << 11), (u32)y << 11);
}

u64 __muldf3(u64 a, u64 b) {
    u32 ah = upper(a), bh = upper(b), bl = (u32)b, field = field_of(ah), other = field_of(bh);
    if (RARE(!is_normal(field) || !is_normal(other))) return rare_product(a, b, 0);
    return product(ah ^ bh, (i32)(field + other) - 1022, (ah & (FIRST - 1)) | FIRST, (u32)a, bh << 11 | bl >> 21 | SIGN, bl << 11);
}

u64 __divdf3(u64 a, u64 b) {
    u32 ah = upper(a), bh = upper(b), field = field_of(ah), other = field_of(bh);
    if (RARE(!is_normal(field) || !is_normal(other))) return rare_product(a, b, 1);
    ah = (ah & (FIRST - 1)) | FIRST, bh = (bh & (FIRST - 1)) | FIRST;
    return quotient(upper(a ^ b), (i32)(field - other) + 1023, joined(ah, (u32)a), joined(bh, (u32)b));
}

/* ---- double: comparisons */

/* Where the upper words differ by the sign at most, or one number is infinite or none. */
APART int rare_order(u64 a, u64 b, int unordered) {
    if (is_none(a) || is_none(b)) return unordered;
    if (a == b || (size_of(a) | size_of(b)) == 0) return 0;
    return ((i64)a < (i64)b) == (int)((a & b) >> 63) ? 1 : -1;
}

/* -1, 0 or 1. Of two negative numbers the larger bits are the smaller number. */
INLINE int order(u64 a, u64 b, int unordered) {
    u32 ah = upper(a), bh = upper(b);
    if (RARE(field_of(ah) == 0x7FF || field_of(bh) == 0x7FF) || ah << 1 == bh << 1) return rare_order(a, b, unordered);
    return 1 - 2 * (int)(((i32)ah < (i32)bh) ^ (ah & bh) >> 31);
}

int __ledf2(u64 a, u64 b) { return order(a, b, 2); }
int __gedf2(u64 a, u64 b) { return order(a, b, -2); }
int __ltdf2(u64, u64) __attribute__((alias("__ledf2")));
int __gtdf2(u64, u64) __attribute__((alias("__gedf2")));
int __eqdf2(u64 a, u64 b) { return a == b ? is_none(a) : (((upper(a) | upper(b)) << 1) | (u32)a | (u32)b) != 0; }
int __nedf2(u64, u64) __attribute__((alias("__eqdf2")));
int __unorddf2(u64 a, u64 b) { return is_none(a) || is_none(b); }

/* ---- float */

INLINE int is_none_s(u32 number) { return (number & ~SIGN) > INFINITE_S; }
INLINE int is_special_s(u32 number) { return (number & ~SIGN) - 1 >= INFINITE_S - 1; }
INLINE u32 none_s(u32 a, u32 b) { return (is_none_s(a) ? a : b) | QUIET_S; }

/* A result whose field isn't that of a normal number. */
APART u32 beyond_s(u32 sign, i32 field, u32 number, u32 rest) {
    if (field > 0) return sign | INFINITE_S;
    u64 bits = kept_right(joined(number, rest), (u32)(1 - field));
    return sign | rounded_s(upper(bits), (u32)bits);
}

INLINE u32 packed_s(u32 sign, i32 field, u32 number, u32 rest) {
    if (RARE(!is_normal_s((u32)field))) return beyond_s(sign & SIGN, field, number, rest);
    return rounded_s((sign & SIGN) + (u32)(field - 1) * FIRST_S + number, rest);
}

INLINE u32 significand_of_s(u32 number, i32 *field) {
    u32 bits = number & (FIRST_S - 1);
    *field = (i32)field_of_s(number);
    if (*field) return bits | FIRST_S;
    u32 by = (u32)__builtin_clz(bits) - 8;
    *field = 1 - (i32)by;
    return bits << by;
}

/* These are as for doubles, but no bit goes out at the end of `rest`. */
INLINE u32 total_s(u32 number, u32 more, u32 rest) {
    u32 made = number + more;
    if ((made ^ number) & 3 * FIRST_S) {
        u32 least = (number & ~(FIRST_S - 1)) + FIRST_S, above = made - least;
        if (RARE((least & INFINITE_S) == INFINITE_S)) return least;
        rest = above << 31 | rest >> 1;
        made = least + (above >> 1);
    }
    return rounded_s(made, rest);
}

INLINE u32 difference_s(u32 number, u32 less, u32 rest) {
    u32 made = number - less - (rest != 0), field = field_of_s(made), bits, by;
    rest = -rest;
    if (((made ^ number) & FIRST_S) == 0) return rounded_s(made, rest);
    bits = (made << 1 & (2 * FIRST_S - 1)) | rest >> 31;
    if (bits == 0) return 0;
    by = (u32)__builtin_clz(bits) - 8;
    if (RARE(by >= field)) return (made & SIGN) | (field ? bits << (field - 1) : bits >> 1);
    return rounded_s((made & SIGN) + (field - 1 - by) * FIRST_S + (bits << by), rest << 1);
}

INLINE u32 sum_s(u32 large, u32 small, u32 by, u32 sign) {
    if (by > 25) return large;
    u32 rest = right(small, 0, by);
    return sign & SIGN ? difference_s(large, small >> by, rest) : total_s(large, small >> by, rest);
}

/* As rare_sum. */
APART u32 rare_sum_s(u32 a, u32 b) {
    u32 x = a & ~SIGN, y = b & ~SIGN, large = x < y ? b : a;
    if (x < y) y = x, x = b & ~SIGN;
    u32 field = field_of_s(x);
    if (x > INFINITE_S) return none_s(a, b);
    if (x == INFINITE_S) return x == y && a != b ? NOTHING_S : large;
    if (y == 0) return x ? large : a & b;
    if (field) return sum_s(large, y, field - 1, a ^ b);
    return ((a ^ b) & SIGN) == 0 ? large + y : x == y ? 0 : large - y;
}

APART u32 rare_difference_s(u32 a, u32 b) { return is_none_s(b) ? none_s(a, b) : rare_sum_s(a, b ^ SIGN); }

INLINE u32 sum_with_s(u32 a, u32 b, u32 change) {
    u32 sign = a ^ b ^ change, swap = -(u32)((a & ~SIGN) < (b & ~SIGN)) & sign, large = a ^ swap, small = b ^ change ^ swap;
    u32 field = field_of_s(large), other = field_of_s(small);
    if (RARE(other == 0 || field == 0xFF)) return change ? rare_difference_s(a, b) : rare_sum_s(a, b);
    return sum_s(large, (small & (FIRST_S - 1)) | FIRST_S, field - other, sign);
}

u32 __addsf3(u32 a, u32 b) { return sum_with_s(a, b, 0); }
u32 __subsf3(u32 a, u32 b) { return sum_with_s(a, b, SIGN); }
u32 __negsf2(u32 a) { return a ^ SIGN; }

INLINE u32 product_s(u32 sign, i32 field, u32 x, u32 y) {
    u64 bits = (u64)x * (y << 8);
    u32 by = upper(bits) / FIRST_S ^ 1, number = left(upper(bits), (u32)bits, by);
    return packed_s(sign, field - (i32)by, number, (u32)bits << (by & 31));
}

INLINE u32 quotient_s(u32 sign, i32 field, u32 x, u32 y) {
    u32 by = x < y, rest, number = divided(x >> (9 - by), x << (23 + by), y, &rest);
    return packed_s(sign, field - (i32)by, number, (rest + rest > y ? HALF : 0) | (rest != 0));
}

APART u32 rare_product_s(u32 a, u32 b, int divides) {
    u32 sign = (a ^ b) & SIGN, x = a & ~SIGN, y = b & ~SIGN;
    if (is_none_s(a) || is_none_s(b)) return none_s(a, b);
    if (is_special_s(a) || is_special_s(b)) {
        if (divides) y = y == 0 ? INFINITE_S : y == INFINITE_S ? 0 : y;
        return x != INFINITE_S && y != INFINITE_S ? sign : x && y ? sign | INFINITE_S : NOTHING_S;
    }
    i32 field, other;
    x = significand_of_s(a, &field), y = significand_of_s(b, &other);
    return divides ? quotient_s(sign, field - other + 127, x, y) : product_s(sign, field + other - 126, x, y);
}

u32 __mulsf3(u32 a, u32 b) {
    u32 field = field_of_s(a), other = field_of_s(b);
    if (RARE(!is_normal_s(field) || !is_normal_s(other))) return rare_product_s(a, b, 0);
    return product_s(a ^ b, (i32)(field + other) - 126, (a & (FIRST_S - 1)) | FIRST_S, (b & (FIRST_S - 1)) | FIRST_S);
}

u32 __divsf3(u32 a, u32 b) {
    u32 field = field_of_s(a), other = field_of_s(b);
    if (RARE(!is_normal_s(field) || !is_normal_s(other))) return rare_product_s(a, b, 1);
    return quotient_s(a ^ b, (i32)(field - other) + 127, (a & (FIRST_S - 1)) | FIRST_S, (b & (FIRST_S - 1)) | FIRST_S);
}

INLINE int order_s(u32 a, u32 b, int unordered) {
    if (RARE(is_none_s(a) || is_none_s(b))) return unordered;
    if (a == b || (a | b) << 1 == 0) return 0;
    return 1 - 2 * (int)(((i32)a < (i32)b) ^ (a & b) >> 31);
}

int __lesf2(u32 a, u32 b) { return order_s(a, b, 2); }
int __gesf2(u32 a, u32 b) { return order_s(a, b, -2); }
int __ltsf2(u32, u32) __attribute__((alias("__lesf2")));
int __gtsf2(u32, u32) __attribute__((alias("__gesf2")));
int __eqsf2(u32 a, u32 b) { return a == b ? is_none_s(a) : (a | b) << 1 != 0; }
int __nesf2(u32, u32) __attribute__((alias("__eqsf2")));
int __unordsf2(u32 a, u32 b) { return is_none_s(a) || is_none_s(b); }

/* ---- conversions to whole numbers, towards zero */

/* With the sign that `sign` has, without a jump. */
INLINE u32 signed_by(u32 sign, u32 size) { return (size ^ -(sign >> 31)) + (sign >> 31); }
INLINE u64 words_signed_by(u32 sign, u64 size) { return (size ^ -(u64)(sign >> 31)) + (sign >> 31); }

/* The number is top / 2^31 * 2^exponent, or a little more, where the first bit of `top` is set. */
INLINE i32 signed_word(u32 top, i32 exponent, u32 sign, int none) {
    if (exponent < 0) return 0;
    if (RARE(exponent > 30)) return (i32)(~0u / 2 + (sign & SIGN && !none));
    return (i32)signed_by(sign, top >> (31 - exponent));
}

INLINE u32 unsigned_word(u32 top, i32 exponent, u32 sign, int none) {
    if (exponent < 0) return 0;
    if (RARE(exponent > 31 || sign & SIGN)) return sign & SIGN && !none ? 0 : ~0u;
    return top >> (31 - exponent);
}

/* The same with 2^63. */
INLINE i64 signed_words(u64 top, i32 exponent, u32 sign, int none) {
    if (exponent < 0) return 0;
    if (RARE(exponent > 62)) return (i64)(~0ull / 2 + (sign & SIGN && !none));
    return (i64)words_signed_by(sign, top >> (63 - exponent));
}

INLINE u64 unsigned_words(u64 top, i32 exponent, u32 sign, int none) {
    if (exponent < 0) return 0;
    if (RARE(exponent > 63 || sign & SIGN)) return sign & SIGN && !none ? 0 : ~0ull;
    return top >> (63 - exponent);
}

INLINE u64 top_of(u64 a) { return a << 11 | joined(SIGN, 0); }
INLINE u32 top_of_s(u32 a) { return a << 8 | SIGN; }
INLINE i32 exponent_of(u64 a) { return (i32)field_of(upper(a)) - 1023; }
INLINE i32 exponent_of_s(u32 a) { return (i32)field_of_s(a) - 127; }

i32 __fixdfsi(u64 a) { return signed_word(upper(top_of(a)), exponent_of(a), upper(a), is_none(a)); }
u32 __fixunsdfsi(u64 a) { return unsigned_word(upper(top_of(a)), exponent_of(a), upper(a), is_none(a)); }
i64 __fixdfdi(u64 a) { return signed_words(top_of(a), exponent_of(a), upper(a), is_none(a)); }
u64 __fixunsdfdi(u64 a) { return unsigned_words(top_of(a), exponent_of(a), upper(a), is_none(a)); }
i32 __fixsfsi(u32 a) { return signed_word(top_of_s(a), exponent_of_s(a), a, is_none_s(a)); }
u32 __fixunssfsi(u32 a) { return unsigned_word(top_of_s(a), exponent_of_s(a), a, is_none_s(a)); }
i64 __fixsfdi(u32 a) { return signed_words(joined(top_of_s(a), 0), exponent_of_s(a), a, is_none_s(a)); }
u64 __fixunssfdi(u32 a) { return unsigned_words(joined(top_of_s(a), 0), exponent_of_s(a), a, is_none_s(a)); }

/* ---- conversions between float and double */

#define REBASED (1023 - 127) /* what the field of a double exceeds that of the same float by */

APART u64 rare_extended(u32 a) {
    u32 size = a & ~SIGN, by;
    if (size == 0) return joined(a, 0);
    if (size >= INFINITE_S) return joined((a & SIGN) | INFINITE | size >> 3 | (size > INFINITE_S ? QUIET : 0), size << 29);
    by = (u32)__builtin_clz(size) - 8;
    size <<= by;
    return joined((a & SIGN) + (REBASED - by) * FIRST + (size >> 3), size << 29);
}

u64 __extendsfdf2(u32 a) {
    if (RARE(!is_normal_s(field_of_s(a)))) return rare_extended(a);
    return joined((a & SIGN) | ((a & ~SIGN) / 8 + REBASED * FIRST), a << 29);
}

APART u32 rare_truncated(u64 a) {
    u32 high = upper(a), sign = high & SIGN, field = field_of(high), number = high << 3 | (u32)a >> 29;
    if (field == 0x7FF) return sign | INFINITE_S | (number & (FIRST_S - 1)) | (is_none(a) ? QUIET_S : 0);
    return field ? beyond_s(sign, (i32)field - REBASED, (number & (FIRST_S - 1)) | FIRST_S, (u32)a << 3) : sign;
}

/* A double in the range of normal floats. */
INLINE u32 truncated(u32 high, u32 low) { return rounded_s((high & SIGN) | (high - REBASED * FIRST) << 3 | low >> 29, low << 3); }

u32 __truncdfsf2(u64 a) {
    u32 high = upper(a);
    return RARE(!is_normal_s(field_of(high) - REBASED)) ? rare_truncated(a) : truncated(high, (u32)a);
}

/* ---- conversions of whole numbers */

INLINE u64 of_word(u32 sign, u32 size) {
    if (size == 0) return 0;
    u32 by = (u32)__builtin_clz(size);
    size <<= by;
    return joined((sign & SIGN) + (1022 + 31 - by) * FIRST + (size >> 11), size << 21);
}

INLINE u64 of_words(u32 sign, u64 size) {
    if (upper(size) == 0) return of_word(sign, (u32)size);
    u32 by = (u32)__builtin_clz(upper(size)), high = left(upper(size), (u32)size, by), low = (u32)size << by;
    return rounded((sign & SIGN) + (1022 + 63 - by) * FIRST + (high >> 11), high << 21 | low >> 11, low << 21);
}

INLINE u32 of_word_s(u32 sign, u32 size) { return size ? truncated(upper(of_word(sign, size)), (u32)of_word(sign, size)) : 0; }
INLINE u32 of_words_s(u32 sign, u64 size) {
    if (upper(size) == 0) return of_word_s(sign, (u32)size);
    u32 by = (u32)__builtin_clz(upper(size)), high = left(upper(size), (u32)size, by), low = (u32)size << by;
    return rounded_s((sign & SIGN) + (126 + 63 - by) * FIRST_S + (high >> 8), high << 24 | low >> 8 | (low << 24 != 0));
}

u64 __floatsidf(i32 n) { return of_word((u32)n, signed_by((u32)n, (u32)n)); }
u64 __floatunsidf(u32 n) { return of_word(0, n); }
u64 __floatdidf(i64 n) { return of_words(upper((u64)n), words_signed_by(upper((u64)n), (u64)n)); }
u64 __floatundidf(u64 n) { return of_words(0, n); }
u32 __floatsisf(i32 n) { return of_word_s((u32)n, signed_by((u32)n, (u32)n)); }
u32 __floatunsisf(u32 n) { return of_word_s(0, n); }
u32 __floatdisf(i64 n) { return of_words_s(upper((u64)n), words_signed_by(upper((u64)n), (u64)n)); }
u32 __floatundisf(u64 n) { return of_words_s(0, n); }
