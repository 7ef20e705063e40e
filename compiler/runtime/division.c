/* What the compiler calls for whole numbers and their bits, in place of its own library, which isn't in bundles. */

typedef unsigned int u32;
typedef unsigned long long u64;
typedef int i32;
typedef long long i64;

/* 64 bits by 32: the quotient has 32 bits, if `high` is less than the divisor. */
static u32 divide(u32 high, u32 low, u32 by, u32 *rest) {
    u32 quotient;
    __asm__("divl %4" : "=a"(quotient), "=d"(*rest) : "a"(low), "d"(high), "r"(by));
    return quotient;
}

static u64 by_bits(u64 number, u64 by, u64 *rest) {
    u64 quotient = 0;
    int shift = __builtin_clz((u32)(by >> 32)) - (number >> 32 ? __builtin_clz((u32)(number >> 32)) : 32);
    for (; shift >= 0; shift--) {
        quotient <<= 1;
        if (number >= by << shift) {
            number -= by << shift;
            quotient |= 1;
        }
    }
    *rest = number;
    return quotient;
}

u64 __udivmoddi4(u64 number, u64 by, u64 *rest) {
    u32 high = number >> 32, left, divisor = (u32)by;
    u64 quotient, remainder;
    if (by >> 32) {
        quotient = by_bits(number, by, &remainder);
    } else {
        u32 upper = high / divisor;
        quotient = (u64)upper << 32 | divide(high % divisor, (u32)number, divisor, &left);
        remainder = left;
    }
    if (rest) *rest = remainder;
    return quotient;
}

u64 __udivdi3(u64 number, u64 by) { return __udivmoddi4(number, by, 0); }

u64 __umoddi3(u64 number, u64 by) {
    u64 rest;
    __udivmoddi4(number, by, &rest);
    return rest;
}

static u64 size_of(i64 number) { return number < 0 ? -(u64)number : (u64)number; }

i64 __divdi3(i64 number, i64 by) {
    u64 quotient = __udivdi3(size_of(number), size_of(by));
    return (number < 0) != (by < 0) ? -quotient : quotient;
}

i64 __moddi3(i64 number, i64 by) {
    u64 rest = __umoddi3(size_of(number), size_of(by));
    return number < 0 ? -rest : rest;
}

i64 __divmoddi4(i64 number, i64 by, i64 *rest) {
    i64 quotient = __divdi3(number, by);
    *rest = number - quotient * by;
    return quotient;
}

/* ---- Numbers of 128 bits, as Rust has them */

typedef struct {
    u64 low, high;
} u128;

static int is_less(u128 number, u128 other) { return number.high == other.high ? number.low < other.low : number.high < other.high; }

static u128 difference(u128 number, u128 other) {
    return (u128){number.low - other.low, number.high - other.high - (number.low < other.low)};
}

static u128 negated(u128 number) { return difference((u128){0, 0}, number); }

static u128 shifted(u128 number, int by) {
    if (by == 0) return number;
    if (by >= 64) return (u128){0, number.low << (by - 64)};
    return (u128){number.low << by, number.high << by | number.low >> (64 - by)};
}

static int zeros_before(u128 number) {
    if (number.high) return __builtin_clzll(number.high);
    return number.low ? 64 + __builtin_clzll(number.low) : 128;
}

static u128 by_word(u128 number, u32 by, u128 *rest) {
    u32 left = (number.high >> 32) % by, upper = (number.high >> 32) / by, words[3];
    words[0] = divide(left, (u32)number.high, by, &left);
    words[1] = divide(left, number.low >> 32, by, &left);
    words[2] = divide(left, (u32)number.low, by, &left);
    *rest = (u128){left, 0};
    return (u128){(u64)words[1] << 32 | words[2], (u64)upper << 32 | words[0]};
}

static u128 quotient_of(u128 number, u128 by, u128 *rest) {
    u128 quotient = {0, 0};
    int shift = zeros_before(by) - zeros_before(number);
    if (!by.high && !(by.low >> 32)) return by_word(number, (u32)by.low, rest);
    for (; shift >= 0; shift--) {
        quotient = shifted(quotient, 1);
        if (is_less(number, shifted(by, shift))) continue;
        number = difference(number, shifted(by, shift));
        quotient.low |= 1;
    }
    *rest = number;
    return quotient;
}

u128 __udivti3(u128 number, u128 by) {
    u128 rest;
    return quotient_of(number, by, &rest);
}

u128 __umodti3(u128 number, u128 by) {
    u128 rest;
    quotient_of(number, by, &rest);
    return rest;
}

static int is_negative(u128 number) { return number.high >> 63; }

static u128 size_of_wide(u128 number) { return is_negative(number) ? negated(number) : number; }

u128 __divti3(u128 number, u128 by) {
    u128 quotient = __udivti3(size_of_wide(number), size_of_wide(by));
    return is_negative(number) != is_negative(by) ? negated(quotient) : quotient;
}

u128 __modti3(u128 number, u128 by) {
    u128 rest = __umodti3(size_of_wide(number), size_of_wide(by));
    return is_negative(number) ? negated(rest) : rest;
}

/* ---- Bits */

int __popcountsi2(u32 bits) {
    int count = 0;
    for (; bits; bits &= bits - 1) count++;
    return count;
}

int __popcountdi2(u64 bits) { return __popcountsi2((u32)bits) + __popcountsi2((u32)(bits >> 32)); }

int __paritysi2(u32 bits) { return __popcountsi2(bits) & 1; }

int __paritydi2(u64 bits) { return __popcountdi2(bits) & 1; }

/* The number of zeros is undefined for 0. */
int __clzsi2(u32 bits) { return __builtin_clz(bits); }

int __clzdi2(u64 bits) { return bits >> 32 ? __builtin_clz(bits >> 32) : 32 + __builtin_clz((u32)bits); }

int __ctzsi2(u32 bits) { return __builtin_ctz(bits); }

int __ctzdi2(u64 bits) { return (u32)bits ? __builtin_ctz((u32)bits) : 32 + __builtin_ctz(bits >> 32); }

int __ffssi2(u32 bits) { return bits ? __builtin_ctz(bits) + 1 : 0; }

int __ffsdi2(u64 bits) { return bits ? __ctzdi2(bits) + 1 : 0; }

/* Bits after the sign that are like it. */
int __clrsbsi2(i32 number) {
    u32 other = number ^ number >> 31;
    return other ? __builtin_clz(other) - 1 : 31;
}

int __clrsbdi2(i64 number) {
    u64 other = number ^ number >> 63;
    return other ? __clzdi2(other) - 1 : 63;
}

u32 __bswapsi2(u32 number) { return __builtin_bswap32(number); }

u64 __bswapdi2(u64 number) { return __builtin_bswap64(number); }

/* 0, 1 or 2: less, equal or more. */
int __cmpdi2(i64 number, i64 other) { return 1 + (number > other) - (number < other); }

int __ucmpdi2(u64 number, u64 other) { return 1 + (number > other) - (number < other); }

/* ---- Numbers of -ftrapv, which end the program where the result has no room */

#define TRAPS(name, type, calculated) \
    type name(type number, type other) { \
        type result; \
        if (calculated(number, other, &result)) __builtin_trap(); \
        return result; \
    }
TRAPS(__addvsi3, i32, __builtin_add_overflow)
TRAPS(__addvdi3, i64, __builtin_add_overflow)
TRAPS(__subvsi3, i32, __builtin_sub_overflow)
TRAPS(__subvdi3, i64, __builtin_sub_overflow)
TRAPS(__mulvsi3, i32, __builtin_mul_overflow)
TRAPS(__mulvdi3, i64, __builtin_mul_overflow)

i32 __negvsi2(i32 number) { return __subvsi3(0, number); }

i64 __negvdi2(i64 number) { return __subvdi3(0, number); }

i32 __absvsi2(i32 number) { return number < 0 ? __negvsi2(number) : number; }

i64 __absvdi2(i64 number) { return number < 0 ? __negvdi2(number) : number; }
