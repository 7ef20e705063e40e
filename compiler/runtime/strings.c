/* Functions of <string.h> in place of musl's, for a processor without SSE.

   Words are read at any place, and beyond what a function is given only within a page that has a byte of it, since memory ends where a page
   ends. The direction flag is clear at each call. A program may have functions of these names itself. */

#ifndef __clang__
#pragma GCC optimize("no-tree-loop-distribute-patterns") /* which makes calls of these functions out of their loops */
#endif

typedef unsigned char u8;
typedef unsigned int u32;
typedef __SIZE_TYPE__ size_t;
typedef u32 __attribute__((may_alias, aligned(1))) Word; /* at any place */

/* On an Intel Xeon (Cascade Lake) `rep movsl` and `rep stosl` take 15 ns to begin. `rep movsl` takes 20 ns more in segments whose base
   isn't 0: there a loop is faster up to some 400 bytes, and elsewhere up to some 180 (tests/compiler/strings/run --time). */
enum { LONG_COPY = 256, LONG_FILL = 192 };
enum { PAGE = 4096 };

#define ONES 0x01010101u
#define HIGHS 0x80808080u
#define RARE(condition) __builtin_expect(!!(condition), 0)
#define INLINE static inline __attribute__((always_inline))
#define WEAK __attribute__((weak))

INLINE u32 word(const void *at) { return *(const Word *)at; }
INLINE void put(void *at, u32 value) { *(Word *)at = value; }
INLINE size_t place_of(const void *at) { return (size_t)at; }

/* ---- Bytes that are moved or set */

/* Fewer than 8 bytes. All are read before any is written, so they may overlap. */
INLINE void copy_few(u8 *to, const u8 *from, size_t len) {
    if (len >= 4) {
        u32 begin = word(from), end = word(from + len - 4);
        put(to, begin);
        put(to + len - 4, end);
    } else if (len > 0) {
        u8 begin = from[0], middle = from[len / 2], end = from[len - 1];
        to[0] = begin;
        to[len / 2] = middle;
        to[len - 1] = end;
    }
}

INLINE void copy_8(u8 *to, const u8 *from) {
    u32 low = word(from), high = word(from + 4);
    put(to, low);
    put(to + 4, high);
}

/* Upwards, so `to` may be below `from` and overlap it. The last 8 bytes are read before any that overlaps them is written. */
static void *copy(void *made, const void *given, size_t len) {
    u8 *to = made;
    const u8 *from = given;
    if (len < 8) {
        copy_few(to, from, len);
        return made;
    }
    u8 *last = to + len - 8;
    u32 low = word(from + len - 8), high = word(from + len - 4);
    if (len >= LONG_COPY) {
        size_t words = (size_t)(last - to + 3) / 4;
        __asm__ volatile("rep movsl" : "+D"(to), "+S"(from), "+c"(words) : : "memory");
    }
    for (; to < last; to += 8, from += 8) copy_8(to, from);
    put(last, low);
    put(last + 4, high);
    return made;
}

WEAK __attribute__((alias("copy"))) void *memcpy(void *, const void *, size_t);

/* Downwards only where the bytes above `from` overlap `to`. The first 8 bytes are read before any that overlaps them is written. */
WEAK void *memmove(void *to, const void *from, size_t len) {
    if (len < 8 || place_of(to) - place_of(from) >= len) return copy(to, from, len);
    u32 low = word(from), high = word((const u8 *)from + 4);
    for (size_t left = len; left > 8; left -= 8) copy_8((u8 *)to + left - 8, (const u8 *)from + left - 8);
    put(to, low);
    put((u8 *)to + 4, high);
    return to;
}

INLINE void fill_few(u8 *at, u32 value, size_t len) {
    if (len >= 4) {
        put(at, value);
        put(at + len - 4, value);
    } else if (len > 0) {
        at[0] = at[len / 2] = at[len - 1] = (u8)value;
    }
}

WEAK void *memset(void *made, int byte, size_t len) {
    u8 *at = made;
    u32 value = (u8)byte * ONES;
    if (len < 8) {
        fill_few(at, value, len);
        return made;
    }
    u8 *last = at + len - 8;
    if (len >= LONG_FILL) {
        put(at, value);
        at += 4 - place_of(at) % 4;
        size_t words = (size_t)(last - at + 3) / 4;
        __asm__ volatile("rep stosl" : "+D"(at), "+c"(words) : "a"(value) : "memory");
    }
    for (; at < last; at += 8) {
        put(at, value);
        put(at + 4, value);
    }
    put(last, value);
    put(last + 4, value);
    return made;
}

/* ---- Bytes that are looked for */

/* The highest bit of each byte that is zero, and perhaps of others above the lowest of them. */
INLINE u32 zeros(u32 value) { return (value - ONES) & ~value & HIGHS; }

/* Whether a byte may be zero: it is, or it is above 0x80. */
INLINE int may_have_zero(u32 value) { return ((value - ONES) & HIGHS) != 0; }

INLINE size_t first_of(u32 found) { return (size_t)__builtin_ctz(found) / 8; }

/* The word at any place, exclusive or `all`. Bytes of the next page are ones. */
INLINE u32 first_word(const u8 *at, u32 all) {
    if (RARE(place_of(at) % PAGE > PAGE - 4)) {
        u32 below = place_of(at) % 4 * 8;
        return (word(at - below / 8) ^ all) >> below | ~(~0u >> below);
    }
    return word(at) ^ all;
}

/* The first byte of those that `all` consists of, or, where `has_end`, a null pointer if it isn't among `len`. The inner loop passes over
   8 bytes at once, which halves the time. It reads the second word only if the first one ends nothing. */
INLINE const u8 *seek(const u8 *at, u32 all, size_t len, int has_end) {
    u32 found = zeros(first_word(at, all));
    for (; !found; found = zeros(word(at) ^ all)) {
        size_t step = 4 - place_of(at) % 4;
        if (has_end && len <= step) return 0;
        at += step;
        len -= step;
        for (; (!has_end || len > 8) && !may_have_zero(word(at) ^ all) && !may_have_zero(word(at + 4) ^ all); at += 8) len -= 8;
    }
    return has_end && len <= first_of(found) ? 0 : at + first_of(found);
}

WEAK void *memchr(const void *from, int byte, size_t len) { return len > 0 ? (void *)seek(from, (u8)byte * ONES, len, 1) : 0; }

WEAK size_t strlen(const char *from) { return (size_t)(seek((const u8 *)from, 0, 0, 0) - (const u8 *)from); }

/* ---- Bytes that are compared */

/* The order of two different words by the first byte that differs. */
INLINE int order(u32 a, u32 b) { return __builtin_bswap32(a) < __builtin_bswap32(b) ? -1 : 1; }

INLINE int compare_few(const u8 *a, const u8 *b, size_t len) {
    for (; len > 0; a++, b++, len--)
        if (*a != *b) return *a - *b;
    return 0;
}

/* The first loop passes over 8 bytes at once. The last word may overlap the one before. */
WEAK int memcmp(const void *one, const void *other, size_t len) {
    const u8 *a = one, *b = other;
    size_t k = 0;
    if (len < 4) return compare_few(a, b, len);
    for (; k + 4 < len - 4; k += 8)
        if ((word(a + k) ^ word(b + k)) | (word(a + k + 4) ^ word(b + k + 4))) break;
    for (; k < len - 4; k += 4)
        if (word(a + k) != word(b + k)) return order(word(a + k), word(b + k));
    k = len - 4;
    return word(a + k) == word(b + k) ? 0 : order(word(a + k), word(b + k));
}

/* The difference of two words at the first byte that differs or is zero. */
INLINE int difference(u32 a, u32 b) {
    u32 below = (u32)__builtin_ctz(zeros(a) | (a ^ b)) / 8 * 8;
    return (int)(a >> below & 0xFF) - (int)(b >> below & 0xFF);
}

INLINE int goes_on(const u8 *a, const u8 *b) { return word(a) == word(b) && !may_have_zero(word(a)); }

/* Single bytes first, 8 and up to where `a` is aligned, since most calls end there. Then words up to where `b` ends its page, and so on. */
INLINE int compare(const u8 *a, const u8 *b, size_t len, int has_end) {
    for (;;) {
        for (const u8 *aligned = a + 8 + -place_of(a) % 4; a != aligned; a++, b++) {
            if (has_end && len-- == 0) return 0;
            if (*a != *b || *a == 0) return *a - *b;
        }
        size_t left = PAGE - place_of(b) % PAGE;
        if (has_end && left > len) left = len;
        len -= left / 4 * 4;
        for (; left >= 8 && goes_on(a, b) && goes_on(a + 4, b + 4); left -= 8) {
            a += 8;
            b += 8;
        }
        for (; left >= 4; left -= 4, a += 4, b += 4)
            if (word(a) != word(b) || zeros(word(a))) return difference(word(a), word(b));
    }
}

/* Most calls end at the first byte, for which no registers have to be kept. */
WEAK int strcmp(const char *a, const char *b) {
    return *a != *b ? *(const u8 *)a - *(const u8 *)b : compare((const u8 *)a, (const u8 *)b, 0, 0);
}

WEAK int strncmp(const char *a, const char *b, size_t len) { return compare((const u8 *)a, (const u8 *)b, len, 1); }
