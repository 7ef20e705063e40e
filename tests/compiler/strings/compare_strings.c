/* Compares compiler/runtime/strings.c with the system's C library: each size, place and value that is near a limit, then random ones, as
   many calls as the first argument says, by the number that the second one gives. It prints where each function first differs. A third
   argument names a function, which alone is tried, up to its first difference.

   IN_A_BOX there is no C library, and functions that go by single bytes stand for it. */
#include "strings.h"

#ifdef IN_A_BOX
#define RIGHT(name) plain_##name
typedef volatile u8 Byte; /* of which compilers make no words, and no calls of the functions that are tried */

static void *plain_memmove(void *to, const void *from, size_t len) {
    Byte *a = to;
    const Byte *b = from;
    if (a < b)
        for (size_t k = 0; k < len; k++) a[k] = b[k];
    else
        for (size_t k = len; k-- > 0;) a[k] = b[k];
    return to;
}

static void *plain_memcpy(void *to, const void *from, size_t len) {
    return plain_memmove(to, from, len);
}

static void *plain_memset(void *at, int byte, size_t len) {
    for (size_t k = 0; k < len; k++) ((Byte *)at)[k] = (u8)byte;
    return at;
}

static void *plain_memchr(const void *from, int byte, size_t len) {
    for (const Byte *at = from; len > 0; at++, len--)
        if (*at == (u8)byte) return (void *)at;
    return 0;
}

static size_t plain_strlen(const char *text) {
    size_t len = 0;
    while (((const Byte *)text)[len]) len++;
    return len;
}

static int plain_memcmp(const void *one, const void *other, size_t len) {
    const Byte *a = one, *b = other;
    for (; len > 0; a++, b++, len--)
        if (*a != *b) return *a - *b;
    return 0;
}

static int plain_strncmp(const char *one, const char *other, size_t len) {
    const Byte *a = (const Byte *)one, *b = (const Byte *)other;
    for (; len > 0; a++, b++, len--)
        if (*a != *b || *a == 0) return *a - *b;
    return 0;
}

static int plain_strcmp(const char *a, const char *b) {
    return plain_strncmp(a, b, SIZE_MAX);
}

static void end(void) {
    nc_exit(1);
}
#else
#define RIGHT(name) name

static void end(void) {
    _exit(1);
}
#endif

/* ---- What is tried */

enum { AROUND = 32, LARGEST = 1030, NOISE = 8192, PLACES = 9 };
#define COUNT(list) (sizeof(list) / sizeof *(list))

static const u8 VALUES[] = {0, 1, 2, 'a', 0x7E, 0x7F, 0x80, 0x81, 0xFE, 0xFF};
static u8 noise[NOISE], mirror[NOISE];
static u64 state;
static u32 calls, wrong;
static const char *doing, *ending = "";

static u32 number_of(const char *text) {
    u32 number = 0;
    while (*text) number = 10 * number + (u32)(*text++ - '0');
    return number;
}

static u32 chance(u32 below) {
    state ^= state << 13;
    state ^= state >> 7;
    state ^= state << 17;
    return (u32)(state >> 32) % below;
}

/* Operands are told by where they begin in their pages. */
static void report(const char *name, const void *a, const void *b, size_t len) {
    static const char *told[16];
    int k = 0;
    wrong++;
    while (told[k] && !same(told[k], name)) k++;
    if (told[k]) return;
    told[k] = name;
    say(name);
    say(" differs for ");
    say_number((u32)len);
    say(" bytes, at ");
    say_number((u32)((size_t)a % PAGE));
    say(" and ");
    say_number((u32)((size_t)b % PAGE));
    say("\n");
    if (same(name, ending)) end();
}

#define CHECK(name, is_right, a, b, len) \
    do { \
        calls++; \
        doing = name; \
        if (!(is_right)) report(name, a, b, len); \
    } while (0)

#ifndef IN_A_BOX
static void go_astray(int number) {
    (void)number;
    say(doing);
    say(" goes beyond the end of its memory\n");
    end();
}
#endif

static int sign(int number) {
    return (number > 0) - (number < 0);
}

static void fill(u8 *at, size_t len) {
    RIGHT(memcpy)(at, noise + chance(NOISE - (u32)len), len);
}

/* Where `len` bytes begin: at 8 places around the end of a page, or so that they end where memory ends. */
static u8 *place(int which, unsigned k, size_t len) {
    return k < 8 ? ends[which] - 2 * PAGE - len / 2 - 4 + k : ends[which] - len;
}

/* All sizes up to 72, then those around powers of 2 and around the least that `rep` moves or sets, up to LARGEST. */
static size_t next_size(size_t len) {
    static const size_t from[] = {126, 188, 252, 320, 509, 1021}, to[] = {132, 204, 268, 324, 520, LARGEST};
    if (len < 72) return len + 1;
    for (unsigned k = 0; k < COUNT(from); k++)
        if (len < to[k]) return len < from[k] ? from[k] : len + 1;
    return LARGEST + 1;
}

/* ---- Bytes that are moved or set */

/* What lies around a result, up to where its memory ends. */
static u8 *behind(int which, u8 *at) {
    return at + AROUND < ends[which] ? at + AROUND : ends[which];
}

static void try_memcpy(int which, u8 *to, u8 *from, size_t len) {
    u8 *low = to - AROUND;
    size_t all = (size_t)(behind(which, to + len) - low);
    fill(low, all);
    fill(from, len);
    RIGHT(memcpy)(mirror, low, all);
    RIGHT(memcpy)(mirror + AROUND, from, len);
    CHECK("memcpy", own_memcpy(to, from, len) == to && RIGHT(memcmp)(low, mirror, all) == 0, to, from, len);
}

static void try_memmove(int which, u8 *to, u8 *from, size_t len) {
    u8 *low = (to < from ? to : from) - AROUND;
    size_t all = (size_t)(behind(which, (to > from ? to : from) + len) - low);
    fill(low, all);
    RIGHT(memcpy)(mirror, low, all);
    RIGHT(memmove)(mirror + (to - low), mirror + (from - low), len);
    CHECK("memmove", own_memmove(to, from, len) == to && RIGHT(memcmp)(low, mirror, all) == 0, to, from, len);
}

static void try_memset(int which, u8 *at, int byte, size_t len) {
    u8 *low = at - AROUND;
    size_t all = (size_t)(behind(which, at + len) - low);
    fill(low, all);
    RIGHT(memcpy)(mirror, low, all);
    RIGHT(memset)(mirror + AROUND, byte, len);
    CHECK("memset", own_memset(at, byte, len) == at && RIGHT(memcmp)(low, mirror, all) == 0, at, at, len);
}

static void each_memcpy(int which) {
    for (size_t len = 0; len <= LARGEST; len = next_size(len))
        for (unsigned k = 0; k < PLACES * PLACES; k++)
            try_memcpy(which, place(which, k % PLACES, len), place(!which, k / PLACES, len), len);
}

/* At all distances at which the bytes overlap, and at some more: the upper of the two at each place. */
static void each_memmove(int which) {
    for (size_t len = 0; len <= LARGEST; len = next_size(len))
        for (unsigned k = 0; k < PLACES; k++)
            for (size_t by = 0; by < len + 9; by += 72 < by && by + 72 < len ? 7 : 1) {
                u8 *at = place(which, k, len);
                try_memmove(which, at, at - by, len);
                try_memmove(which, at - by, at, len);
            }
}

static void each_memset(int which) {
    static const int more[] = {0x180, -1, -128, 0x7FFFFF00};
    for (size_t len = 0; len <= LARGEST; len = next_size(len))
        for (unsigned k = 0; k < PLACES; k++) {
            for (unsigned v = 0; v < COUNT(VALUES); v++) try_memset(which, place(which, k, len), VALUES[v], len);
            for (unsigned v = 0; v < COUNT(more); v++) try_memset(which, place(which, k, len), more[v], len);
        }
}

/* ---- Bytes that are looked for */

static void try_memchr(const u8 *at, int byte, size_t len) {
    CHECK("memchr", own_memchr(at, byte, len) == RIGHT(memchr)(at, byte, len), at, at, len);
}

static void try_strlen(const u8 *at) {
    CHECK("strlen", own_strlen((const char *)at) == RIGHT(strlen)((const char *)at), at, at, RIGHT(strlen)((const char *)at));
}

/* Bytes that differ from one in a way that a sum or a difference of words may take for it. */
static u8 similar(u8 byte, unsigned k) {
    static const u8 other[] = {0x01, 0x80, 0x81, 0x7F, 0xFF, 0x02};
    return byte ^ other[k % COUNT(other)];
}

/* Of bytes that are similar to `byte` all but the one at `hit`, if that is among them. The byte before them is another one of those. */
static void lay(int which, u8 *at, size_t len, u8 byte, size_t hit, unsigned k) {
    for (u8 *to = at; to < behind(which, at + len); to++) *to = similar(byte, k < 6 ? k : chance(6));
    at[-1] = byte;
    if (hit < len) at[hit] = byte;
}

static void each_memchr(int which) {
    for (size_t len = 0; len < 40; len++)
        for (size_t hit = 0; hit <= len + 5; hit++)
            for (unsigned k = 0; k < PLACES * COUNT(VALUES) * 7; k++) {
                u8 *at = place(which, k % PLACES, len), byte = VALUES[k / PLACES % COUNT(VALUES)];
                lay(which, at, len, byte, hit, k % 7);
                if (hit >= len && at + hit < ends[which]) at[hit] = byte;
                if (hit < len && k % 5 == 0) at[hit + chance((u32)(len - hit))] = byte;
                try_memchr(at, byte + (int)chance(3) * 256, len);
                if (hit < len) try_memchr(at, byte, SIZE_MAX - chance(9));
            }
}

static void each_strlen(int which) {
    for (size_t len = 0; len < 80; len++)
        for (unsigned k = 0; k < PLACES * 7; k++) {
            u8 *at = place(which, k % PLACES, len + 1);
            lay(which, at, len + 1, 0, len, k % 7);
            try_strlen(at);
        }
}

/* ---- Bytes that are compared */

static void try_memcmp(const u8 *a, const u8 *b, size_t len) {
    CHECK("memcmp", sign(own_memcmp(a, b, len)) == sign(RIGHT(memcmp)(a, b, len)), a, b, len);
}

static void try_strcmp(const u8 *a, const u8 *b) {
    const char *x = (const char *)a, *y = (const char *)b;
    CHECK("strcmp", sign(own_strcmp(x, y)) == sign(RIGHT(strcmp)(x, y)), a, b, RIGHT(strlen)(x));
}

static void try_strncmp(const u8 *a, const u8 *b, size_t len) {
    const char *x = (const char *)a, *y = (const char *)b;
    CHECK("strncmp", sign(own_strncmp(x, y, len)) == sign(RIGHT(strncmp)(x, y, len)), a, b, len);
}

/* The same bytes at two places, without zeros where they are text. */
static void lay_two(u8 *a, u8 *b, size_t len, int is_text) {
    fill(a, len);
    for (size_t k = 0; k < len; k++) b[k] = a[k] = a[k] || !is_text ? a[k] : 0x80;
}

/* Equal bytes, then such as differ first in one way and then in others. */
static void each_memcmp(int which) {
    for (size_t len = 0; len <= LARGEST; len = next_size(len))
        for (unsigned k = 0; k < PLACES * PLACES; k++) {
            u8 *a = place(which, k % PLACES, len), *b = place(!which, k / PLACES, len);
            lay_two(a, b, len, 0);
            try_memcmp(a, b, len);
            for (size_t first = 0; first < len; first += 40 < len ? chance(9) + 1 : 1) {
                lay_two(a, b, len, 0);
                a[first] = VALUES[chance(COUNT(VALUES))];
                b[first] = VALUES[chance(COUNT(VALUES))];
                for (size_t more = first + 1; more < len; more++) b[more] += (u8)chance(256);
                try_memcmp(a, b, len);
            }
        }
}

/* Texts that are equal for `len` bytes. Then one has `x` and the other `y`, and each has up to 6 bytes more. */
static void try_texts(int which, unsigned k, size_t len, unsigned values, int has_limit) {
    u8 x = VALUES[values % COUNT(VALUES)], y = VALUES[values / COUNT(VALUES)];
    size_t m = x ? 2 + chance(6) : 1, n = y ? 2 + chance(6) : 1;
    u8 *a = place(which, k % PLACES, len + m), *b = place(!which, k / PLACES, len + n);
    fill(a + len, m);
    fill(b + len, n);
    lay_two(a, b, len, 1);
    a[len] = x;
    b[len] = y;
    a[len + m - 1] = b[len + n - 1] = 0;
    if (!has_limit) {
        try_strcmp(a, b);
        return;
    }
    for (size_t limit = len < 3 ? 0 : len - 3; limit < len + 4; limit++) try_strncmp(a, b, limit);
    try_strncmp(a, b, SIZE_MAX - chance(9));
}

static void each_text(int which, int has_limit) {
    for (size_t len = 0; len < 48; len++)
        for (unsigned k = 0; k < PLACES * PLACES; k++)
            for (unsigned v = 0; v < COUNT(VALUES) * COUNT(VALUES); v += 1 + chance(5)) try_texts(which, k, len, v, has_limit);
}

static void each_strcmp(int which) {
    each_text(which, 0);
}

/* Also texts without an end. */
static void each_strncmp(int which) {
    each_text(which, 1);
    for (size_t len = 0; len <= LARGEST; len = next_size(len))
        for (unsigned k = 0; k < PLACES * PLACES; k++) {
            u8 *a = place(which, k % PLACES, len), *b = place(!which, k / PLACES, len);
            lay_two(a, b, len, 1);
            try_strncmp(a, b, len);
        }
}

/* ---- Many bytes, and random ones */

static void large(int which) {
    static const size_t sizes[] = {1 << 20, (1 << 20) + 5, 3 << 20};
    for (unsigned k = 0; k < COUNT(sizes); k++) {
        size_t len = sizes[k];
        u8 *a = ends[which] - len - k, *b = ends[!which] - len;
        for (size_t m = 0; m < len; m++) b[m] = noise[m % (NOISE - 3)] | 1;
        CHECK("memcpy", own_memcpy(a, b, len) == a && RIGHT(memcmp)(a, b, len) == 0, a, b, len);
        CHECK("memmove", own_memmove(a - 5, a, len) == a - 5 && RIGHT(memcmp)(a - 5, b, len) == 0, a - 5, a, len);
        CHECK("memmove", own_memmove(a, a - 5, len) == a && RIGHT(memcmp)(a, b, len) == 0, a, a - 5, len);
        try_memcmp(a, b, len);
        try_memchr(a, 0, len);
        a[len - 1] = b[len - 1] = 0;
        try_strlen(a);
        try_strcmp(a, b);
        try_strncmp(a, b, len);
        a[len - 2] ^= 0x80;
        try_memcmp(a, b, len);
        try_strcmp(a, b);
        CHECK("memset", own_memset(a, 7, len) == a && a[-1] != 7 && a[0] == 7 && RIGHT(memcmp)(a, a + 1, len - 1) == 0, a, a, len);
    }
}

/* Each function with sizes up to some hundreds, of which most are small, and bytes that are often the same. */
static void random_round(int which) {
    size_t len = chance(1u << (1 + chance(10))), hit = chance((u32)len + 1);
    u8 *a = ends[which] - len - 1 - chance(chance(4) ? 4 : 3000), *b = ends[!which] - len - 1 - chance(chance(4) ? 4 : 3000);
    try_memcpy(which, a, b, len);
    try_memmove(which, a, a - chance((u32)len + 9), len);
    try_memmove(which, a - chance((u32)len + 9), a, len);
    try_memset(which, a, (int)chance(256), len);
    for (size_t k = 0; k < len; k++) a[k] = b[k] = VALUES[1 + chance(COUNT(VALUES) - 1)];
    a[hit] ^= (u8)(chance(3) * 0x7F);
    a[len] = b[len] = 0;
    try_memcmp(a, b, len);
    try_memchr(a, VALUES[chance(COUNT(VALUES))], len);
    try_strlen(a);
    try_strcmp(a, b);
    try_strncmp(a, b, chance((u32)len + 9));
}

/* clang-format off */
static const struct {
    const char *name;
    void (*each)(int);
} TESTS[] = {
    {"memcpy", each_memcpy}, {"memmove", each_memmove}, {"memset", each_memset}, {"strlen", each_strlen},
    {"memchr", each_memchr}, {"memcmp", each_memcmp}, {"strcmp", each_strcmp}, {"strncmp", each_strncmp},
};
/* clang-format on */

int main(int count, char **words) {
    u32 rounds = count > 2 ? number_of(words[1]) : 0;
    state = 88172645463325252ull + (count > 2 ? number_of(words[2]) * 0x9E3779B97F4A7C15ull : 0);
    if (count > 3) ending = words[3];
    make_memory();
#ifndef IN_A_BOX
    signal(SIGSEGV, go_astray);
#endif
    for (size_t k = 0; k < NOISE; k++) noise[k] = (u8)chance(256);
    for (unsigned k = 0; k < 2 * COUNT(TESTS); k++)
        if (!*ending || same(ending, TESTS[k / 2].name)) TESTS[k / 2].each(k % 2);
    for (int which = 0; which < 2; which++) large(which);
    for (u32 tried = 0; tried < rounds; tried++) random_round((int)(tried % 2));
    say_number(calls);
    say(" calls, ");
    say_number(wrong);
    say(" wrong\n");
    return wrong || rounds == 0;
}
