/* Functions of other conventions: they keep all registers, or return a part of their result in %ecx. */

#ifndef __clang__
#pragma GCC target("general-regs-only") /* gcc wants that for such functions */
#endif

struct Three {
    int first, second, third;
};

__attribute__((no_caller_saved_registers, noinline)) static void quiet(void) {
    __asm__ volatile("");
}

__attribute__((noinline)) static int keeps(int a, int b, int c, int d, int e, int f, int g) {
    int p = a * b, q = b * c, r = c * d, s = d * e, t = e * f, u = f * g;
    quiet();
    return p + 2 * q + 3 * r + 5 * s + 7 * t + 9 * u;
}

#ifdef __clang__
__attribute__((preserve_most, noinline)) static void most(void) {
    __asm__ volatile("");
}
__attribute__((regcall, noinline)) static struct Three three(int a, int b) {
    return (struct Three){a + b, a - b, a * b};
}
__attribute__((swiftcall, noinline)) static struct Three swift(int a, int b) {
    return (struct Three){a ^ b, a | b, a & b};
}
static struct Three __regcall (*volatile pointer)(int, int) = three;
#else
static void most(void) {}
__attribute__((noinline)) static struct Three three(int a, int b) {
    return (struct Three){a + b, a - b, a * b};
}
__attribute__((noinline)) static struct Three swift(int a, int b) {
    return (struct Three){a ^ b, a | b, a & b};
}
static struct Three (*volatile pointer)(int, int) = three;
#endif

__attribute__((noinline)) static int keeps_most(int a, int b, int c, int d, int e, int f, int g) {
    int p = a * b, q = b * c, r = c * d, s = d * e, t = e * f, u = f * g;
    most();
    return p + 2 * q + 3 * r + 5 * s + 7 * t + 9 * u;
}

static int is_wrong(struct Three it, int first, int second, int third) {
    return it.first != first || it.second != second || it.third != third;
}

volatile int n = 3;

int wrong(void) {
    int failed = (keeps(n, 4, 5, 6, 7, 8, 9) != 1392) + (keeps_most(n, 4, 5, 6, 7, 8, 9) != 1392);
    return failed + is_wrong(three(n, 4), 7, -1, 12) + is_wrong(swift(n, 4), 7, 7, 0) + is_wrong(pointer(5, n - 1), 7, 3, 10);
}
