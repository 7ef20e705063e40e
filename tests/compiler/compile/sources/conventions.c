/* Calling conventions: arguments in registers, structs and 64-bit numbers that are returned, and calls through memory. */

typedef unsigned long long u64;
struct Three {
    int a, b, c;
};
struct Object {
    int value;
    int (*cdecl_call)(struct Object *, int);
    int(__attribute__((regparm(2))) * in_registers)(struct Object *, int);
    int(__attribute__((stdcall)) * popping)(struct Object *, int);
};

static int plain(struct Object *object, int n) {
    return object->value + n;
}
static int __attribute__((regparm(2))) in_registers(struct Object *object, int n) {
    return object->value - n;
}
static int __attribute__((stdcall)) popping(struct Object *object, int n) {
    return object->value * n;
}
static int __attribute__((fastcall, noinline)) fast(int a, int b) {
    return a * 10 + b;
}
static int __attribute__((regparm(3), noinline)) three(int a, int b, int c) {
    return a * 100 + b * 10 + c;
}

struct Object object = {20, plain, in_registers, popping};
struct Object *volatile pointer = &object;

__attribute__((noinline)) struct Three ordered(int a, int b, int c) {
    struct Three made = {c, b, a};
    return made;
}

__attribute__((noinline)) static u64 wide(unsigned high, unsigned low) {
    return (u64)high << 32 | low;
}

__attribute__((noinline)) static int tail(struct Object *object, int n) {
    return object->cdecl_call(object, n);
}

__attribute__((noinline)) static int sum(int count, ...) {
    __builtin_va_list rest;
    int total = 0;
    __builtin_va_start(rest, count);
    while (count-- > 0) total += __builtin_va_arg(rest, int);
    __builtin_va_end(rest);
    return total;
}

int wrong(void) {
    struct Object *at = pointer;
    struct Three made = ordered(1, 2, 3);
    return (at->cdecl_call(at, 22) != 42) + (at->in_registers(at, 5) != 15) + (at->popping(at, 3) != 60) + (fast(4, 2) != 42) +
           (three(1, 2, 3) != 123) + (made.a != 3 || made.c != 1) + (wide(7, 9) != 30064771081ull) + (tail(at, 1) != 21) +
           (sum(3, 10, 12, 20) != 42);
}
