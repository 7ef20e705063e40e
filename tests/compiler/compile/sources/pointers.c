/* Functions with arguments in registers that are called by pointers in memory, and one that reads a register before it gives it a value. */

struct Object;
typedef int __attribute__((fastcall)) Fast(int, int, int);
typedef int __attribute__((thiscall)) Own(struct Object *, int);
typedef int __attribute__((regparm(3))) Three(int, int, int);
typedef int __attribute__((fastcall)) Chosen(struct Object *, int);
struct Object {
    int value;
    Fast *fast;
    Own *own;
    Three *three;
    Chosen *chosen;
};

static int __attribute__((fastcall)) fast(int a, int b, int c) {
    return a * 100 + b * 10 + c;
}
static int __attribute__((thiscall)) own(struct Object *object, int n) {
    return object->value + n;
}
static int __attribute__((regparm(3))) three(int a, int b, int c) {
    return a * 9 + b * 3 + c;
}
static int __attribute__((fastcall)) chosen(struct Object *object, int n) {
    return object->own(object, n) - object->value;
}

struct Object object = {7, fast, own, three, chosen};
struct Object *volatile pointer = &object;
Three *volatile three_pointer = three;
Fast *volatile fast_pointer = fast;

__attribute__((noinline)) static int calls(struct Object *at, int n) {
    return at->fast(1, n, 3) + at->own(at, n) + at->three(n, 2, 1) + at->chosen(at, n) + fast_pointer(n, 4, n) + three_pointer(5, n, n);
}

/* These pass on what they got, in the same registers. */
__attribute__((noinline, fastcall)) int passes(struct Object *at, int n) {
    return at->chosen(at, n);
}
__attribute__((noinline, thiscall)) int passes_own(struct Object *at, int n) {
    return at->own(at, n);
}
__attribute__((noinline, regparm(3))) int passes_three(int a, int b, int c) {
    return three_pointer(a, b, c);
}
__attribute__((noinline, fastcall)) int passes_fast(int a, int b, int c) {
    return fast_pointer(a, b, c);
}

int count;
__attribute__((noinline)) int sometimes(int n, int (*next)(int)) {
    count = n;
    if (n > 3) return next(n);
    count++;
    return 2;
}
__attribute__((noinline)) static int halved(int n) {
    return n / 2;
}
int (*volatile sometimes_next)(int) = halved;

volatile int first, second;
volatile unsigned char kept;

/* gcc -Os keeps `last` in %ecx, and doesn't see that the first round never reads it. */
static int reads(int n, const unsigned char *list, int *sum) {
    unsigned char last;
    int has_last = 0, a = first, b = second, c = *sum;
    for (;;) {
        if (n == 0) {
            if (has_last) kept = last;
            break;
        }
        last = list[n] + a;
        a += b, b ^= c, c += n * a;
        has_last = 1;
        n--;
    }
    *sum = a + b + c;
    return n;
}
int (*volatile reads_pointer)(int, const unsigned char *, int *) = reads;

int wrong(void) {
    static const unsigned char list[] = {5, 6, 7};
    struct Object *at = pointer;
    int sum = 1, none = 4, failed = calls(at, 2) != 123 + 9 + 25 + 2 + 242 + 53;
    failed += (passes(at, 5) != 5) + (passes_own(at, 5) != 12) + (passes_three(1, 2, 3) != 18) + (passes_fast(1, 2, 3) != 123);
    failed += (sometimes(10, sometimes_next) != 5 || count != 10) + (sometimes(1, sometimes_next) != 2 || count != 2);
    failed += (reads_pointer(2, list, &sum) != 0 || kept != 6 || sum != 3) + (reads_pointer(0, list, &none) != 0 || none != 4);
    return failed;
}
