/* Switches by tables whose cases need what registers have: arguments for a function that is called there, or all values of a function. */

#define FAST __attribute__((fastcall, noinline))
#define THREE __attribute__((regparm(3), noinline))
#define PLAIN __attribute__((noinline))

volatile int seen;

/* The callers' arguments stay in their registers from the beginning of a function, past the jump, to the call. */
FAST int fast_sum(int a, int b) {
    return a * 10 + b;
}
FAST int fast_difference(int a, int b) {
    return a * 10 - b;
}
FAST int fast_both(int a, int b, int which) {
    switch (which) {
    case 0: return fast_sum(a, b);
    case 1: seen = 1; return fast_difference(a, b);
    case 2: return fast_sum(b, a);
    case 3: seen = a; return fast_sum(a, b) + 1;
    case 4: return fast_difference(a, a);
    case 5: return fast_difference(b, b) - 1;
    case 6: seen = b; return fast_difference(a, b);
    default: return which;
    }
}

THREE int three_sum(int a, int b, int c) {
    return a * 100 + b * 10 + c;
}
THREE int three_product(int a, int b, int c) {
    return a * b * c;
}
THREE int three_both(int which, int b, int c) {
    switch (which) {
    case 0: return three_product(which, b, c);
    case 1: return three_sum(which, b, c);
    case 2: seen = 2; return three_sum(which, b, c);
    case 3: return three_product(c, b, which);
    case 4: return three_sum(7, b, c);
    case 5: return three_product(which, b, c) + 1;
    case 6: return three_sum(b, c, which) - 1;
    default: return c;
    }
}

/* Each case runs on into the next one, and what was computed before is needed after them. */
PLAIN int falling(int which, const int *list) {
    int a = list[0], b = list[1] * a, c = list[2] + b, d = list[3] ^ c, e = list[4] - d;
    switch (which) {
    case 0: a += b; /* fall through */
    case 1: b ^= c; /* fall through */
    case 2: c -= d; /* fall through */
    case 3: d += e; /* fall through */
    case 4: e = -e; /* fall through */
    case 5: a ^= e; break;
    case 7: a = 0; break;
    default: e = 9;
    }
    return a + 3 * b + 5 * c + 7 * d + 9 * e + which;
}

/* Two loops over one code, with places from which they jump that a compiler may copy. */
PLAIN unsigned runs(const unsigned char *code) {
    unsigned sum = 1, other = 2, rounds = 0, stack[4] = {0, 0, 0, 0};
    for (;; rounds++) {
        switch (*code++) {
        case 0: return sum + 100 * other + 10000 * rounds + stack[0];
        case 1: sum += other; break;
        case 2: other ^= sum; break;
        case 3: stack[sum & 3] = other; break;
        case 4: other += stack[rounds & 3]; continue;
        case 5: sum = (sum << 1) | (sum >> 31); break;
        case 6: other = fast_sum((int)other & 7, (int)sum & 7); break;
        case 7: sum -= rounds; break;
        }
        switch (rounds & 7) {
        case 0: sum++; break;
        case 1: other++; break;
        case 2: sum ^= 3; break;
        case 3: other ^= 5; break;
        case 4: stack[0] += sum; break;
        case 5: stack[1] += other; break;
        }
    }
}

/* Nearly each case calls a function of another file, so that no register is known to be free; one runs on into the next. */
int from_object(int n);
PLAIN int outside(const unsigned char *code, int a, int b, int c) {
    for (int d = 1;; d++) {
        switch (*code++) {
        case 0: return a + 3 * b + 5 * c + 7 * d;
        case 1: a = from_object(a); break;
        case 2: b += from_object(c); break;
        case 3: c = from_object(b) - a; /* fall through */
        case 4: a = from_object(b) ^ d; break;
        case 5:
            from_object(c);
            c++;
            break;
        case 6: b = from_object(d) - c; break;
        }
    }
}

/* A case that hardly ever comes may be apart from its function. */
__attribute__((cold, noinline)) static int rare(int a) {
    return seen = a;
}
__attribute__((section(".text.elsewhere"), noinline)) int parted(int which, int a) {
    switch (which) {
    case 10: return a + 1;
    case 11: return a * a;
    case 12: rare(a); return seen + 3;
    case 13: return a << 3;
    case 14: return rare(a + 1);
    case 15: return a ^ 21;
    case 16: return -a;
    }
    return 0;
}
extern __typeof(parted) parted_too __attribute__((weak, alias("parted")));

int wrong(void) {
    static const unsigned char code[] = {1, 2, 3, 4, 5, 6, 7, 1, 4, 2, 6, 3, 3, 5, 0};
    static const int list[] = {3, 5, 7, 11, 13};
    int fast = 0, three = 0, fallen = 0, apart = 0;
    for (int which = 0; which < 9; which++) {
        fast = fast * 3 + fast_both(which + 2, 5, which);
        three = three * 3 + three_both(which, 4, which + 1);
        fallen = fallen * 3 + falling(which, list);
        apart = apart * 3 + parted(which + 9, which) + parted_too(which + 9, 2);
    }
    /* The numbers are those of x86-64 code by gcc and clang without tables. */
    return (fast != 277940) + (three != 567285) + (fallen != 2809824) + (apart != 23922) + (runs(code) != 147182u) +
           (outside(code, 1, 2, 3) != 186);
}
