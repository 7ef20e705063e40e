/* Switches by tables: one that jumps with many values alive, and one in a loop. */

volatile int input = 3;

__attribute__((noinline)) static int alive(int which, int *list, int a, int b, int c) {
    switch (which) {
    case 0: return a + b * c;
    case 1: list[0] = a; return b - c;
    case 2: list[1] = b; return a * which + c;
    case 3: list[2] = c; return a + b + c + which;
    case 4: list[0] = which; return a - b - c;
    case 5: return list[2] + a;
    case 6: return which * a * b;
    default: return -1;
    }
}

__attribute__((noinline)) static unsigned steps(const char *text) {
    unsigned sum = 0;
    for (; *text; text++) {
        switch (*text) {
        case 'a': sum += 1; break;
        case 'b': sum *= 3; break;
        case 'c': sum ^= 85; break;
        case 'd': sum <<= 1; break;
        case 'e': sum -= 7; break;
        case 'f': sum = ~sum; break;
        case 'g': sum += sum >> 3; break;
        }
    }
    return sum;
}

int wrong(void) {
    int list[3] = {0, 0, 0};
    int sum = 0;
    for (int which = 0; which < 8; which++) sum = sum * 3 + alive(which, list, input + 2, input + 4, input);
    return (sum != 64961) + (list[0] != 4) + (list[1] != 7) + (list[2] != 3) + (steps("abacadabefgcab") != 1610610855u);
}
