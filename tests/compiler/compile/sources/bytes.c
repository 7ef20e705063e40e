/* Instructions that are written as bytes. */

__attribute__((noinline)) static unsigned swapped(unsigned n) {
    __asm__(".byte 0x0f, 0xc8" : "+a"(n));
    return n;
}

__attribute__((noinline)) static int sign(int n) {
    int high;
    __asm__(".byte 0x99; .byte 0xf3, 0x90" : "=d"(high), "+a"(n));
    return high;
}

__attribute__((noinline)) static void copy(void *to, const void *from, unsigned count) {
    __asm__ volatile(".byte 0xf3\n\t.byte 0xa4" : "+D"(to), "+S"(from), "+c"(count) : : "memory");
}

int wrong(void) {
    static char text[4];
    unsigned leaf = 0, b, c, d;
    copy(text, "abc", 4);
    __asm__ volatile(".byte 0x0f, 0xa2" : "+a"(leaf), "=b"(b), "=c"(c), "=d"(d));
    return (swapped(0x01020304) != 0x04030201) + (sign(-5) != -1) + (sign(5) != 0) + (text[2] != 'c' || text[3] != 0) + (leaf == 0);
}
