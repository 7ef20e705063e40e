/* Prefixes that stand apart from their instructions, where a bundle ends between them. */

#define NOPS5 "nop; nop; nop; nop; nop; "
#define NOPS30 NOPS5 NOPS5 NOPS5 NOPS5 NOPS5 NOPS5
#define AT_THE_END "jmp 9f; .p2align 6; 9: " NOPS30 "nop; "

struct Large {
    int numbers[28];
};
struct Large from = {{1, 2, 3}}, to;

__attribute__((noinline)) static int swapped(int *place, int old, int new) {
    __asm__ volatile(AT_THE_END "lock ; cmpxchg %3, %1" : "=a"(old), "=m"(*place) : "a"(old), "r"(new) : "memory");
    return old;
}

__attribute__((noinline)) static int sum(volatile int *place, int more) {
    __asm__ volatile(AT_THE_END "lock\n\taddl %1, %0; rep; nop" : "+m"(*place) : "r"(more));
    return *place;
}

__attribute__((noinline)) static void copy(void *to, const void *from, unsigned count) {
    __asm__ volatile(AT_THE_END "rep;movsb" : "+D"(to), "+S"(from), "+c"(count) : : "memory");
}

int wrong(void) {
    static int place = 3;
    static char text[4];
    int failed = swapped(&place, 3, 5) != 3 || place != 5;
    failed += swapped(&place, 4, 6) != 5 || place != 5;
    failed += sum(&place, 37) != 42;
    copy(text, "abc", 4);
    failed += text[0] != 'a' || text[2] != 'c' || text[3] != 0;
    to = from;
    return failed + (to.numbers[2] != 3);
}
