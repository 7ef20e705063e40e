/* Code in sections of other names, called directly and by pointers. */

__attribute__((section("hot_code"), noinline)) int in_hot(int n) {
    return n ? 2 * n : 0;
}
__attribute__((section(".init.text"), noinline)) int in_init(int n) {
    return in_hot(n) + 1;
}
__attribute__((section("other"), noinline)) static int in_other(int n) {
    return n - 1;
}
/* clang writes such a name in quotes. */
__attribute__((section(".text.$sorted"), noinline)) int in_sorted(int n) {
    return in_other(n) - 1;
}
/* So do Rust and hands. */
int in_quotes(int n);
__asm__(".pushsection \".text.in_quotes\",\"ax\",@progbits\n.globl in_quotes\nin_quotes: movl 4(%esp), %eax; incl %eax; ret\n.popsection");
__asm__(".section \"quoted, with a comma\" , \"ax\"\nin_comma: ret\n.text");

int (*volatile table[])(int) = {in_hot, in_init, in_other, in_sorted, in_quotes};

int wrong(void) {
    int named = (in_init(20) != 41) + (table[0](21) != 42) + (table[1](3) != 7) + (table[2](43) != 42);
    return named + (in_sorted(44) != 42) + (table[3](9) != 7) + (in_quotes(41) != 42) + (table[4](6) != 7);
}
