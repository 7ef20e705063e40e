/* Several statements on a line of inline assembly, with calls among them. */

__attribute__((noinline, used)) int callee(void) {
    return 42;
}
__attribute__((noinline, used)) int twice(int n) {
    return 2 * n;
}
int (*pointer)(void) = callee;

int wrong(void) {
    int direct, indirect, passed, text;
    __asm__ volatile("pushl %%ebx; call callee; popl %%ebx" : "=a"(direct) : : "ecx", "edx", "memory");
    __asm__ volatile("call *%1; movl %%eax, %0" : "=r"(indirect) : "r"(pointer) : "eax", "ecx", "edx", "memory");
    __asm__ volatile("pushl $21; call twice /* a call; of twice */; addl $4, %%esp # no; statement"
                     : "=a"(passed)
                     :
                     : "ecx", "edx", "memory");
    __asm__("movl $';', %0; jmp 1f; ud2; 1: incl %0" : "=r"(text));
    return (direct != 42) + (indirect != 42) + (passed != 42) + (text != 60);
}
