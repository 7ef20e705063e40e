/* Where the program begins natively, on Linux for i386, and the two calls of nc-run that it makes. */
int start(int, char **);
long nc_write(int, const void *, unsigned long);

static int call(int number, int a, const void *b, unsigned c) {
    int got;
    __asm__ volatile("int $0x80" : "=a"(got) : "0"(number), "b"(a), "c"(b), "d"(c) : "memory");
    return got;
}

long nc_write(int file, const void *from, unsigned long len) {
    return call(4, file, from, len);
}

__attribute__((used)) static void begin(int *words) {
    call(1, start(words[0], (char **)(words + 1)) & 255, 0, 0);
}

__asm__(".globl _start\n_start:\tmovl %esp, %eax\n\tandl $-16, %esp\n\tsubl $12, %esp\n\tpushl %eax\n\tcall begin\n\thlt\n");
