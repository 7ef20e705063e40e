/* A program for the sandbox: it has no library, and calls the host through its trampolines. */

/* The host's calls: `chunk.ld` gives their addresses, bundle starts of the trampoline zone. */
void host_exit(int status);
int host_print(const char *text, int count);

static int length(const char *text) {
    int count = 0;
    while (text[count] != 0) count++;
    return count;
}

/* Writes a number's digits so that they end there. */
static void digits(char *end, unsigned number) {
    do {
        *--end = (char)('0' + number % 10);
        number /= 10;
    } while (number != 0);
}

__attribute__((noinline)) static unsigned fibonacci(int n) {
    return n < 2 ? (unsigned)n : fibonacci(n - 1) + fibonacci(n - 2);
}

static int square(int n) {
    return n * n;
}
static int twice(int n) {
    return 2 * n;
}
int (*functions[2])(int) = {square, twice};

/* The chunk's entry: `chunk.ld` puts it first. */
__attribute__((section(".text.start"))) void start(void) {
    static char line[] = "fibonacci of 20 is 0000";
    int told = host_print("print, called through a trampoline", length("print, called through a trampoline"));
    digits(line + length(line), fibonacci(20));
    told += host_print(line, length(line));
    host_exit(told - 34 - 23 + functions[0](3) + functions[1](4) - 17);
}
