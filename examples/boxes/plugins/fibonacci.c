/* A plug-in that is too slow for large numbers, for nc-cc. */
__attribute__((section(".text.start"))) unsigned fibonacci(unsigned n) {
    return n < 2 ? n : fibonacci(n - 1) + fibonacci(n - 2);
}
