/* A plug-in with a mistake, for nc-cc: where one number is 0 it never ends. */
__attribute__((section(".text.start"))) unsigned divisor(unsigned a, unsigned b) {
    while (a != b) {
        if (a > b) {
            a -= b;
        } else {
            b -= a;
        }
    }
    return a;
}
