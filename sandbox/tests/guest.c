/* Functions for a box, compiled by nc-cc. The host's calls are at addresses that tests/sandbox/boxes gives them (-Wl,--defsym). */
void ncs_exit(int status);            /* NCS_EXIT */
unsigned log_number(unsigned number); /* NCS_CALLBACK(0) */

static unsigned counter = 40;
const char greeting[] = "good morning";
char buffer[64] = "first";
unsigned char zeros[5000];

__attribute__((section(".text.start"))) void start(void) {}
unsigned add(unsigned a, unsigned b) {
    return a + b;
}
unsigned long long wide(unsigned low, unsigned high) {
    return (unsigned long long)high << 32 | low;
}
unsigned ninth(unsigned a, unsigned b, unsigned c, unsigned d, unsigned e, unsigned f, unsigned g, unsigned h, unsigned i) {
    return a + b + c + d + e + f + g + h == 36 ? i : 0;
}
unsigned count(void) {
    return ++counter;
}
unsigned sum(const unsigned char *bytes, unsigned len) {
    unsigned all = 0;
    while (len != 0) all += bytes[--len];
    return all;
}
unsigned each(unsigned n, unsigned (*f)(unsigned)) {
    unsigned all = 0;
    while (n != 0) all += f(n--);
    return all;
}
unsigned logged(unsigned n) {
    return log_number(n) + 1;
}
void spin(void) {
    for (;;) {}
}
void leave(int status) {
    ncs_exit(status);
}
void stop(void) {
    __asm__ volatile("hlt");
}
void touch(volatile unsigned *at) {
    *at = 1;
}
