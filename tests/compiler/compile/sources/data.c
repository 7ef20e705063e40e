/* Data, constants, memory that begins as zero, the heap's start, and constructors in their order. */

extern char __rodata_start[], __data_start[], __bss_start[], _end[], __text_start[], __text_end[];
static int order[3], count;
int set = 42, unset;
const int constant[2] = {6, 7};
static int large[5000];
static const char *const names[] = {"first", "second"};

__attribute__((constructor)) static void third(void) {
    order[count++] = 3;
}
__attribute__((constructor(102))) static void second(void) {
    order[count++] = 2;
}
__attribute__((constructor(101))) static void first(void) {
    order[count++] = 1;
}

static int within(const void *place, const char *begin, const char *end) {
    return (const char *)place >= begin && (const char *)place < end;
}

int wrong(void) {
    int failed = order[0] != 1 || order[1] != 2 || order[2] != 3 || count != 3;
    failed += set != 42 || unset != 0 || large[4999] != 0 || constant[0] * constant[1] != 42 || names[1][2] != 'c';
    failed +=
        !within(&set, __data_start, __bss_start) || !within(&unset, __bss_start, _end) || !within(constant, __rodata_start, __data_start);
    failed += !within((const void *)wrong, __text_start, __text_end) || (unsigned)__rodata_start != 0x04010000;
    large[4999] = set++;
    return failed + (large[4999] != 42 || set != 43);
}
