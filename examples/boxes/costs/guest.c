/* The functions that costs.c calls in a box besides those of libraries. For nc-cc. */
__attribute__((section(".text.start"))) void nothing(void) {}

void calls(unsigned count, void (*callback)(void)) {
    for (; count != 0; count--) {
        callback();
    }
}
