/* Crashes at the line that is marked, with two calls under way, which are marked too. */
__attribute__((noinline)) static int inner(volatile int *at) {
    return *at; /* here */
}

__attribute__((noinline)) static int middle(int far) {
    return inner((volatile int *)far) + 1; /* and here */
}

int start(int count) {
    return middle(16 * count) + 1; /* and here */
}
