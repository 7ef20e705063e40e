/* setjmp and longjmp over several calls, by jumps.s. */

typedef int State[6];
int set_state(State state) __attribute__((returns_twice));
void go_back(State state, int value) __attribute__((noreturn));

static State state;
static volatile int passed;

__attribute__((noinline)) static void deep(int n) {
    if (n == 0) go_back(state, 42);
    deep(n - 1);
    passed++;
}

int wrong(void) {
    int value = set_state(state);
    if (value == 0) deep(5);
    return (value != 42) + (passed != 0);
}
