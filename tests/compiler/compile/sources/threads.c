/* Thread-local variables, in a program of one thread: defined here and elsewhere, by each model, zero and not, one by one and in an array. */

_Thread_local int zero;
static __thread int five = 5;
__thread int kept __attribute__((tls_model("initial-exec"))) = 7;
_Thread_local struct { int first, second; } both = {1, 2};
__thread char letters[10] = "threads";
extern _Thread_local int elsewhere, kept_elsewhere __attribute__((tls_model("initial-exec")));
int *place_elsewhere(void);

__attribute__((noinline)) static int *place(void) {
    return &zero;
}

__attribute__((noinline)) static char *letter(int n) {
    return &letters[n];
}

__attribute__((noinline)) static int next(void) {
    static _Thread_local int calls;
    return ++calls;
}

__attribute__((noinline)) static int sum(int n) {
    return five + kept + both.second + letters[n] + elsewhere + kept_elsewhere;
}

int wrong(void) {
    int before = (zero != 0) + (sum(1) != 5 + 7 + 2 + 'h' + 30 + 40) + (*letter(3) != 'e') + (letters[7] != 0);
    *place() += 3;
    *place_elsewhere() += zero;
    five -= 2;
    both.second = five;
    kept <<= 1;
    letters[2] ^= 1;
    int after = (zero != 3) + (elsewhere != 33) + (sum(2) != 3 + 14 + 3 + ('r' ^ 1) + 33 + 40) + (next() + 2 * next() != 5);
    return before + after;
}
