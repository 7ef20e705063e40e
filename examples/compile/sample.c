/* A small program for the sandbox: no library, no floating point, a call of the host through its trampoline.
   It uses what has to be rewritten: returns, calls by pointer, calls by a table, a returned struct, a switch. */

/* The host's entry: `chunk.ld` gives its address, a bundle start of the trampoline zone. */
void host_exit(int status);

typedef unsigned int u32;
typedef unsigned long long u64;
typedef int (*Order)(u32, u32);
typedef struct {
    u32 least, most, count;
} Extent;

static u32 numbers[8] = {34, 3, 233, 1, 89, 8, 610, 21};
static const u32 in_order[8] = {1, 3, 8, 21, 34, 89, 233, 610};

static int rising(u32 a, u32 b) {
    return a < b;
}
static int falling(u32 a, u32 b) {
    return a > b;
}
Order orders[2] = {rising, falling};

/* Sorts by insertion, by a call through a pointer for each comparison. */
__attribute__((noinline)) static void sort(u32 *list, int count, Order before) {
    for (int i = 1; i < count; i++)
        for (int j = i; j > 0 && before(list[j], list[j - 1]); j--) {
            u32 kept = list[j];
            list[j] = list[j - 1];
            list[j - 1] = kept;
        }
}

/* A struct that is returned in memory: its function ends with `ret $4`. */
__attribute__((noinline)) Extent extent(const u32 *list, int count) {
    Extent found = {list[0], list[0], count};
    for (int i = 1; i < count; i++) {
        if (list[i] < found.least) found.least = list[i];
        if (list[i] > found.most) found.most = list[i];
    }
    return found;
}

__attribute__((noinline)) u32 crc32(const char *text, int count) {
    u32 sum = ~0u;
    for (int i = 0; i < count; i++) {
        sum ^= (unsigned char)text[i];
        for (int bit = 0; bit < 8; bit++) sum = (sum >> 1) ^ (0xEDB88320u & -(sum & 1));
    }
    return ~sum;
}

__attribute__((noinline)) u32 fibonacci(int n) {
    return n < 2 ? (u32)n : fibonacci(n - 1) + fibonacci(n - 2);
}

__attribute__((noinline)) int days(int month) {
    switch (month) {
    case 2: return 28;
    case 4:
    case 6:
    case 9:
    case 11: return 30;
    default: return 31;
    }
}

__attribute__((noinline)) u64 factorial(u32 n) {
    u64 product = 1;
    while (n > 1) product *= n--;
    return product;
}

/* The number of answers that are wrong. */
static int sample(void) {
    int wrong = 0, year = 0;
    sort(numbers, 8, orders[1]);
    for (int i = 0; i < 8; i++) wrong += numbers[i] != in_order[7 - i];
    sort(numbers, 8, orders[0]);
    for (int i = 0; i < 8; i++) wrong += numbers[i] != in_order[i];
    Extent all = extent(numbers, 8);
    wrong += all.least != 1 || all.most != 610 || all.count != 8;
    wrong += crc32("123456789", 9) != 0xCBF43926u;
    wrong += fibonacci(20) != 6765;
    for (int month = 1; month <= 12; month++) year += days(month);
    wrong += year != 365;
    wrong += factorial(20) != 2432902008176640000ull;
    wrong += __builtin_ctz(all.most + 6) != 3;
    return wrong;
}

/* The chunk's entry: `chunk.ld` puts it first. */
__attribute__((section(".text.start"))) void start(void) {
    host_exit(sample());
}
