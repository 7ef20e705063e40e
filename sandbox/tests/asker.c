/* A program for a box that makes code, compiled by nc-cc. tests/sandbox/boxes gives it the addresses of the calls (-Wl,--defsym). */
#include <nc_run.h>

void rest(void); /* a call of the host that does nothing. A thread that makes none holds back what is deleted */

unsigned char bytes[4096];
struct nc_hole hole;
unsigned words[4]; /* of code that waits */

__attribute__((section(".text.start"))) void start(void) {}
/* A call of the host comes back here: it doesn't return to the host at once, as a last jump would have it. */
/* clang-format off */
#define HERE(answer) ({ long long given = (answer); __asm__ volatile("" ::: "memory"); given; })
/* clang-format on */
int find(unsigned from, unsigned to) {
    return (int)HERE(nc_hole(from, (struct nc_hole *)to));
}
long long create(unsigned at, unsigned from, unsigned len) {
    return HERE(nc_create(at, (const void *)from, len));
}
long long patch(unsigned at, unsigned from, unsigned len) {
    return HERE(nc_patch(at, (const void *)from, len));
}
long long remove(unsigned at) {
    return HERE(nc_delete(at));
}
unsigned run(unsigned at) {
    return ((unsigned (*)(void))at)();
}
unsigned seven(void) {
    return 7;
}
unsigned deep(unsigned n) {
    return n == 0 ? 0 : 1 + deep(n - 1) + words[3];
}

/* Runs code again and again until it is told to end; how often it gave something else. */
unsigned run_often(unsigned at, unsigned result) {
    unsigned others = 0;
    while (__atomic_load_n(&words[0], __ATOMIC_SEQ_CST) == 0) {
        others += run(at) != result;
        __atomic_fetch_add(&words[1], 1, __ATOMIC_SEQ_CST);
    }
    return others;
}

/* ---- Threads in boxes on the same memory. A round's chunk returns its number. */

#define SLOT 64u /* bytes from chunk to chunk */
#define SLOTS 64u

static unsigned first, counts[8]; /* where the chunks are; how often each thread that executes has done so */
static unsigned made, swept;      /* rounds */

static unsigned load(const unsigned *word) {
    return __atomic_load_n(word, __ATOMIC_SEQ_CST);
}
static void store(unsigned *word, unsigned value) {
    __atomic_store_n(word, value, __ATOMIC_SEQ_CST);
}

/* mov eax, number; pop ecx; and ecx, -32; jmp ecx */
static void lay(unsigned char *to, unsigned number) {
    static const unsigned char back[] = {0x59, 0x83, 0xE1, 0xE0, 0xFF, 0xE1};
    for (unsigned k = 0; k < 32; k++) to[k] = 0x90;
    to[0] = 0xB8;
    for (unsigned k = 0; k < 4; k++) to[1 + k] = (unsigned char)(number >> 8 * k);
    for (unsigned k = 0; k < sizeof back; k++) to[5 + k] = back[k];
}

static unsigned slot(unsigned round) {
    return first + round % SLOTS * SLOT;
}

/* Makes a chunk each round, and patches it to its number. A slot is taken again when it is a hole. How often that was refused for anything
   but that. */
unsigned compile(unsigned rounds) {
    unsigned char code[32];
    unsigned wrong = 0;
    struct nc_hole room;
    wrong += nc_hole(0, &room) != 0;
    store(&first, room.at);
    for (unsigned round = 1; round <= rounds; round++) {
        while (round - load(&swept) > SLOTS / 2) rest();
        lay(code, 0);
        for (int made_it = 0; !made_it;) {
            long long answer = nc_create(slot(round), code, sizeof code);
            made_it = (int)answer == 0;
            if (!made_it) {
                struct nc_hole hole;
                wrong += (int)answer != -(256 + 40); /* occupied */
                wrong += nc_hole(slot(round), &hole) != 0;
            }
        }
        lay(code, round);
        wrong += (int)nc_patch(slot(round), code, 5) != 0;
        store(&made, round);
    }
    return wrong;
}

/* Executes what was made last, until the last round. How often it gave another number, or an earlier one than before. */
unsigned execute(unsigned who, unsigned rounds) {
    unsigned wrong = 0, before = 0;
    while (load(&made) == 0) rest();
    while (before < rounds) {
        rest();
        unsigned round = load(&made), got = run(slot(round));
        wrong += got != round || got < before;
        before = round;
        __atomic_fetch_add(&counts[who], 1, __ATOMIC_SEQ_CST);
    }
    store(&counts[who], 0x80000000);
    return wrong;
}

/* Deletes the chunks before the last one, once each thread that executes has begun anew since the last was made. */
unsigned sweep(unsigned rounds, unsigned threads) {
    unsigned wrong = 0, done = 0;
    while (done + 1 < rounds) {
        unsigned last = load(&made), seen[8];
        for (unsigned k = 0; k < threads; k++) seen[k] = load(&counts[k]);
        for (unsigned k = 0; k < threads; k++) {
            while (load(&counts[k]) - seen[k] < 2 && load(&counts[k]) < 0x80000000) rest();
        }
        for (; done + 1 < last; done++) wrong += (int)nc_delete(slot(done + 1)) != 0;
        store(&swept, done);
    }
    return wrong;
}

/* ---- Tenants of one module, which make code as fast as they can */

/* Makes code, runs it, patches it, runs it, and deletes it. How often something was wrong. */
unsigned work(unsigned rounds) {
    unsigned char code[32];
    unsigned wrong = 0;
    for (unsigned round = 1; round <= rounds; round++) {
        struct nc_hole room;
        wrong += nc_hole(0, &room) != 0;
        if (room.len == 0) continue; /* all of it is held back */
        lay(code, round);
        wrong += (int)nc_create(room.at, code, sizeof code) != 0 || run(room.at) != round;
        lay(code, ~round);
        wrong += (int)nc_patch(room.at, code, 5) != 0 || run(room.at) != ~round;
        wrong += (int)nc_delete(room.at) != 0;
    }
    return wrong;
}

/* Any requests, and any jumps, until one of them ends it. */
unsigned rage(unsigned state) {
    for (;;) {
        unsigned at, what;
        state = state * 1664525 + 1013904223;
        at = 0x10000 + (state >> 8) % 0x20000 * (state >> 30 != 0 ? 32 : 1);
        what = state >> 28 & 7;
        lay(bytes, state);
        bytes[state >> 20 & 31] ^= (unsigned char)(state >> 12);
        if (what < 4) (void)nc_create(at & ~31u, bytes, 32 * (1 + (state >> 5 & 3)));
        else if (what < 6) (void)nc_patch(at, bytes, state >> 5 & 15);
        else if (what < 7) (void)nc_delete(at & ~31u);
        else if (state % 32 == 0) run(at);
    }
}
