/* The threads of a race. The writer waits before each change and before some of the acts. In every other change it stores plainly. */
#define _GNU_SOURCE
#include "race.h"

#include "nc_host.h"
#include "slot.h"

#include <pthread.h>
#include <sched.h>
#include <stdio.h>
#include <stdlib.h>
#include <string.h>
#include <time.h>

#define SHOWN 3u
#define FOREIGN 4u        /* how many versions ahead a foreign byte is; no view has it */
#define TRAP 0xCCu        /* int3 */
#define CHANGES_A_LOOK 8u /* how many changes are made between two looks at the clock */

typedef struct Reader {
    pthread_t thread;
    const Race *race;
    uint64_t random, shown;
    Tally tally;
} Reader;

static int over;
static unsigned begun_readers; /* the time starts when all readers have begun */

static void refuse(const char *what) {
    fprintf(stderr, "views: this system refuses %s\n", what);
    abort();
}

static uint32_t draw(uint64_t *random) {
    *random ^= *random << 13;
    *random ^= *random >> 7;
    *random ^= *random << 17;
    return (uint32_t)(*random >> 32);
}

/* ---- What an execution did */

static void show(Reader *reader, const Execution *x) {
    unsigned i;
    if (++reader->shown > SHOWN) {
        return;
    }
    fprintf(stderr, "OUTSIDE of the views: %s at %u, left out %s: between acts %llu and %llu", reader->race->name, reader->race->offset,
            reader->race->left_out, (unsigned long long)x->before, (unsigned long long)x->after);
    if (x->effect.kind == RAN) {
        fprintf(stderr, ", bytes of the versions");
        for (i = 0; i < LENGTH; i++) {
            fprintf(stderr, " %d", x->effect.bytes[i]);
        }
    } else {
        fprintf(stderr, ", %s", x->effect.kind == STOPPED ? "a stop" : "no effect of bytes that were put");
    }
    fprintf(stderr, "\n");
}

static int is_whole(const Effect *effect) {
    unsigned place;
    for (place = 2; place < LENGTH; place++) {
        if (effect->bytes[place] != effect->bytes[1]) {
            return 0;
        }
    }
    return effect->bytes[1] != STOP_BYTE && effect->bytes[0] == effect->bytes[1] % (int)REGISTERS;
}

static void judge(Reader *reader, const Execution *x) {
    const Race *race = reader->race;
    Tally *t = &reader->tally;
    uint64_t first = x->before == 0 ? 0 : x->before - 1; /* this many acts were surely made */
    int in_text = have(&race->text, &x->effect, first, x->after);
    t->executions++;
    t->beside += x->after != x->before;
    if (!have(&race->views, &x->effect, first, x->after)) {
        t->outside++;
        show(reader, x);
    } else if (x->effect.kind == STOPPED) {
        t->stops += in_text;
        t->late_stops += !in_text;
    } else if (is_whole(&x->effect)) {
        t->whole += in_text;
        t->late_whole += !in_text;
    } else {
        t->mixed[pattern_of(&x->effect)]++;
    }
}

static void *reader_main(void *argument) {
    Reader *reader = argument;
    const char *refused = slot_begin_thread();
    if (refused != NULL) {
        refuse(refused);
    }
    __atomic_add_fetch(&begun_readers, 1, __ATOMIC_SEQ_CST);
    while (!__atomic_load_n(&over, __ATOMIC_RELAXED)) {
        uint32_t way = draw(&reader->random);
        Execution x = slot_execute((int)(way & 1), (int)(way >> 1 & 1));
        judge(reader, &x);
    }
    slot_end_thread();
    return NULL;
}

/* ---- The writer */

static double now(void) {
    struct timespec t;
    if (clock_gettime(CLOCK_MONOTONIC, &t) != 0) {
        refuse("clock_gettime");
    }
    return (double)t.tv_sec + 1e-9 * (double)t.tv_nsec;
}

static void spin(uint32_t rounds) {
    while (rounds-- != 0) {
        __asm__ volatile("");
    }
}

static void make(const Act *act, uint64_t change, unsigned made) {
    int plain = (int)(change & 1);
    switch (act->kind) {
    case PUT_STOP: slot_put(act->number, NC_STOP, plain); break;
    case PUT_NEW: slot_put(act->number, version_byte(change + 1, act->number), plain); break;
    case PUT_TRAP: slot_put(act->number, TRAP, plain); break;
    case PUT_FOREIGN: slot_put(act->number, version_byte(change + FOREIGN, act->number), plain); break;
    default:
        if (made >> act->number & 1) {
            slot_serialize();
        }
    }
}

/* Makes changes until the time is over, and returns their number. */
static uint64_t write_on(const Race *race) {
    uint64_t random = 88172645463325252ull, change = 0, begun = 0;
    double until;
    size_t i;
    while (__atomic_load_n(&begun_readers, __ATOMIC_SEQ_CST) != race->readers) {
        sched_yield();
    }
    until = now() + race->seconds;
    while (change % CHANGES_A_LOOK != 0 || now() < until) {
        spin(draw(&random) % 4096);
        for (i = 0; i < race->acts.count; i++) {
            begun++;
            if (race->ahead) {
                __atomic_store_n(&slot_begun, begun + 1, __ATOMIC_RELEASE);
            }
            if (draw(&random) % 8 == 0) {
                spin(draw(&random) % 256);
            }
            if (!race->ahead) {
                __atomic_store_n(&slot_begun, begun, __ATOMIC_RELEASE);
            }
            make(&race->acts.all[i], change, race->made);
        }
        change++;
    }
    return change;
}

static void add(Tally *all, const Tally *one) {
    unsigned i;
    all->executions += one->executions;
    all->beside += one->beside;
    all->stops += one->stops;
    all->whole += one->whole;
    all->late_stops += one->late_stops;
    all->late_whole += one->late_whole;
    all->outside += one->outside;
    for (i = 0; i < PATTERNS; i++) {
        all->mixed[i] += one->mixed[i];
    }
}

Tally race_run(const Race *race) {
    static Reader readers[READERS];
    Tally all = {0};
    unsigned i;
    slot_lay(race->offset);
    memset(readers, 0, sizeof readers);
    __atomic_store_n(&over, 0, __ATOMIC_SEQ_CST);
    __atomic_store_n(&begun_readers, 0, __ATOMIC_SEQ_CST);
    for (i = 0; i < race->readers; i++) {
        readers[i].race = race;
        readers[i].random = 0x9E3779B97F4A7C15ull * (i + 1);
        if (pthread_create(&readers[i].thread, NULL, reader_main, &readers[i]) != 0) {
            refuse("pthread_create");
        }
    }
    all.changes = write_on(race);
    __atomic_store_n(&over, 1, __ATOMIC_SEQ_CST);
    for (i = 0; i < race->readers; i++) {
        if (pthread_join(readers[i].thread, NULL) != 0) {
            refuse("pthread_join");
        }
        add(&all, &readers[i].tally);
    }
    return all;
}
