/* Changes of live code: the acts that nc_host tells are made in the text that boxes run, and a thread that meets a stop of a change under
   way goes back to it. TRUSTED, NOT PROVED. [19, 25, 28 to 32] */
#define _GNU_SOURCE
#include "inner.h"

#include <errno.h>
#include <linux/membarrier.h>
#include <sched.h>
#include <stdlib.h>
#include <string.h>
#include <sys/syscall.h>
#include <time.h>
#include <unistd.h>

#define YIELDS 64u /* before a thread that waits sleeps */

/* A chunk's code, which nobody else can change, and room for the acts of its creation or deletion as runs. */
typedef struct Chunk {
    uint32_t base;
    size_t len, room;
    uint8_t *code; /* of a deletion NULL */
    NcAct *acts;
} Chunk;

/* ---- Acts */

/* One store of one byte. The compiler leaves volatile ones as they are and in their order, in which all processors see them [30]. */
static void put(uint8_t *text, uint32_t at, uint8_t byte) {
    __atomic_store_n((volatile uint8_t *)text + at, byte, __ATOMIC_RELEASE);
}

/* The puts of a run, whose bits come from the lowest one on. `bytes` has those for the bits. Bits side by side are put by a loop of few
   instructions: it takes a third of the time that looking for each of them takes. */
static void put_run(uint8_t *text, const uint8_t *bytes, uint32_t run) {
    while (run != 0) {
        unsigned k = (unsigned)__builtin_ctz(run), end = k + (unsigned)__builtin_ctzll(~((uint64_t)run >> k));
        run &= (uint32_t)(~0ull << end);
        for (; k < end; k++) {
            put(text, k, bytes[k]);
        }
    }
}

static void put_act(uint8_t *text, const NcAct *act, const uint8_t *code, uint32_t base) {
    static const uint8_t stops[NC_BUNDLE] = {[0 ... NC_BUNDLE - 1] = NC_STOP};
    if (act->kind == NC_PUT) {
        put(text, act->at, (uint8_t)act->value);
    } else if (act->kind == NC_PUT_RUN) {
        put_run(text + act->at, code + (act->at - base), act->value);
    } else if (act->kind == NC_STOP_RUN) {
        put_run(text + act->at, stops, act->value);
    }
}

/* Every processor that runs a thread of this process serializes. A call that failed was no serialization, and the change can't be left half
   made: where there is no memory for a moment it is called again. */
static void serialize(void) {
    while (syscall(SYS_membarrier, MEMBARRIER_CMD_PRIVATE_EXPEDITED_SYNC_CORE, 0, 0) != 0) {
        ncs_must(errno == ENOMEM, "membarrier failed, which the system had granted");
        (void)sched_yield();
    }
}

/* Under the lock. Threads are inside meanwhile. */
static void make(Live *live, const NcAct *acts, size_t count, const Chunk *chunk) {
    size_t i;
    __atomic_add_fetch(&live->changes, 1, __ATOMIC_SEQ_CST);
    for (i = 0; i < count; i++) {
        if (acts[i].kind == NC_SERIALIZE) {
            serialize();
        } else {
            put_act(live->writable, &acts[i], chunk != NULL ? chunk->code : NULL, chunk != NULL ? chunk->base : 0);
        }
    }
    __atomic_add_fetch(&live->changes, 1, __ATOMIC_SEQ_CST);
}

static uint64_t changes_of(const Live *live) {
    return __atomic_load_n(&live->changes, __ATOMIC_SEQ_CST);
}

/* Lets a writer go on, also one of a lower priority, which sched_yield alone wouldn't. Ticks wait meanwhile. */
static void wait_for_writer(Thread *t, unsigned turns) {
    static const struct timespec pause = {0, 50000};
    if (turns < YIELDS) {
        (void)sched_yield();
    } else {
        (void)syscall(SYS_clock_nanosleep, CLOCK_MONOTONIC, 0, &pause, NULL); /* nanosleep may cancel the thread */
    }
    ncs_thread_count(t);
}

/* The handler calls this on the thread that has trapped. It takes no lock. It waits for a writer that has begun its acts, and no writer
   waits for a thread that is inside. If the thread's time is over first, it comes out, whatever there is. */
int ncs_live_meet(Live *live, Thread *t, uint32_t place) {
    uint64_t before;
    uint8_t byte;
    unsigned turns = 0;
    do {
        while ((before = changes_of(live)) % 2 != 0) {
            if (ncs_is_over(t)) {
                return MET_NOTHING;
            }
            wait_for_writer(t, turns++);
        }
        byte = NC_STOP;
        if (place < __atomic_load_n(&live->filled, __ATOMIC_SEQ_CST)) {
            byte = __atomic_load_n(live->writable + place, __ATOMIC_SEQ_CST);
        }
    } while (changes_of(live) != before);
    if (byte == NC_STOP) {
        return MET_STOP;
    }
    if (t->met_at == place && t->met_changes == before) {
        return MET_FAULT;
    }
    t->met_at = place;
    t->met_changes = before;
    t->met_stops++;
    return MET_NOTHING;
}

/* ---- Calls */

/* The live code of a module, or NULL where the call is refused before it begins. */
static Live *live_of(const NcsModule *m, NcsRefusal *why) {
    ncs_refuse(why, NCS_OK, "nothing is refused");
    if (!ncs_module_is_ours(m)) {
        return ncs_refuse(why, NCS_BAD_SYSTEM, "the module was made before this process forked");
    }
    return m->live != NULL ? m->live : ncs_refuse(why, NCS_NOT_LIVE, "the module's code never changes");
}

void ncs_live_lock(Live *live) {
    ncs_must(pthread_mutex_lock(&live->lock) == 0, "a lock failed");
}

void ncs_live_unlock(Live *live) {
    ncs_must(pthread_mutex_unlock(&live->lock) == 0, "a lock failed");
}

/* Whether there is memory for the acts, before anything is changed. */
static int has_room(Chunk *chunk) {
    chunk->room = chunk->len / 16 + 2;
    chunk->acts = malloc(chunk->room * sizeof *chunk->acts);
    return chunk->acts != NULL;
}

/* Under the lock. A change that was told without its acts: they follow as runs. */
static void make_runs(Live *live, const Chunk *chunk) {
    NcChange told = chunk->code != NULL ? nc_region_creation_runs(&live->region, chunk->base, chunk->acts, chunk->room)
                                        : nc_region_deletion_runs(&live->region, chunk->acts, chunk->room);
    ncs_must(told.fault == NC_OK, "the acts of a change aren't told");
    make(live, chunk->acts, told.count, chunk);
}

static int load(NcsModule *m, NcVetted *vetted, const Chunk *chunk, NcsRefusal *why) {
    Live *live = m->live;
    NcChange loaded = {NC_OUT_OF_MEMORY, 0, 0};
    ncs_live_lock(live);
    if (ncs_live_fill(m, chunk->base + (uint32_t)chunk->len)) {
        loaded = nc_region_load(&live->region, vetted, NULL, 0);
    }
    if (loaded.fault == NC_OK) {
        make_runs(live, chunk);
    }
    ncs_live_unlock(live);
    return loaded.fault == NC_OK || ncs_refuse_fault(why, NCS_BAD_CHANGE, loaded.fault, 0);
}

/* The code is judged before the lock is taken, so threads judge side by side. */
static int judge_and_load(NcsModule *m, Chunk *chunk, NcsRefusal *why) {
    NcVetted vetted = {NULL};
    NcVerdict judged = nc_vetted_new(chunk->base, m->limit, chunk->code, chunk->len, &vetted);
    int made;
    if (judged.fault != NC_OK) {
        return ncs_refuse_fault(why, NCS_BAD_CODE, judged.fault, judged.at);
    }
    made = has_room(chunk) ? load(m, &vetted, chunk, why) : ncs_refuse_fault(why, NCS_NO_MEMORY, NC_OUT_OF_MEMORY, 0);
    nc_vetted_free(&vetted);
    return made;
}

/* The copy is what is judged and what is put: the host may lend memory of a box, which another thread changes. */
int ncs_create(NcsModule *m, NcsAt base, const void *code, size_t len, NcsRefusal *why) {
    Chunk chunk = {base.at, len, 0, NULL, NULL};
    int made;
    if (live_of(m, why) == NULL) {
        return 0;
    }
    if (len >= m->limit) {
        return ncs_refuse_fault(why, NCS_BAD_CODE, NC_OUT_OF_RANGE, 0);
    }
    chunk.code = malloc(len + 1);
    if (chunk.code == NULL) {
        return ncs_refuse_fault(why, NCS_NO_MEMORY, NC_OUT_OF_MEMORY, 0);
    }
    if (len != 0) {
        memcpy(chunk.code, code, len);
    }
    made = judge_and_load(m, &chunk, why);
    free(chunk.acts);
    free(chunk.code);
    return made;
}

int ncs_patch(NcsModule *m, NcsAt at, const void *code, size_t len, NcsRefusal *why) {
    Live *live = live_of(m, why);
    uint8_t bytes[NC_BUNDLE] = {0};
    NcAct acts[3 * NC_BUNDLE];
    NcChange told;
    if (live == NULL) {
        return 0;
    }
    if (len == 0 || len > sizeof bytes) {
        return ncs_refuse_fault(why, NCS_BAD_CHANGE, NC_PATCH_BAD_SPAN, 0);
    }
    memcpy(bytes, code, len);
    ncs_live_lock(live);
    told = nc_region_patch(&live->region, at.at, bytes, len, acts, sizeof acts / sizeof *acts);
    if (told.fault == NC_OK) {
        make(live, acts, told.count, NULL);
    }
    ncs_live_unlock(live);
    return told.fault == NC_OK || ncs_refuse_fault(why, NCS_BAD_CHANGE, told.fault, 0);
}

/* Under the lock. The stamp is drawn when the last stop stands. The fault, NC_OK where the chunk is deleted. */
static uint32_t delete_chunk(Live *live, uint32_t base) {
    NcChunk found = nc_region_chunk_at(&live->region, base);
    Chunk chunk = {base, found.length, 0, NULL, NULL};
    NcChange begun = {NC_OUT_OF_MEMORY, 0, 0};
    if (has_room(&chunk)) {
        begun = nc_region_begin_delete(&live->region, base, NULL, 0);
    }
    if (begun.fault == NC_OK) {
        make_runs(live, &chunk);
        ncs_must(nc_region_end_delete(&live->region).fault == NC_OK, "a deletion has no end");
        live->retired++;
    }
    free(chunk.acts);
    return begun.fault;
}

int ncs_delete(NcsModule *m, NcsAt base, NcsRefusal *why) {
    Live *live = live_of(m, why);
    uint32_t fault;
    if (live == NULL) {
        return 0;
    }
    ncs_live_lock(live);
    fault = delete_chunk(live, base.at);
    ncs_live_unlock(live);
    return fault == NC_OK || ncs_refuse_fault(why, NCS_BAD_CHANGE, fault, 0);
}

uint32_t ncs_reclaim(NcsModule *m) {
    Live *live = live_of(m, NULL);
    uint32_t freed = 0;
    if (live != NULL) {
        ncs_live_lock(live);
        freed = ncs_seats_reclaim(live);
        ncs_live_unlock(live);
    }
    return freed;
}
