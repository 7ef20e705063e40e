/* Boxes: an instance of a module with memory of its own; reset, kill and free. TRUSTED, NOT PROVED. [8, 14, 19] */
#define _GNU_SOURCE
#include "inner.h"

#include <sched.h>
#include <stdlib.h>
#include <string.h>
#include <sys/mman.h>

/* No threads, but owners of boxes: of one that is being freed, and of all on a memory that is being reset. */
static Thread nobody, resetter;

int ncs_box_has(const NcsBox *b, uint64_t at, uint64_t len) {
    return at >= DATA_LEAST && at <= b->limits.memory && len <= b->limits.memory - at;
}

uint8_t *ncs_box_data(const NcsBox *b, uint32_t at) {
    return (uint8_t *)((uintptr_t)b->data_at + at);
}

/* Its memory is 0 so far. */
static void fill(NcsBox *b) {
    const Image *image = &b->module->image;
    ncs_elf_copy_data(image, b->data_at);
    __atomic_store_n(&b->memory->heap, (image->data_end + 15) & ~15u, __ATOMIC_SEQ_CST);
}

static void revive(NcsBox *b) {
    b->denied = b->dead = 0;
    memset(&b->end, 0, sizeof b->end);
    __atomic_store_n(&b->killed, 0, __ATOMIC_SEQ_CST);
}

static const char *judge_limits(const NcsModule *m, const NcsLimits *limits) {
    if (limits->memory % PAGE != 0 || limits->memory > NCS_MEMORY_MAX) {
        return "the memory isn't a multiple of 4096, or is above 1 GiB";
    }
    if (limits->memory < m->image.data_end) {
        return "there is less memory than the data needs";
    }
    if (limits->depth == 0 || limits->depth > NCS_DEPTH_MAX) {
        return "the depth of calls isn't 1 to 64";
    }
    return limits->milliseconds == 0 ? "there is no time for a call" : NULL;
}

/* Memory and a segment for it, at base 0 or elsewhere. Whether it has both. Nothing from 00010000 on is read-only, so no address that
   ncs_box_has accepts makes the host fault. */
static int take_memory(NcsBox *b, int at_base_zero) {
    Memory *memory = b->memory;
    uint32_t len = b->limits.memory;
    (void)pthread_mutex_lock(&ncs_lock);
    memory->is_base_zero = at_base_zero && ncs_base_zero_new(len);
    memory->at = b->data_at = at_base_zero ? 0 : ncs_low_new(len, PROT_NONE, -1);
    memory->selector = memory->is_base_zero || memory->at != 0 ? ncs_segment_data(memory->at, len) : 0;
    (void)pthread_mutex_unlock(&ncs_lock);
    return memory->selector != 0 && mprotect(ncs_box_data(b, DATA_LEAST), len - DATA_LEAST, PROT_READ | PROT_WRITE) == 0;
}

static void give_memory_back(Memory *memory, uint32_t len) {
    (void)pthread_mutex_lock(&ncs_lock);
    ncs_segment_free(memory->selector);
    (void)pthread_mutex_unlock(&ncs_lock);
    memory->selector = 0;
    if (memory->is_base_zero) {
        ncs_base_zero_free(len);
    } else {
        ncs_low_free(memory->at, len);
    }
    memory->is_base_zero = 0;
}

static int close_base_zero(void) {
    int is_closed;
    (void)pthread_mutex_lock(&ncs_lock);
    is_closed = ncs_base_zero_close();
    (void)pthread_mutex_unlock(&ncs_lock);
    return is_closed;
}

/* At base 0, unless another box or the host is there. */
static int map_memory(NcsBox *b) {
    if (take_memory(b, 1) && close_base_zero()) {
        return 1;
    }
    give_memory_back(b->memory, b->limits.memory);
    return take_memory(b, 0);
}

/* A reset that is under way has this box too. */
static void join(NcsBox *b, Memory *memory) {
    b->memory = memory;
    b->data_at = memory->at;
    (void)pthread_mutex_lock(&ncs_lock);
    b->module->users++;
    b->owner = memory->boxes != NULL && __atomic_load_n(&memory->boxes->owner, __ATOMIC_SEQ_CST) == &resetter ? &resetter : NULL;
    b->next = memory->boxes;
    memory->boxes = b;
    (void)pthread_mutex_unlock(&ncs_lock);
}

/* A box without memory so far. NULL if it is refused. */
static NcsBox *new_box(NcsModule *m, const NcsLimits *limits, NcsRefusal *why) {
    const char *wrong = judge_limits(m, limits);
    NcsBox *b;
    if (wrong != NULL) {
        return ncs_refuse(why, NCS_BAD_LIMITS, wrong);
    }
    if (!ncs_module_is_ours(m)) {
        return ncs_refuse(why, NCS_BAD_SYSTEM, "the module was made before this process forked");
    }
    b = calloc(1, sizeof *b);
    if (b == NULL) {
        return ncs_refuse(why, NCS_NO_MEMORY, "out of memory");
    }
    b->module = m;
    b->limits = *limits;
    return b;
}

NcsBox *ncs_box_new(NcsModule *m, const NcsLimits *limits, NcsRefusal *why) {
    NcsBox *b = new_box(m, limits, why);
    Memory *memory = b != NULL ? calloc(1, sizeof *memory) : NULL;
    if (memory == NULL || !ncs_mask_is_kept(why) || !ncs_prepare(why)) {
        if (b != NULL && memory == NULL) {
            ncs_refuse(why, NCS_NO_MEMORY, "out of memory");
        }
        free(memory);
        free(b);
        return NULL;
    }
    join(b, memory);
    b->stack = m->image.data_begin;
    if (!map_memory(b)) {
        (void)ncs_free(b);
        ncs_unprepare();
        return ncs_refuse(why, NCS_NO_MEMORY, "there is no room below 4 GiB for its memory, or no segment left");
    }
    fill(b);
    revive(b);
    ncs_refuse(why, NCS_OK, "nothing is refused");
    return b;
}

NcsBox *ncs_box_beside(NcsBox *of, NcsAt stack, uint32_t depth, uint32_t milliseconds, NcsRefusal *why) {
    const NcsLimits limits = {of->limits.memory, depth, milliseconds};
    NcsBox *b = new_box(of->module, &limits, why);
    if (b == NULL) {
        return NULL;
    }
    if (stack.at % 16 != 0 || !ncs_box_has(of, stack.at, 0)) {
        free(b);
        return ncs_refuse(why, NCS_BAD_LIMITS, "the stack doesn't begin in the box's memory, at a multiple of 16");
    }
    b->stack = stack.at;
    revive(b);
    join(b, of->memory);
    ncs_refuse(why, NCS_OK, "nothing is refused");
    return b;
}

/* Under ncs_lock. Takes it out of the list; whether it was the last. */
static int part(NcsBox *b) {
    NcsBox **link = &b->memory->boxes;
    while (*link != b) {
        link = &(*link)->next;
    }
    *link = b->next;
    return b->memory->boxes == NULL;
}

/* Leaves its memory, and frees that with its last box. Whether it has: there may be no memory to delete the code that it made. */
static int leave(NcsBox *b) {
    int was_last, made;
    (void)pthread_mutex_lock(&ncs_lock);
    was_last = part(b);
    (void)pthread_mutex_unlock(&ncs_lock);
    made = !was_last || ncs_area_clear(b);
    (void)pthread_mutex_lock(&ncs_lock);
    if (!made) {
        b->next = b->memory->boxes;
        b->memory->boxes = b;
    }
    (void)pthread_mutex_unlock(&ncs_lock);
    if (made && was_last) {
        give_memory_back(b->memory, b->limits.memory);
        free(b->memory);
    }
    return made;
}

/* Whether it is claimed for nobody. A reset by a box beside it is waited for. */
static int claim_to_free(NcsBox *b) {
    while (!ncs_box_claim(b, &nobody)) {
        const Thread *owner = __atomic_load_n(&b->owner, __ATOMIC_SEQ_CST);
        if (owner != NULL && owner != &resetter) {
            return 0;
        }
        (void)sched_yield();
    }
    return 1;
}

/* It is never released. */
int ncs_free(NcsBox *b) {
    if (b == NULL) {
        return 1;
    }
    if (!ncs_module_is_ours(b->module) || !claim_to_free(b)) {
        return 0;
    }
    if (!leave(b)) {
        b->dead = 1;
        ncs_box_release(b);
        return 0;
    }
    ncs_module_drop(b->module);
    free(b);
    return 1;
}

/* Under ncs_lock. Claims all boxes of the memory, or none. */
static int claim_all(Memory *memory) {
    NcsBox *b = memory->boxes, *back;
    while (b != NULL && ncs_box_claim(b, &resetter)) {
        b = b->next;
    }
    for (back = memory->boxes; b != NULL && back != b; back = back->next) {
        ncs_box_release(back);
    }
    return b == NULL;
}

/* Under ncs_lock. Gives them back. */
static void release_all(Memory *memory, int dead) {
    NcsBox *b;
    for (b = memory->boxes; b != NULL; b = b->next) {
        revive(b);
        if (dead) {
            b->dead = 1;
        }
        ncs_box_release(b);
    }
}

int ncs_reset(NcsBox *b) {
    int made;
    if (!ncs_module_is_ours(b->module)) {
        return 0;
    }
    (void)pthread_mutex_lock(&ncs_lock);
    made = claim_all(b->memory);
    (void)pthread_mutex_unlock(&ncs_lock);
    if (!made) {
        return 0;
    }
    made = ncs_low_empty(b->data_at + DATA_LEAST, b->limits.memory - DATA_LEAST) && ncs_area_clear(b);
    if (made) {
        fill(b);
    }
    (void)pthread_mutex_lock(&ncs_lock);
    release_all(b->memory, !made);
    (void)pthread_mutex_unlock(&ncs_lock);
    return made;
}

void ncs_kill(NcsBox *b) {
    __atomic_store_n(&b->killed, 1, __ATOMIC_SEQ_CST);
}
