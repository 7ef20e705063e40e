/* Calls of a box, and its calls of the host. TRUSTED, NOT PROVED. [9, 10, 12, 14, 15, 18, 19, 20] */
#define _GNU_SOURCE
#include "inner.h"

#include <string.h>

#define FLAGS 0x202u         /* no direction, interrupts */
#define FLAGS_OF_CODE 0xCD5u /* those that code can change: CF, PF, AF, ZF, SF, DF and OF */

const char *ncs_how(uint32_t how) {
    static const char *const words[] = {"returned", "stopped", "faulted",  "late", "killed", "exited", "bad entry",
                                        "bad call", "denied",  "too deep", "dead", "busy",   "host"};
    return how < sizeof words / sizeof *words ? words[how] : "?";
}

/* An end that leaves everything as it is. */
static NcsEnd refused(uint32_t how) {
    NcsEnd end;
    memset(&end, 0, sizeof end);
    end.how = how;
    return end;
}

/* An end that leaves the box dead. */
static NcsEnd ended(NcsBox *b, const Thread *t, uint32_t how) {
    b->end = refused(how);
    b->end.place = t->place;
    memcpy(b->reg, t->reg, sizeof b->reg);
    b->dead = 1;
    return b->end;
}

static NcsEnd returned(const Thread *t) {
    NcsEnd end = refused(NCS_RETURNED);
    end.result = t->reg[EAX];
    end.high = t->reg[EDX];
    return end;
}

static NcsEnd trapped(NcsBox *b, const Thread *t) {
    ended(b, t, t->at_stop ? NCS_STOPPED : NCS_FAULTED);
    b->end.trap = t->trap;
    b->end.data = t->trap == PAGE_FAULT ? t->fault_at - b->data_at : 0;
    return b->end;
}

/* The stack of a call: the address to return to, which is a trampoline, and above it the arguments, at a multiple of 16. Whether there is
   room for it. A nested call begins where the code has left its stack pointer, which may be any number. */
static int lay_frame(const NcsBox *b, Thread *t, uint32_t top, unsigned count, const uint32_t *args) {
    uint32_t frame[1 + NCS_ARGS_MAX], len = 4 * (1 + count);
    uint64_t at = (((uint64_t)top - 4 * count) & ~15ull) - 4;
    if (top > b->limits.memory || !ncs_box_has(b, at, len)) {
        return 0;
    }
    frame[0] = NC_BUNDLE * OUT_RETURN;
    if (count != 0) {
        memcpy(frame + 1, args, 4 * count);
    }
    memcpy(ncs_box_data(b, (uint32_t)at), frame, len);
    memset(t->reg, 0, sizeof t->reg);
    t->reg[ESP] = (uint32_t)at;
    return 1;
}

/* A call-back returns where it was called. */
static __attribute__((noinline)) int is_innermost(const NcsBox *b, const Thread *t) {
    const Frame *c = t->depth != 0 ? &t->frames[t->depth - 1] : NULL;
    return ncs_thread == t && c != NULL && c->box == b && c->stack > (uintptr_t)__builtin_frame_address(0);
}

/* A call of the host: the address to return to and the arguments lie on the untrusted stack. They are read once, and judged. Whether the
   thread goes back, to t->place. If not, the box has ended. */
static int serve(NcsBox *b, Thread *t) {
    uint32_t words[1 + NCS_CALLBACK_ARGS], reg[8], sp = t->reg[ESP], slot = t->why - OUT_CALLBACK, args;
    uint64_t value;
    t->place = NC_BUNDLE * t->why;
    args = t->why == OUT_EXIT ? 1 : t->why >= OUT_CALLBACK && slot < b->callback_count ? b->callbacks[slot].args : NCS_CALLBACK_ARGS + 1;
    if (args > NCS_CALLBACK_ARGS || !ncs_box_has(b, sp, 4 * (1 + args))) {
        ended(b, t, NCS_BAD_CALL);
        return 0;
    }
    memcpy(words, ncs_box_data(b, sp), 4 * (1 + args));
    if (t->why == OUT_EXIT) {
        ended(b, t, NCS_EXITED);
        b->end.status = words[1];
        return 0;
    }
    memcpy(reg, t->reg, sizeof reg);
    b->nest_at = sp;
    value = b->callbacks[slot].function(b, b->callbacks[slot].user, words + 1);
    ncs_must(is_innermost(b, t), "a call-back has returned on another thread, or not to the innermost call");
    memcpy(t->reg, reg, sizeof reg);
    t->reg[EAX] = (uint32_t)value;
    t->reg[EDX] = (uint32_t)(value >> 32);
    t->reg[ECX] = 0;
    t->reg[ESP] = sp + 4;
    t->place = words[0] & ~(NC_BUNDLE - 1);
    if (!b->dead && b->denied) {
        ended(b, t, NCS_DENIED);
    }
    return !b->dead;
}

static int can_enter(const NcsBox *b, uint32_t place) {
    return place % NC_BUNDLE == 0 && place >= NC_START && place < b->module->limit;
}

/* Why the thread, which is in the host, can't go in, or NCS_RETURNED if it can. What happens behind this look the next tick sees. */
static uint32_t refuses(NcsBox *b, const Thread *t) {
    return !can_enter(b, t->place)        ? NCS_BAD_ENTRY
         : !ncs_module_is_ours(b->module) ? NCS_HOST
         : ncs_is_killed(t)               ? NCS_KILLED
         : t->used >= t->deadline         ? NCS_LATE
                                          : NCS_RETURNED;
}

/* Whether the thread has been inside. It has a seat just while it is, so a call-back holds no reclaim back, however long it takes. A thread
   that signals of the host's wait for comes out for a moment, keeps its seat, and goes back to its instruction [17, 26]. It serializes if
   it may have fetched what it executes first before: in live code, or where a text is new [18]. */
static int go_inside(NcsBox *b, Thread *t) {
    uint32_t texts = __atomic_load_n(&ncs_texts, __ATOMIC_SEQ_CST);
    int was_inside = 0;
    t->box = b;
    t->code_selector = b->module->selector;
    t->data_selector = b->memory->selector;
    t->flags = FLAGS;
    t->serializes = b->module->live != NULL || texts != t->texts;
    if (b->module->live != NULL) {
        ncs_seat_take(b->module->live, t);
    }
    do {
        if (!ncs_mask_in(t)) {
            t->why = OUT_LOST;
            break;
        }
        ncs_switch_in(t);
        t->texts = texts;
        ncs_mask_out(t);
        was_inside = 1;
        t->serializes = 1;
        t->flags = (t->flags & FLAGS_OF_CODE) | FLAGS;
    } while (t->why == OUT_SIGNALS && !ncs_is_over(t));
    ncs_seat_leave(t);
    return was_inside;
}

/* In and out until the call has ended. */
static NcsEnd run(NcsBox *b, Thread *t) {
    int entered = 0;
    for (;;) {
        uint32_t how = refuses(b, t);
        if (how != NCS_RETURNED) {
            return ended(b, t, how);
        }
        if (!go_inside(b, t) && !entered) {
            return refused(NCS_HOST);
        }
        entered = 1;
        switch (t->why) {
        case OUT_RETURN: return returned(t);
        case OUT_TRAP: return trapped(b, t);
        case OUT_LOST: return ended(b, t, NCS_HOST);
        case OUT_TICK:
        case OUT_SIGNALS: return ended(b, t, ncs_is_killed(t) ? NCS_KILLED : NCS_LATE);
        default:
            if (!serve(b, t)) {
                return b->end;
            }
        }
    }
}

/* ---- Calls that are under way */

/* glibc's: it calls the function if longjmp, pthread_exit or a cancellation leaves the frame in which the buffer is. */
#pragma weak _pthread_cleanup_push
#pragma weak _pthread_cleanup_pop
extern void _pthread_cleanup_push(struct _pthread_cleanup_buffer *buffer, void (*function)(void *), void *one);
extern void _pthread_cleanup_pop(struct _pthread_cleanup_buffer *buffer, int calls);

/* The innermost call ends, since nothing returns to it. Its box is dead. */
static void abandon_one(Thread *t) {
    Frame *c = &t->frames[t->depth - 1];
    NcsBox *b = c->box;
    ncs_seat_leave(t);
    t->place = 0;
    ended(b, t, NCS_HOST);
    if (b->module->live != NULL && ncs_module_is_ours(b->module)) {
        ncs_live_end(b->module->live);
    }
    t->box = t->depth > 1 ? t->frames[t->depth - 2].box : NULL;
    t->deadline = c->deadline;
    t->depth--;
    if (!c->nested) {
        ncs_box_release(b);
    }
}

/* Every call whose frame lies below this one's end was left, from the innermost on. */
static void abandon_below(Thread *t, uintptr_t stack) {
    while (t->depth != 0 && t->frames[t->depth - 1].stack <= stack) {
        abandon_one(t);
    }
}

void ncs_calls_abandon(Thread *t) {
    abandon_below(t, UINTPTR_MAX);
}

static void on_left(void *one) {
    if (ncs_thread != NULL) {
        abandon_below(ncs_thread, ((const Frame *)one)->stack);
    }
}

/* An inner call has no more time than is left of the outer one. AddressSanitizer would move the buffer away from the stack. */
static __attribute__((noinline, no_sanitize_address)) NcsEnd call(NcsBox *b, Thread *t, uint32_t place, int nested) {
    struct _pthread_cleanup_buffer buffer;
    NcsBox *outer_box = t->box;
    Frame *c = &t->frames[t->depth];
    NcsEnd end = refused(NCS_HOST);
    *c = (Frame){b, t->deadline, (uintptr_t)__builtin_frame_address(0), nested};
    __atomic_signal_fence(__ATOMIC_SEQ_CST);
    t->depth++;
    t->place = place;
    if (_pthread_cleanup_push != NULL) {
        _pthread_cleanup_push(&buffer, on_left, c);
    }
    if (ncs_thread_watch(t)) {
        uint64_t own = t->used + b->limits.milliseconds * MILLISECOND + 2 * TICK; /* the last tick may be that long ago */
        t->begins = t->depth == 1;
        t->deadline = t->depth > 1 && c->deadline < own ? c->deadline : own;
        end = run(b, t);
    }
    if (_pthread_cleanup_pop != NULL) {
        _pthread_cleanup_pop(&buffer, 0);
    }
    t->box = outer_box;
    t->deadline = c->deadline;
    t->depth--;
    return end;
}

/* The box is the thread's, and lives. Its stack begins at `top`. */
static NcsEnd begin(NcsBox *b, Thread *t, uint32_t place, int nested, unsigned count, const uint32_t *args) {
    Live *live = b->module->live;
    uint32_t how;
    NcsEnd end;
    if (t->depth >= b->limits.depth) {
        return refused(NCS_TOO_DEEP);
    }
    if (!can_enter(b, place)) {
        return refused(NCS_BAD_ENTRY);
    }
    how = live != NULL ? ncs_live_begin(live) : NCS_RETURNED;
    if (how != NCS_RETURNED) {
        return refused(how);
    }
    if (lay_frame(b, t, nested ? b->nest_at : b->stack, count, args)) {
        end = call(b, t, place, nested);
    } else {
        t->place = 0;
        end = ended(b, t, NCS_BAD_CALL);
    }
    if (live != NULL) {
        ncs_live_end(live);
    }
    return end;
}

NcsEnd ncs_call(NcsBox *b, NcsAt function, unsigned count, const uint32_t *args) {
    Thread *t = ncs_thread_get();
    NcsEnd end;
    int nested;
    if (t == NULL || count > NCS_ARGS_MAX || !ncs_module_is_ours(b->module)) {
        return refused(NCS_HOST);
    }
    abandon_below(t, (uintptr_t)__builtin_frame_address(0));
    nested = __atomic_load_n(&b->owner, __ATOMIC_RELAXED) == t;
    if (!nested && !ncs_box_claim(b, t)) {
        return refused(NCS_BUSY);
    }
    end = b->dead ? refused(NCS_DEAD) : begin(b, t, function.at, nested, count, args);
    if (!nested) {
        ncs_box_release(b);
    }
    return end;
}

NcsAt ncs_callback(NcsBox *b, NcsCallback function, void *user, unsigned args) {
    NcsAt at = {0};
    unsigned k = b->callback_count;
    if (k < NCS_CALLBACKS && args <= NCS_CALLBACK_ARGS && function != NULL) {
        b->callbacks[k].function = function;
        b->callbacks[k].user = user;
        b->callbacks[k].args = args;
        b->callback_count++;
        at.at = NCS_CALLBACK(k);
    }
    return at;
}

void ncs_deny(NcsBox *b) {
    if (ncs_thread != NULL && __atomic_load_n(&b->owner, __ATOMIC_RELAXED) == ncs_thread) {
        b->denied = 1;
    }
}
